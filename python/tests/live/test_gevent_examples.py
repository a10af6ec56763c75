"""The programs of examples/gevent, unchanged, under the façade: each prints what gvr prints for its scenario."""
import contextlib
import glob
import io
import os
import re
import shutil
import sys
import tempfile
import unittest
from typing import Dict, List

from gvr.live.by_model import by_model
from gvr.live.certificate import certify
from gvr.live.decider import Options
from gvr.live.program import Program, run_program

HERE = os.path.dirname(os.path.abspath(__file__))
EXAMPLES = os.path.join(HERE, *[os.pardir] * 3, 'examples', 'gevent')
# Those that print otherwise, and why.
OTHERWISE: Dict[str, str] = {
    'joinall_count_order': "gevent's joinall promises the order of readiness, which the façade keeps; gvr's statement "
                           "gives the order of the list",
    'count_stops': "gevent's joinall answers with count greenlets at most, and so does the façade; gvr's statement "
                   "gives all that have ended",
    'killall_late': "gevent's killall promises to raise its Timeout, which the façade does; gvr's statement goes on",
    'job_last': "the façade's ThreadPool posts a job by a greenlet of its own, whose end comes a turn after the job's",
    'one_job_more': "and so it is that greenlet, and not who spawns, that waits for a slot"}


def words_of(scenario: str) -> List[str]:
    with open(scenario, encoding='ascii') as f:
        first = f.readline().split()
    return first[2:] if first[:2] == ['#', 'run'] else []


def wanted(trace: str) -> List[str]:
    """The prints, the marks and the end of a trace."""
    with open(trace, encoding='ascii') as f:
        said = [re.sub('link .* mark ', 'mark ', line) for line in f.read().splitlines()]
    lines = [line for line in said if line.startswith(('print ', 'mark ', 'stop '))]
    return lines[:-1] + [lines[-1].split(' turns ')[0]]


class Examples(unittest.TestCase):
    def test_all(self) -> None:
        names = sorted(os.path.basename(p)[:-4] for p in glob.glob(os.path.join(EXAMPLES, '*.gvr')))
        names = [n for n in names if os.path.exists(os.path.join(EXAMPLES, n + '.py'))]
        self.assertGreaterEqual(len(names), 78)
        with tempfile.TemporaryDirectory() as folder:
            shutil.copy(os.path.join(HERE, 'cases', 'gcase.py'), folder)
            for name in names:
                shutil.copy(os.path.join(EXAMPLES, name + '.py'), folder)
            for name in names:
                with self.subTest(name):
                    said = self.under_facade(os.path.join(folder, name + '.py'), name)
                    same = said == wanted(os.path.join(EXAMPLES, name + '.trace'))
                    self.assertEqual(same, name not in OTHERWISE, said)

    def under_facade(self, path: str, name: str) -> List[str]:
        words = words_of(os.path.join(EXAMPLES, name + '.gvr'))
        numbers = {k[2:]: int(v) for k, v in zip(words[::2], words[1::2])}
        options = Options(turns=3000, tick=numbers.get('tick', 0))
        sys.modules.pop('gcase', None)
        out = io.StringIO()
        with contextlib.redirect_stdout(out):
            session, outcome = run_program(Program(path, (), options, prints=False, on_failure=lambda *_: None))
        certify(session, by_model(options))
        lines = out.getvalue().splitlines()
        return lines + [outcome[1].split(' turns ')[0]] if outcome[0] == 'stop' else lines


if __name__ == '__main__':
    unittest.main()
