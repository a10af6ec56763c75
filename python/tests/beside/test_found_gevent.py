"""The programs of docs/found for gevent's authors: each does what its page says, by gevent as it is installed."""
import os
import pathlib
import re
import subprocess
import unittest
from typing import Dict, Optional, Tuple

from gvr.beside.sides import PACKAGES, interpreter

PAGES = pathlib.Path(__file__).resolve().parents[3] / 'docs/found'
PYTHON = interpreter('gevent')
VIRTUAL = 'gvr.beside.adapters.virtual_loop.VirtualLoop'
# What each prints, the last line of its complaint, and the loop by which one moment is one moment.
SAID: Dict[str, Tuple[str, str, Optional[str]]] = {
    'gevent_lost_wake': ('', 'gevent.exceptions.LoopExit: This operation would block forever', None),
    'gevent_lost_set': ('False True\n', '', None),
    'gevent_killed_once': ('not killed\n', '', None),
    'gevent_late_reads': ('7\n', '', VIRTUAL)}


def version() -> str:
    """That of the installed gevent, or nothing."""
    if PYTHON is None:
        return ''
    asked = [PYTHON, '-c', 'import gevent; print(gevent.__version__)']
    return subprocess.run(asked, stdout=subprocess.PIPE, text=True).stdout.strip()


class Found(unittest.TestCase):
    def test_each_page_is_here(self) -> None:
        self.assertEqual({page.stem for page in PAGES.glob('gevent_*.md')}, set(SAID))

    @unittest.skipUnless(version() == '22.10.2', 'no gevent 22.10.2 here')
    def test_each_program_does_what_its_page_says(self) -> None:
        for name, (printed, complaint, loop) in SAID.items():
            with self.subTest(name):
                program = re.findall(r'^    (.*)$', (PAGES / (name + '.md')).read_text(), re.M)
                self.assertLessEqual(len(program), 10)
                words = dict(os.environ, PYTHONPATH=PACKAGES, **({'GEVENT_LOOP': loop} if loop else {}))
                ended = subprocess.run([str(PYTHON), '-c', '\n'.join(program)], env=words, timeout=60, text=True,
                                       stdout=subprocess.PIPE, stderr=subprocess.PIPE)
                self.assertEqual(ended.stdout, printed)
                self.assertIn(complaint, ended.stderr)


if __name__ == '__main__':
    unittest.main()
