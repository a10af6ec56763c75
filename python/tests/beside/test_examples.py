"""Every scenario of examples/ by every adapter that is there: each answers; what differs of gevent has its rules."""
import pathlib
import sys
import unittest
from typing import List, Tuple

from gvr.beside.events import Difference, Run, void
from gvr.beside.rules import explain, sets
from gvr.beside.sides import Adapter, Gvr, adapter, checked, interpreter, limits_of
from gvr.model import read

TOP = pathlib.Path(__file__).resolve().parents[3]


def examples() -> List[Tuple[str, str]]:
    """(name, text) of each scenario that is not refused."""
    texts = [(str(path.relative_to(TOP)), path.read_text()) for path in sorted((TOP / 'examples').rglob('*.gvr'))]
    return [(name, text) for name, text in texts if checked(text) is not None]


EXAMPLES = examples()
GEVENT = frozenset(sets()['gevent'])


class Examples(unittest.TestCase):
    def answers(self, side: Adapter) -> List[Run]:
        """The runs of all scenarios. The adapter answers all, and does not end at any."""
        runs = side.run_all([read(text.encode()) for _, text in EXAMPLES])
        side.close()
        self.assertEqual(side.deaths, [])
        self.assertEqual(len(runs), len(EXAMPLES))
        self.assertTrue(all(run[-1]['ev'] == 'stop' for run in runs))
        return runs

    def mapped(self, runs: List[Run]) -> int:
        """How many it maps."""
        return sum(void(run) != 'unsupported' for run in runs)

    def test_there_are_scenarios(self) -> None:
        self.assertGreater(len(EXAMPLES), 190)

    @unittest.skipUnless(interpreter('gevent'), 'no Python here has gevent')
    def test_gevent_and_what_explains_its_differences(self) -> None:
        runs = self.answers(adapter('gevent', '--ordered-groups'))
        self.assertGreater(self.mapped(runs), 190)
        for (name, text), theirs in zip(EXAMPLES, runs):
            gvr = Gvr(limits_of(text))
            if void(theirs) or void(gvr.run(text)) or not Difference(theirs, gvr.run(text, None, GEVENT)):
                continue
            with self.subTest(name):
                self.assertIsNotNone(explain(lambda rules: not Difference(theirs, gvr.run(text, None, rules))))

    @unittest.skipUnless(interpreter('asyncio'), 'no Python here has asyncio')
    def test_asyncio(self) -> None:
        self.assertGreater(self.mapped(self.answers(adapter('asyncio'))), 40)

    @unittest.skipUnless(interpreter('trio'), 'no Python here has trio')
    def test_trio(self) -> None:
        self.assertGreater(self.mapped(self.answers(adapter('trio'))), 20)

    def test_the_smallest_adapter(self) -> None:
        smallest = Adapter([sys.executable, str(TOP / 'examples/beside/smallest_adapter.py')])
        self.assertGreater(self.mapped(self.answers(smallest)), 4)


if __name__ == '__main__':
    unittest.main()
