"""The adapter that docs/BESIDE.md begins with: it answers, and finds what its runtime decides otherwise."""
import pathlib
import sys
import unittest

from gvr.beside.events import Difference, outcome
from gvr.beside.sides import Adapter, Gvr

TOP = pathlib.Path(__file__).resolve().parents[3]
ADAPTER = [sys.executable, str(TOP / "examples/beside/smallest_adapter.py")]

SAME = """def w n
  sleep 5
  print n
end
def main
  a <- spawn w 1
  b <- spawn w 2
  join a
  join b
  print 3
end
"""
KILLS = "def w\n  sleep 5\nend\ndef main\n  a <- spawn w\n  kill a\nend\n"


class SmallestAdapter(unittest.TestCase):
    def setUp(self) -> None:
        self.adapter = Adapter(ADAPTER)
        self.addCleanup(self.adapter.close)

    def test_it_is_small(self) -> None:
        self.assertLessEqual(len(pathlib.Path(ADAPTER[1]).read_text().splitlines()), 60)

    def test_two_sleepers_of_one_moment_go_on_in_order(self) -> None:
        events = self.adapter.run(SAME)
        self.assertEqual(outcome(events), "g1 1; g2 2; g0 3; end")
        self.assertFalse(Difference(events, Gvr().run(SAME)))

    def test_what_has_no_counterpart_is_void(self) -> None:
        events = self.adapter.run(KILLS)
        self.assertEqual([event["what"] for event in events if event["ev"] == "unsupported"], ["kill"])


if __name__ == "__main__":
    unittest.main()
