"""That the programs of examples/live and the scenarios of examples/patterns come to what stands beside them."""
import importlib.util
import re
import unittest
from typing import Dict, List

import examples

HAS_GREENLET, HAS_GEVENT = (importlib.util.find_spec(name) is not None for name in ("greenlet", "gevent"))
# What gevent decides otherwise, by rules that docs/FROM_GEVENT.md has.
DIFFER = {"hot_lock", "pool_map", "two_kill_each_other"}
# Its moments are those of the clock on the wall.
BY_THE_CLOCK = {"heartbeat"}


def rows(page: str) -> Dict[str, List[str]]:
    """By the name in its first cell, each row of a page's table."""
    found = {}
    for line in page.splitlines():
        cells = [cell.strip() for cell in line.split("|")[1:-1]]
        name = re.fullmatch(r"`(\w+)`", cells[0]) if cells else None
        if name:
            found[name[1]] = cells[1:]
    return found


def outcome(trace: str) -> str:
    """The values that were printed, each with its greenlet, and the end, as FROM_GEVENT writes them."""
    links, told = set(), []
    for words in (line.split(" ") for line in trace.splitlines()):
        if words[0] == "link":
            links.add(words[3])
        elif words[0] == "print":
            told.append(" ".join(["link" if words[1] in links else words[1], *words[2:]]))
        elif words[0] == "stop":
            told.append("end" if words[1:3] == ["value", "none"] else f"end: {' '.join(words[1:-4])}")
    return "; ".join(told)


class Programs(unittest.TestCase):
    def test_there_are_as_many_as_told(self) -> None:
        self.assertGreaterEqual(len(examples.names()), 24)

    def test_each_has_a_question_and_stands_in_the_list(self) -> None:
        asked = {name: examples.question((examples.LIVE / f"{name}.py").read_text()) for name in examples.names()}
        told = rows((examples.LIVE / "README.md").read_text())
        self.assertEqual({name: cells[0] for name, cells in told.items()}, asked)
        for name, text in asked.items():
            self.assertTrue(text.endswith("?"), name)

    @unittest.skipUnless(HAS_GREENLET, "needs greenlet, Debian's python3-greenlet")
    def test_each_writes_what_stands_beside_it(self) -> None:
        for name, ran in examples.run_all(examples.names()).items():
            with self.subTest(name):
                self.assertEqual(examples.differences(name, ran), [])

    def test_each_record_replays_and_verifies(self) -> None:
        for name in examples.names():
            record, trace = ((examples.LIVE / f"{name}.{kind}").read_text() for kind in ("gvr", "trace"))
            with self.subTest(name):
                self.assertEqual(examples.replay(record).output, trace)
                if not record.startswith("# run "):
                    lines = trace.count("\n")
                    self.assertEqual(examples.verify(record, trace)[:2], (0, f"verified lines {lines}\n"))


@unittest.skipUnless(HAS_GEVENT, "needs gevent, Debian's python3-gevent")
class UnderGevent(unittest.TestCase):
    def test_gevent_itself_writes_the_same_in_virtual_time(self) -> None:
        chosen = [name for name in examples.names() if name not in BY_THE_CLOCK]
        came = examples.in_virtual_time(chosen)
        same = {name for name in chosen if came[name] == (examples.LIVE / f"{name}.out").read_text()}
        self.assertEqual(set(chosen) - same, DIFFER)

    def test_the_index_says_where_gevent_differs(self) -> None:
        told = rows((examples.LIVE / "README.md").read_text())
        self.assertEqual({name for name, cells in told.items() if cells[1].startswith("differs")}, DIFFER)


class Patterns(unittest.TestCase):
    def test_there_are_twenty_and_each_has_its_program(self) -> None:
        there = examples.names(examples.PATTERNS, "gvr")
        self.assertEqual(len(there), 20)
        self.assertEqual(set(there) - set(examples.names()), set())

    def test_each_has_a_question_with_an_answer_and_stands_in_the_list(self) -> None:
        told = rows((examples.PATTERNS / "README.md").read_text())
        self.assertEqual(list(told), examples.names(examples.PATTERNS, "gvr"))
        for name, cells in told.items():
            text = (examples.PATTERNS / f"{name}.gvr").read_text()
            with self.subTest(name):
                self.assertEqual(cells[0], examples.question(text))
                self.assertTrue(cells[0].endswith("?"))
                self.assertGreater(len(re.findall(r"^# ", text, re.M)), cells[0].count("# ") + 1)

    def test_each_comes_to_its_trace_and_to_what_is_told(self) -> None:
        told = rows((examples.PATTERNS / "README.md").read_text())
        for name in told:
            scenario, trace = ((examples.PATTERNS / f"{name}.{kind}").read_text() for kind in ("gvr", "trace"))
            with self.subTest(name):
                self.assertEqual(outcome(trace), told[name][1])
                self.assertEqual(examples.replay(scenario), examples.Answer(0, trace, ""))


if __name__ == "__main__":
    unittest.main()
