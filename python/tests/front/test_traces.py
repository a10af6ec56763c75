"""Traces by line: turns and moments, statistics, differences, JSON lines, colours, who waits."""
import json
import unittest
from typing import List

from gvr.front import colour, compare, json_lines, stats, waiting
from gvr.front.program import TOP
from gvr.front.traces import Entry, entries

WHO_FIRST = (TOP / "examples/who_first.trace").read_text().splitlines()
CIRCLE = (TOP / "examples/circle.trace").read_bytes()


def read(text: str) -> List[Entry]:
    return list(entries(text.split("|")))


class Turns(unittest.TestCase):
    def test_turns_and_moments_as_the_page_tells_them(self) -> None:
        found = {it.text: (it.turn, it.moment) for it in entries(WHO_FIRST)}
        self.assertEqual(found["park g0 sleep until 5"], (0, 0))
        self.assertEqual(found["start g1 ends"], (1, 0))
        self.assertEqual(found["turn 1 elapsed 5"], (1, 5))
        self.assertEqual(found["end g4 value none"], (2, 5))
        self.assertEqual(found["wake g2"], (3, 5))
        self.assertEqual(found["wake g0"], (4, 6))

    def test_a_turn_without_a_turn_line(self) -> None:
        found = read("start g0 main|park g0 join g0|block none|throw g0 LoopExit|park g0 sleep until 3|block 3|turn 2 elapsed 3|wake g0")
        self.assertEqual([it.turn for it in found], [0, 0, 1, 1, 1, 2, 2, 3])

    def test_a_done_line_has_its_moment(self) -> None:
        self.assertEqual(read("start g0 main|job j1 g0 sum 3|park g0 get j1|block jobs|turn 1 done j1 40 value 6")[-1].moment, 40)

    def test_whose_a_line_is_and_its_words(self) -> None:
        found = read("link 1 g2 g3|job j1 g4 sum 3|print g5 [1, none]|block none|park g6 qput q until 7")
        self.assertEqual([(it.greenlet, it.words) for it in found],
                         [(2, ["1", "g3"]), (4, ["j1", "sum", "3"]), (5, ["[1, none]"]), (None, ["none"]),
                          (6, ["qput", "q", "until", "7"])])

    def test_what_is_no_line(self) -> None:
        for text in ("start", "wake x1", "turn", "job j1", "", "sleep g1"):
            with self.assertRaises(ValueError):
                read(text)


class Stats(unittest.TestCase):
    def test_waits_of_each(self) -> None:
        found = read("start g0 main|park g0 sleep until 5|start g1 w|park g1 acquire s|block 5|turn 1 elapsed 5|wake g0|park g0 join g1|"
                     "block none|throw g0 LoopExit|end g0 fault LoopExit|stop fault LoopExit turns 2 moves 4")
        lines = stats.table(found).splitlines()
        self.assertEqual([line.split() for line in lines[1:3]],
                         [["g0", "main", "3", "2", "5", "5", "sleep,", "line", "2"],
                          ["g1", "w", "1", "1", "5", "5", "acquire", "s,", "line", "4,", "to", "the", "end"]])
        self.assertEqual(lines[3], "12 lines, moment 5 at the end: stop fault LoopExit turns 2 moves 4")


class Differences(unittest.TestCase):
    A = "start g0 main|park g0 join g1|start g1 w|print g1 1|end g1 value none|turn 1 nothing 0|wake g0|end g0 value none|stop value none turns 2 moves 3"

    def test_same(self) -> None:
        self.assertEqual(compare.compared(read(self.A), read(self.A)), "")

    def test_another_value(self) -> None:
        told = compare.compared(read(self.A), read(self.A.replace("print g1 1", "print g1 2")))
        self.assertEqual(told, "line 4 is the first that differs: 'print g1 1' and 'print g1 2'\ng1\n  - print g1 1  (turn 1 at 0)\n"
                               "  + print g1 2  (turn 1 at 0)\nthe same in both: g0, the loop\n")

    def test_another_turn(self) -> None:
        later = self.A.replace("wake g0", "turn 2 nothing 3|wake g0").replace("turns 2", "turns 3")
        told = compare.compared(read(self.A), read(later))
        self.assertIn("g0\n  ~ wake g0  (turn 2 at 0, turn 3 at 3)\n  ~ end g0 value none  (turn 2 at 0, turn 3 at 3)\n", told)
        self.assertIn("\n  + turn 2 nothing 3  (turn 2 at 3)\n", told)
        self.assertIn("the same in both: g1\n", told)

    def test_a_beginning(self) -> None:
        told = compare.compared(read(self.A), read(self.A.rpartition("|")[0]))
        self.assertTrue(told.startswith("line 9 is the first that differs: 'stop value none turns 2 moves 3' and nothing\n"))


class JsonLines(unittest.TestCase):
    def test_a_line(self) -> None:
        found = list(json_lines.json_lines(read("start g0 main|print g0 [1, 2]"), [1, None]))
        self.assertEqual(json.loads(found[0]), {"number": 1, "turn": 0, "moment": 0, "kind": "start", "greenlet": 0,
                                                "words": ["main"], "line": 1})
        self.assertEqual(json.loads(found[1])["words"], ["[1, 2]"])
        self.assertIsNone(json.loads(found[1])["line"])

    def test_head(self) -> None:
        told = json.loads(json_lines.head("model", ["run", "--tick", "1"]))
        self.assertEqual((told["format"], told["version"], told["by"], told["words"]),
                         ("gvr trace", 1, "model", ["run", "--tick", "1"]))


class Colours(unittest.TestCase):
    def test_text_and_line_feed_stay(self) -> None:
        for line in (b"start g0 main\n", b"end g0 fault Empty\n", b"wake g1"):
            drawn = colour.coloured(line)
            self.assertNotEqual(drawn, line)
            self.assertEqual(drawn.endswith(b"\n"), line.endswith(b"\n"))
            self.assertIn(line.rstrip(b"\n"), drawn)

    def test_none_in_a_file(self) -> None:
        with open("/dev/null", "w") as stream:
            self.assertFalse(colour.is_colourful(stream))


class WhoWaits(unittest.TestCase):
    def test_a_circle(self) -> None:
        self.assertEqual(waiting.blocks(CIRCLE), [(9, ["g0 wait e", "g1 acquire s", "g2 qget q", "g3 join g2"])])

    def test_told_of_each(self) -> None:
        self.assertEqual(waiting.told_of(CIRCLE), "nobody could go on, trace line 9:\n  g0 wait e\n  g1 acquire s\n  g2 qget q\n  g3 join g2\n")
        self.assertEqual(waiting.told_of((TOP / "examples/hello.trace").read_bytes()), "")

    def test_of_many_the_first_ones_and_the_last(self) -> None:
        trace = b"start g0 main\n" + b"park g0 wait e\nblock none\nthrow g0 LoopExit\n" * 25
        told = waiting.told_of(trace).splitlines()
        self.assertEqual(told[:2] + told[-4:], ["nobody could go on, trace line 3:", "  g0 wait e", "  g0 wait e",
                                                "and so 15 times more; at last:", "nobody could go on, trace line 75:", "  g0 wait e"])
        self.assertEqual(len(told), 21)

    def test_a_trace_in_pieces(self) -> None:
        for size in (1, 3, 11, 4096):
            watched = waiting.Watch()
            for at in range(0, len(CIRCLE), size):
                watched.see(CIRCLE[at : at + size])
            self.assertTrue(watched.is_stuck, size)
        watched = waiting.Watch()
        watched.see(b"start g0 main\nblock none")
        self.assertFalse(watched.is_stuck)

    def test_which_scenarios_may_go_on(self) -> None:
        for line in (b"  except LoopExit f", b"except Exception", b"    except any"):
            self.assertTrue(waiting.may_go_on(b"def main\n" + line + b"\n"), line)
        for line in (b"  except Timeout f", b"  # except any", b"  print 1"):
            self.assertFalse(waiting.may_go_on(b"def main\n" + line + b"\n"), line)


if __name__ == "__main__":
    unittest.main()
