"""The machine: what a run tells besides its text, the two kinds of machine, worlds, verify and the commands."""
import random
import unittest
from typing import List

from gvr import model
from gvr.model.generate import mutated, wild


def machine_lines(kind: type, text: bytes, tick: int) -> List[model.Line]:
    """The lines of the run by this kind of machine."""
    lines: List[model.Line] = []
    machine = kind(model.read(text), 300, 2000, model.ScriptWorld(tick), lines.append)
    machine.go()
    return lines


class Lines(unittest.TestCase):
    def test_whose_line_it_is_and_where_that_stands(self) -> None:
        text = b"sem s 0\ndef w\n  x <- acquire s within 5\n  return 7\nend\ndef main\n  a <- spawn w\n  rawlink a mark 3\n  join a\nend\n"
        told = [(line.text, line.greenlet, line.at) for line in model.run(model.read(text))]
        self.assertEqual(told, [
            ("start g0 main", 0, 6), ("park g0 join g1", 0, 9), ("start g1 w", 1, 2), ("park g1 acquire s until 5", 1, 3),
            ("block 5", None, None), ("turn 1 elapsed 5", None, None), ("late g1", 1, 3), ("end g1 value 7", 1, 4),
            ("turn 2 nothing 5", None, None), ("link 1 g1 mark 3", 1, 8), ("wake g0", 0, 9), ("end g0 value none", 0, 10),
            ("stop value none turns 3 moves 5", None, None)])

    def test_how_it_ended(self) -> None:
        run = model.run(model.read(b"def main\nraise Error 3\nend\n"))
        self.assertIsNone(run.end)
        self.assertEqual(len(list(run)), 3)
        assert run.end is not None
        self.assertEqual((run.end.cause, run.end.status, run.end.complaint), ("fault", 1, "main ended by Error(3)"))
        stopped = model.run(model.read(b"def main\nwhile true\nend\nend\n"), model.Options(moves=5))
        self.assertEqual([line.text for line in stopped], ["start g0 main", "stop no-moves turns 0 moves 5"])
        assert stopped.end is not None
        self.assertEqual((stopped.end.status, stopped.end.complaint), (6, "budget of moves spent"))


class TwoMachines(unittest.TestCase):
    """The machine that asks every condition anew, as MACHINE tells it, and the one with indexes make the same runs."""

    def test_any_statements(self) -> None:
        for seed in range(60):
            text = wild(seed).encode()
            with self.subTest(seed=seed):
                self.assertEqual(model.refusals(text), [])
                self.assertEqual(machine_lines(model.Machine, text, seed % 3), machine_lines(model.IndexedMachine, text, seed % 3))


class Worlds(unittest.TestCase):
    JOBS = b"native n 2\ndef main\na <- nspawn n sum 3\nb <- nspawn n echo 4\nx <- get a\nprint x\ny <- get b\nprint y\nend\n"

    def test_a_list_of_answers(self) -> None:
        answers = [model.Answer("done", 7, 2, model.Outcome("value", 4)), model.Answer("done", 9, 1, model.Outcome("value", 6))]
        lines: List[str] = []
        machine = model.Machine(model.read(self.JOBS), 9, 9, model.ListWorld(answers), lambda line: lines.append(line.text))
        machine.go()
        self.assertEqual([line for line in lines if line.startswith("turn")],
                         ["turn 1 done j2 7 value 4", "turn 2 done j1 9 value 6"])
        self.assertIn("print g0 6", lines)

    def test_threads(self) -> None:
        answered = model.answer(["run", "--native", "2"], self.JOBS)
        self.assertEqual((answered.status, answered.complaint), (0, ""))
        self.assertEqual(answered.out.count(b" done j"), 2)
        self.assertEqual(model.verify(model.read(self.JOBS), answered.out).lines, answered.out.count(b"\n"))

    def test_held(self) -> None:
        self.assertEqual(model.answer(["run", "--native", "2", "--order", "held"], self.JOBS), model.answer(["run"], self.JOBS))

    def test_jobs(self) -> None:
        self.assertEqual(model.job_outcome("sum", 4), model.Outcome("value", 10))
        self.assertEqual(model.job_outcome("sum", -1), model.Outcome("fault", model.VALUE_ERROR))
        self.assertEqual(model.job_outcome("collatz", 6), model.Outcome("value", 8))
        self.assertEqual(model.job_outcome("collatz", 0), model.Outcome("fault", model.VALUE_ERROR))
        self.assertEqual(model.job_outcome("collatz", 2**63 - 1), model.Outcome("fault", model.OVERFLOW))
        self.assertEqual(model.job_outcome("fail", 5), model.Outcome("fault", model.Fault("Error", 5)))


class Traces(unittest.TestCase):
    def test_lines_that_are_none(self) -> None:
        for text in ("", "start g0", "start g00 main", "print g0 01", "print g0 [1,2]", "print g0 Timeout", "park g0 sleep 5",
                     "park g0 join j1", "wake 0", "throw g0 Error", "end g0 none", "link 1 g1 mark -1", "job j1 g0 add 3",
                     "block nothing", "turn 1 done j1 0 value true", "stop value none", "turn 01 nothing 0", "wake g0 ",
                     "print g4294967296 1", "turn 1 nothing 18446744073709551616", "print g0 9223372036854775808"):
            with self.subTest(text):
                self.assertIsNone(model.read_line(text))

    def test_parts_of_a_line(self) -> None:
        line = model.read_line("turn 3 done j2 7 fault Error(-4)")
        assert line is not None
        self.assertEqual((line.word, line.what, line.turn, line.number, line.moment), ("turn", "done", 3, 2, 7))
        self.assertEqual(line.outcome, model.Outcome("fault", model.Fault("Error", -4)))
        park = model.read_line("park g12 get j3 until 10")
        assert park is not None
        self.assertEqual((park.greenlet, park.what, park.on, park.moment), (12, "get", "j3", 10))
        printed = model.read_line("print g0 [none, g1, Timeout(2)]")
        assert printed is not None
        self.assertEqual(printed.value, (None, model.G(1), model.Fault("Timeout", 2)))

    def test_every_line_of_a_run_is_read(self) -> None:
        for seed in range(20):
            for line in machine_lines(model.IndexedMachine, wild(f"read {seed}").encode(), 0):
                read = model.read_line(line.text)
                assert read is not None, line.text
                if line.greenlet is not None:
                    self.assertEqual(read.greenlet, line.greenlet)


class Commands(unittest.TestCase):
    def test_words_that_are_no_command(self) -> None:
        wrong: List[List[str]] = [
            [], ["runs"], ["run", "5"], ["run", "--turns"], ["run", "--turns", "0"], ["run", "--turns", "05"],
            ["run", "--turns=5", "--turns=5"], ["run", "--tick", "1", "--native", "1"], ["run", "--order", "held"],
            ["fmt", "--turns", "5"], ["storm"], ["verify", "--check", "laws", "--turns", "5"], ["run", "--turn=5"]]
        for words in wrong:
            with self.subTest(words):
                answered = model.answer(words, b"def main\nend\n")
                self.assertEqual(answered, (2, b"", "usage: gvr run, fmt, wsgi, serve, storm or verify"))

    def test_storm(self) -> None:
        self.assertEqual(model.answer(["storm", "--size", "3"], b"").out.decode(),
                         "storm 3\ngreenlets 4\nturns 5\nmoves 21\nmoment 0\nlines 24\n")

    def test_a_line_of_four_equals_signs(self) -> None:
        scenario, trace = b"def main\nend\n", b"start g0 main\nend g0 value none\nstop value none turns 0 moves 0\n"
        self.assertEqual(model.answer(["verify"], scenario + b"====\n" + trace), (0, b"verified lines 3\n", ""))
        self.assertEqual(model.answer(["verify"], scenario).complaint, "line 2: reason 24: no line of four equals signs")
        self.assertEqual(model.answer(["verify"], scenario + b"====").complaint, "trace line 1: cause 4: trace too short")
        self.assertEqual(model.answer(["verify"], b"====\n").complaint, "line 1: reason 14: no main")


class Changes(unittest.TestCase):
    def test_the_same_seed_gives_the_same_text(self) -> None:
        self.assertEqual(wild(5), wild(5))
        self.assertEqual(mutated(wild(5), random.Random(1)), mutated(wild(5), random.Random(1)))

    def test_most_changes_are_refused(self) -> None:
        chance = random.Random(3)
        refused = sum(bool(model.refusals(mutated(wild(seed), chance))) for seed in range(60))
        self.assertGreater(refused, 25)


if __name__ == "__main__":
    unittest.main()
