"""The model against the worked rows, the examples and the pages: what stands there was written by hand, or proved."""
import pathlib
import re
import unittest
from typing import Iterator, List, NamedTuple, Optional, Tuple

from gvr import model

TOP = pathlib.Path(__file__).resolve().parents[3]
EXPLAIN = (TOP / "docs/EXPLAIN.md").read_text()
# What a row of EXPLAIN stands behind where it is no function of its own.
BODY = "event e\nsem s 1\ndef w\nend\ndef main\na <- spawn w\nb <- spawn w\nlet i 0\nlet n 1\n"
COMMANDS = ("run", "fmt", "verify", "storm")
# Rows of a million kills, or of millions of moves: each takes minutes here.
LONG = ("limit of kills", "many waiters", "storm of 19000")


class Row(NamedTuple):
    """A worked row; of `lines` lines only the end stands in out."""
    name: str
    words: List[str]
    given: str
    status: int
    out: str
    complaint: str
    lines: Optional[int]


def worked_rows() -> Iterator[Row]:
    """The worked rows that a model can answer."""
    text = (TOP / "crates/worked_runs/stdin").read_text()
    for row in re.split(r"^==== ", text, flags=re.M)[1:]:
        name, rest = row.split("\n", 1)
        ways = re.findall(r"^\.\.\.\. (.*)\n", rest, re.M)
        words, rest = re.sub(r"^\.\.\.\. .*\n", "", rest, flags=re.M).split("\n", 1)
        if words.split(" ")[0] not in COMMANDS or "--native" in words or name in LONG:
            continue
        given, ended, *said = re.split(r"^---- ", rest, flags=re.M)
        status, out = ended.split("\n", 1)
        lines = [int(way.split()[1]) for way in ways if way.startswith("lines ")]
        yield Row(name, words.split(), given, int(status), out, "".join(said), lines[0] if lines else None)


def said(answered: model.Answered) -> str:
    """The line on standard error."""
    return f"gvr: {answered.complaint}\n" if answered.complaint else ""


class WorkedRows(unittest.TestCase):
    def test_each_row(self) -> None:
        rows = list(worked_rows())
        self.assertGreater(len(rows), 200)
        for row in rows:
            with self.subTest(row.name):
                answered = model.answer(row.words, row.given.encode())
                out = answered.out.decode()
                self.assertEqual((answered.status, said(answered)), (row.status, row.complaint))
                if row.lines is None:
                    self.assertEqual(out, row.out)
                else:
                    self.assertEqual(out.count("\n"), row.lines)
                    self.assertTrue(out.endswith(row.out))


class Examples(unittest.TestCase):
    def test_each_example(self) -> None:
        files = sorted(TOP.glob("examples/**/*.gvr"))
        self.assertGreater(len(files), 100)
        for file in files:
            with self.subTest(file.name):
                first = re.match(r"# (run .*)\n", file.read_text())
                words = first[1].split() if first else ["run"]
                answered = model.answer(words, file.read_bytes())
                complaint = file.with_suffix(".err")
                self.assertEqual(answered.out.decode(), file.with_suffix(".trace").read_text())
                self.assertEqual(said(answered), complaint.read_text() if complaint.is_file() else "")

    def test_each_trace_is_verified_and_keeps_the_laws(self) -> None:
        for file in sorted(TOP.glob("examples/**/*.gvr")):
            with self.subTest(file.name):
                trace = file.with_suffix(".trace").read_bytes()
                count = trace.count(b"\n")
                first = re.search(r"--(turns|moves)[ =](\d+)", file.read_text().split("\n", 1)[0])
                budget = {first[1]: int(first[2])} if first else {}
                verdict = model.verify(model.read(file.read_bytes()), trace, **budget)
                self.assertEqual(verdict, model.Verdict(count))
                self.assertEqual(model.check_laws(trace), model.Verdict(count))

    def test_each_printed_form_is_its_own(self) -> None:
        for file in sorted(TOP.glob("examples/**/*.gvr")):
            with self.subTest(file.name):
                scenario = model.read(file.read_bytes())
                printed = model.printed(scenario)
                self.assertEqual(model.printed(model.read(printed.encode())), printed)
                words = [line.split() for line in file.read_text().splitlines()]
                carried = [each for each in words if each and not each[0].startswith("#")]
                self.assertEqual([line.split() for line in printed.splitlines()], carried)


def as_bytes(shown: str) -> bytes:
    """The text of a cell: a bar ends a line, and quotes begin an expression of Python."""
    shown = " ".join(shown.split())
    text = eval(shown) if shown.startswith('"') else shown.replace("\\|", "|").replace("|", "\n") + "\n"
    return str(text).encode()


class Explain(unittest.TestCase):
    def refusal(self, text: bytes) -> Tuple[int, int]:
        with self.assertRaises(model.Refused) as caught:
            model.read(text)
        self.assertEqual(model.refusals(text)[0], caught.exception.refusal)
        return caught.exception.line, caught.exception.reason

    def test_each_reason(self) -> None:
        table = EXPLAIN.partition("| Reason | Line |")[2].partition("\n\n")[0].splitlines()[2:]
        told = [[cell.strip(" `") for cell in re.split(r"(?<!\\)\|", row)[1:-1]] for row in table]
        self.assertEqual([int(said.split()[0]) for said, *_ in told], [*range(1, 23), 26])
        for said, line, refused, _, mended in told:
            number = said.split()[0]
            with self.subTest(reason=number):
                self.assertEqual(self.refusal(as_bytes(refused)), (int(line), int(number)))
                self.assertEqual(model.refusals(as_bytes(mended)), [])

    def test_what_newcomers_write(self) -> None:
        table = EXPLAIN.partition("| You wrote |")[2].partition("\n\n")[0].splitlines()[2:]
        self.assertGreater(len(table), 25)
        for line in table:
            cells = [cell.strip() for cell in re.split(r"(?<!\\)\|", line)[1:-1]]
            for wrote in re.findall(r"`([^`]*)`", cells[0]):
                with self.subTest(wrote):
                    self.assertEqual(self.refusal(self.whole(wrote))[1], int(cells[1].split()[0]))
            for write in re.findall(r"`([^`]*)`", cells[3]):
                with self.subTest(write):
                    self.assertEqual(model.refusals(self.whole(write)), [])

    @staticmethod
    def whole(cell: str) -> bytes:
        text = cell.replace("\\|", "\n")
        return (text + "\n" if re.search("^def ", text, re.M) else BODY + text + "\nend\n").encode()

    def test_each_cause(self) -> None:
        trace = (TOP / "examples/hello.trace").read_bytes()
        scenario = model.read((TOP / "examples/hello.gvr").read_bytes())
        lines = trace.splitlines(True)
        wrong = [(trace.replace(b"print g0 2", b"print g0 02"), 2, 1), (b"".join(lines[:1] + lines[2:]), 2, 2),
                 (trace.replace(b"turn 1 nothing 0", b"turn 1 elapsed 0"), 7, 3), (b"".join(lines[:3]), 4, 4),
                 (trace + trace, 12, 5)]
        for text, line, cause in wrong:
            with self.subTest(cause=cause):
                self.assertEqual(model.verify(scenario, text), model.Verdict(None, line, cause))

    def test_each_law(self) -> None:
        table = EXPLAIN.partition("| Law |")[2].partition("\n\n")[0].splitlines()[2:]
        self.assertEqual(len(table), 6)
        for row in table:
            law, broken, line, kept = [cell.strip() for cell in re.split(r"(?<!\\)\|", row)[1:-1]]
            with self.subTest(law):
                verdict = model.check_laws(as_bytes(broken.strip("`")))
                self.assertEqual(verdict, model.Verdict(None, int(line), law=int(law[0])))
                self.assertIsNotNone(model.check_laws(as_bytes(kept.strip("`"))).lines)


if __name__ == "__main__":
    unittest.main()
