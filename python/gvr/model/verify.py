"""Whether a trace is the run of a scenario under the answers that its turn lines name; whether it keeps the laws.
LANGUAGE, `verify`; EXPLAIN, "Traces that are not verified"."""
from typing import List, NamedTuple, Optional, Tuple

from .indexed import IndexedMachine
from .items import Line
from .trace import Laws, TraceLine, read_line
from .tree import Scenario
from .worlds import Answer, Question, World

CAUSES = {1: "not a trace line", 2: "not the line of the run", 3: "answer not legal", 4: "trace too short",
          5: "trace goes on after its end"}


class Verdict(NamedTuple):
    """lines: how many the trace has, where it is verified; else the first line that is wrong, with cause or law."""
    lines: Optional[int]
    line: int = 0
    cause: int = 0
    law: int = 0

    def __str__(self) -> str:
        if self.lines is not None:
            return f"verified lines {self.lines}"
        why = f"law {self.law}" if self.law else f"cause {self.cause}: {CAUSES[self.cause]}"
        return f"trace line {self.line}: {why}"


class Wrong(Exception):
    """A line is wrong."""

    def __init__(self, line: int, cause: int) -> None:
        super().__init__(line, cause)
        self.verdict = Verdict(None, line, cause)


def lines_of(trace: bytes) -> List[Tuple[str, bool]]:
    """The lines, and whether each has its line feed. A byte past ASCII stays one character."""
    parts = trace.decode("latin-1").split("\n")
    found = [(part, True) for part in parts[:-1]]
    return found + ([(parts[-1], False)] if parts[-1] else [])


class TraceWorld(World):
    """Answers by the turn line that stands next in the trace, and holds each line of the run against the trace's."""

    def __init__(self, trace: bytes) -> None:
        super().__init__()
        self.lines, self.at, self.turn = lines_of(trace), 0, 0

    def next_line(self) -> TraceLine:
        """The line that stands next."""
        if self.at == len(self.lines):
            raise Wrong(self.at + 1, 4)
        text, is_whole = self.lines[self.at]
        line = read_line(text) if is_whole else None
        if line is None:
            raise Wrong(self.at + 1, 1)
        return line

    def answer(self, question: Question) -> Answer:
        line = self.next_line()
        if line.word != "turn" or line.turn != self.turn:
            raise Wrong(self.at + 1, 2)
        answer = Answer(line.what, line.moment or 0, line.number, line.outcome)
        if not self.is_legal(question, answer):
            raise Wrong(self.at + 1, 3)
        return answer

    def tell(self, line: Line) -> None:
        """The run has this line next."""
        if self.at < len(self.lines) and self.lines[self.at] == (line.text, True):
            self.at += 1
            return
        self.next_line()
        raise Wrong(self.at + 1, 2)


class VerifyingMachine(IndexedMachine):
    """Tells its world which turn it is."""

    def end_of_turn(self) -> None:
        assert isinstance(self.world, TraceWorld)
        self.world.turn = self.turns
        super().end_of_turn()


def verify(scenario: Scenario, trace: bytes, turns: int = 1000000, moves: int = 10000000) -> Verdict:
    """Whether the trace is the run."""
    world = TraceWorld(trace)
    try:
        VerifyingMachine(scenario, turns, moves, world, world.tell).go()
        if world.at < len(world.lines):
            raise Wrong(world.at + 1, 5)
    except Wrong as wrong:
        return wrong.verdict
    return Verdict(len(world.lines))


def check_laws(trace: bytes) -> Verdict:
    """Whether the lines keep the laws."""
    laws = Laws()
    number = 0
    for number, (text, is_whole) in enumerate(lines_of(trace), 1):
        line = read_line(text) if is_whole else None
        if line is None:
            return Verdict(None, number, cause=1)
        law = laws.broken_by(line)
        if law is not None:
            return Verdict(None, number, law=law)
    return Verdict(number)
