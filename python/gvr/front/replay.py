"""What the model says of a trace: the line that the run has where a trace has another, and the lines of the scenario."""
import re
from typing import List, Optional, Sequence, Tuple

from gvr.model import Answer, Line, Question, Refused, read
from gvr.model.verify import TraceWorld, VerifyingMachine, Wrong

from . import explain
from .commands import BY_NAME
from .files import nth_line
from .words import read_call

USUAL_TURNS, USUAL_MOVES = 1000000, 10000000
SEPARATOR = b"\n====\n"


class Replay(TraceWorld):
    """The run of a scenario under the answers of a trace, as far as the two agree: its lines, and what the run has where
    they part."""

    def __init__(self, trace: bytes) -> None:
        super().__init__(trace)
        self.told: List[Line] = []
        self.has = ""

    def answer(self, question: Question) -> Answer:
        self.has = f"turn {self.turn} .."
        return super().answer(question)

    def tell(self, line: Line) -> None:
        self.has = line.text
        super().tell(line)
        self.told.append(line)


def budgets(words: Sequence[str]) -> Tuple[int, int]:
    """The turns and the moves of a call."""
    call = read_call(BY_NAME[words[0]], words[1:])
    return int(call.value("--turns") or USUAL_TURNS), int(call.value("--moves") or USUAL_MOVES)


def replayed(words: Sequence[str], scenario: bytes, trace: bytes) -> Replay:
    """The run of the scenario with these words under the answers of the trace, to where they part."""
    world = Replay(trace)
    try:
        VerifyingMachine(read(scenario), *budgets(words), world, world.tell).go()
    except (Refused, Wrong):
        pass
    return world


def lines(words: Sequence[str], scenario: bytes, trace: bytes) -> List[Optional[int]]:
    """The line of the scenario at which the greenlet of each line of the trace stands, as far as the model agrees."""
    return [it.at for it in replayed(words, scenario, trace).told]


def line_in(trace: bytes, number: int) -> str:
    """The line of this number, or that there is none."""
    return nth_line(trace, number).decode("ascii", "replace") or "no line"


def law_told(trace: bytes, number: int, law: int) -> str:
    """What is said of a line that breaks a law."""
    return f"the line is: {line_in(trace, number)}\nlaw {law}: {explain.law(law)}\ngvr explain law {law} tells more\n"


def verdict_told(words: Sequence[str], given: bytes, complaint: str) -> str:
    """What is said behind a verdict of `verify`: both lines, or the law."""
    found = re.search(r"trace line (\d+): (cause|law) (\d)", complaint)
    if not found:
        return ""
    number, kind, which = int(found[1]), found[2], int(found[3])
    if kind == "law":
        return law_told(given, number, which)
    scenario, parted, trace = (b"\n" + given).partition(SEPARATOR)
    if not parted:
        return f"the line is: {line_in(given, number)}\n"
    world = replayed(words, scenario[1:] + b"\n", trace)
    if world.at + 1 != number:
        return ""
    has = world.has if which != 5 else "no line: it has ended"
    return f"the trace has: {line_in(trace, number)}\nthe run has:   {has}\ngvr explain cause {which} tells more\n"
