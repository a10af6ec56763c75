"""Who waits for what each time that a run is stuck."""
import re
import subprocess
from typing import List, NamedTuple

from .program import TOP

# Of a run that is stuck more often the first ones and the last are told.
MOST_TOLD = 10
STUCK = b"\nblock none\n"


class Block(NamedTuple):
    """A `block none` of a trace: its line, and of each greenlet that waits what it waits for, as `g1 acquire s`."""
    line: int
    waits: List[str]


class Watch:
    """Sees a trace as it comes, and knows whether it is stuck somewhere."""

    def __init__(self) -> None:
        self.is_stuck = False
        self._last = b"\n"

    def see(self, piece: bytes) -> None:
        """Takes what comes next."""
        self.is_stuck = self.is_stuck or STUCK in self._last + piece
        self._last = (self._last + piece)[-len(STUCK):]


def is_stuck(trace: bytes) -> bool:
    """Whether nobody could go on somewhere in the trace."""
    return STUCK in b"\n" + trace


def may_go_on(scenario: bytes) -> bool:
    """Whether a scenario has an `except` by which main may catch LoopExit and go on."""
    return re.search(rb"^ *except (?:LoopExit|Exception|any)\b", scenario, re.M) is not None


def blocks(trace: bytes) -> List[Block]:
    """Each `block none` of a trace."""
    told = subprocess.run(["awk", "-f", TOP / "tools/who_waits.awk"], input=trace, stdout=subprocess.PIPE, check=True)
    found: List[Block] = []
    is_block = False
    for line in told.stdout.decode(errors="replace").splitlines():
        if head := re.match(r"line (\d+), nobody can go on:$", line):
            found.append(Block(int(head[1]), []))
        if line.startswith("  ") and is_block:
            found[-1].waits.append(line.strip())
        elif not line.startswith("  "):
            is_block = head is not None
    return found


def told_of(trace: bytes) -> str:
    """What is said of a run that was stuck, or nothing of another."""
    told = [f"nobody could go on, trace line {it.line}:\n" + "".join(f"  {wait}\n" for wait in it.waits)
            for it in blocks(trace)]
    more = len(told) - MOST_TOLD
    return "".join(told if more <= 0 else [*told[:MOST_TOLD - 1], f"and so {more} times more; at last:\n", told[-1]])
