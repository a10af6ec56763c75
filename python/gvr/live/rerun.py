"""A decider that needs nothing but a run of a whole scenario: at each statement the record so far is run again.

Where a body goes on past what is known, the scenario has a mark, a `print []`, and the first mark past the lines that
were read before says who it is. It is slow, and the second way by which tests look at the first.
"""
from typing import Callable, List, Optional

from .decider import FAULT, START, STOP, VALUE, Next
from .record import Body, Record, Statement
from .spelling import spell


class Rerun:
    """Decides by runs of a text; run gives the lines of its trace."""

    def __init__(self, record: Record, run: Callable[[str], List[str]]) -> None:
        self.record, self.run = record, run
        self.read = 0                            # how many lines were read

    def begin(self) -> Next:
        return self._look()

    def declared(self, kind: str, name: str, rest: str) -> None:
        """The record has it."""

    def told(self, body: Body, statement: Statement) -> Next:
        return self._look()

    def opened(self, body: Body, milliseconds: Optional[int]) -> Next:
        return self._look()

    def closed(self, body: Body) -> None:
        """The record has it."""

    def ended(self, body: Body) -> Next:
        return self._look()

    def _look(self) -> Next:
        lines = self.run(spell(self.record, marks=True).text)
        for at in range(self.read, len(lines)):
            line = lines[at]
            if line.startswith('print ') and line.endswith((' []', ' [0]')):
                return self._marked(lines, at)
        # Who waits at the end stands in a `try` of its mark, which is a move: the record has none.
        whole = self.run(spell(self.record).text)
        if whole[:-1] != lines[:-1]:
            raise AssertionError('the record does not replay')
        new, self.read = whole[self.read:], len(lines)
        return Next(new, 0, STOP, whole[-1])

    def _marked(self, lines: List[str], at: int) -> Next:
        """The body that a mark tells of goes on."""
        new, self.read = lines[self.read:at], at
        who = int(lines[at].split(' ')[1][1:])
        text = lines[at + 1].split(' ', 2)[2]
        kind = FAULT if lines[at].endswith('[0]') else VALUE
        if new and new[-1].startswith('start g%d ' % who):
            kind = START
        return Next(new, who, kind, text)
