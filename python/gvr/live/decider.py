"""Who goes on next, and with what: what a session asks of whoever decides."""
from typing import List, NamedTuple, Optional, Protocol, Sequence

from .record import Body, Statement

START, VALUE, FAULT, STOP = 'start', 'value', 'fault', 'stop'


class Next(NamedTuple):
    """The lines of the trace that are new, who goes on, how (START, VALUE, FAULT or STOP), and with what: the value,
    the fault, or the line of the stop."""
    lines: Sequence[str]
    who: int
    kind: str
    text: str


class Options(NamedTuple):
    """The budgets and the tick of a run, as `gvr run` has them."""
    turns: int = 1000000
    moves: int = 10000000
    tick: int = 0

    def words(self) -> List[str]:
        """Those that aren't the usual ones, as words of a command."""
        usual = Options()
        return [word for name, value in self._asdict().items() if value != getattr(usual, name)
                for word in ('--' + name, str(value))]


class Decider(Protocol):
    """Each call but `declared` and `closed` says who goes on."""

    def begin(self) -> Next: ...

    def declared(self, kind: str, name: str, rest: str) -> None: ...

    def told(self, body: Body, statement: Statement) -> Next: ...

    def opened(self, body: Body, milliseconds: Optional[int]) -> Next: ...

    def closed(self, body: Body) -> None: ...

    def ended(self, body: Body) -> Next: ...
