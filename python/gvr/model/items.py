"""What the state of a run is made of: greenlets, objects, jobs, waits, links and items. MACHINE, "The state"."""
from bisect import insort
from typing import Dict, List, NamedTuple, Optional, Sequence, Set, Tuple, Union, cast

from .tree import Declaration, Function, Statement
from .values import Fault, G, Handle, J, Outcome, Value

ENDLESS = 2**64                      # more than any count
NEWCOMER = ENDLESS                   # the since of one that has not parked: behind all that wait


class Line(NamedTuple):
    """A line of a trace: its text without line feed, the number of its greenlet (None: the loop's), and the line of the
    scenario at which that stands."""
    text: str
    greenlet: Optional[int] = None
    at: Optional[int] = None


class Stop(Exception):
    """The run stops. cause: value, fault, no-turns, no-moves, no-greenlets, no-links or no-kills."""

    def __init__(self, cause: str, outcome: Optional[Outcome] = None) -> None:
        super().__init__(cause)
        self.cause, self.outcome = cause, outcome


class Frame:
    """An entry of a greenlet's stack. Its kind: `body` runs the statements of body from place on; `while` evaluates its
    condition next; `try` and `except` stand below the body of their statement, `timeout` below that of block n, and
    `finally` below that of its statement, with what was under way."""
    __slots__ = ("kind", "body", "place", "statement", "n", "pending")

    def __init__(self, kind: str, body: Sequence[Statement] = (), statement: Optional[Statement] = None, n: int = 0,
                 pending: Optional["Pending"] = None) -> None:
        self.kind, self.body, self.place = kind, body, 0
        self.statement, self.n, self.pending = statement, n, pending


class Pending(NamedTuple):
    """What leaves a body: kind is `return` or `fault`, what the value or the Fault."""
    kind: str
    what: Value


class Land(NamedTuple):
    """What is sent arrives at a greenlet: its number, and what."""
    greenlet: int
    sent: Outcome


class Ended(NamedTuple):
    """A body has ended."""
    outcome: Outcome


PARKED = "parked"
# What an effect comes to: nothing, the greenlet goes on; it has parked; it leaves its blocks; or it switches away.
Effect = Union[None, str, Pending, Land]


class Greenlet:
    """state is new, live or done. at: the line of the scenario that it stands at; own: its items by since."""
    __slots__ = ("number", "handle", "function", "arguments", "raw", "parent", "state", "outcome", "locals", "stack",
                 "crew", "into", "own", "at")

    def __init__(self, number: int, function: Function, arguments: List[Value], raw: bool, parent: int) -> None:
        self.number, self.handle, self.function, self.arguments = number, G(number), function, arguments
        self.raw, self.parent, self.state, self.at = raw, parent, "new", function.line
        self.outcome: Optional[Outcome] = None
        self.locals: Dict[str, Value] = {}
        self.stack: List[Frame] = []
        self.crew: Optional[Thing] = None           # its group or pool
        self.into: Optional[str] = None             # the name that gets what its waiting statement gives
        self.own: Dict[int, Item] = {}


class Thing:
    """An object of the scenario as it runs; kind and order as in its Declaration."""
    __slots__ = ("kind", "name", "order", "size", "is_set", "sets", "outcome", "units", "owner", "depth", "items",
                 "tasks", "is_shut", "members", "out", "offers", "lines")

    def __init__(self, d: Declaration) -> None:
        self.kind, self.name, self.order, self.size = d.kind, d.name, d.order, d.n
        self.is_set, self.sets = False, 0                   # an event; how often it was set
        self.outcome: Optional[Outcome] = None              # a result
        self.units = d.n if d.kind in ("sem", "bsem") and d.n is not None else 0
        self.owner: Optional[int] = None                    # an rlock, taken depth times
        self.depth = 0
        self.items: List[Value] = []                        # a queue; of a prio in their order
        self.tasks, self.is_shut = 0, False
        self.members: List[int] = []                        # a group or pool
        self.out: Set[int] = set()                          # the jobs of a native pool
        self.offers: List[Tuple[Value, int]] = []           # a channel: value, and since of the one that offers
        self.lines: Dict[str, WaitingLine] = {}             # who waits here (IndexedMachine)

    def free(self) -> int:
        """The free places of a queue, group or pool, or slots of a native pool."""
        if self.size is None:
            return ENDLESS
        if self.kind == "native":
            return self.size - len(self.out)
        return self.size - (len(self.items) if self.kind == "queue" else len(self.members))

    def put(self, value: Value) -> None:
        """An item enters a queue."""
        if self.order == "prio":
            insort(cast(List[int], self.items), cast(int, value))
        else:
            self.items.append(value)
        self.tasks += 1

    def next_item(self) -> Value:
        """The item that goes next."""
        return self.items[-1] if self.order == "lifo" else self.items[0]

    def take(self) -> Value:
        """Takes the item that goes next."""
        return self.items.pop() if self.order == "lifo" else self.items.pop(0)


class WaitingLine:
    """Those that wait on an object to take the same, by since, and how many of them are ready."""
    __slots__ = ("waiting", "told")

    def __init__(self) -> None:
        self.waiting: Dict[int, Item] = {}
        self.told = 0


class Job:
    """A job that was posted."""
    __slots__ = ("pool", "outcome")

    def __init__(self, pool: Thing) -> None:
        self.pool = pool
        self.outcome: Optional[Outcome] = None


class Link:
    """kind: any, value, fault, mark or set; then the function that is called, the mark, or the event. at: its line."""
    __slots__ = ("number", "kind", "function", "mark", "thing", "at")

    def __init__(self, number: int, kind: str, at: int, function: Optional[Function] = None, mark: int = 0,
                 thing: Optional[Thing] = None) -> None:
        self.number, self.kind, self.at, self.function, self.mark, self.thing = number, kind, at, function, mark, thing


# What a wait of this kind takes: of two waits that take the same from an object, the earlier goes first.
TAKES = {"acquire": "unit", "qput": "place", "qget": "item", "gspawn": "place", "mapplace": "place", "nspawn": "slot",
         "cget": "item"}
# What those before it take that it counts.
COUNTS = {**TAKES, "qpeek": "item"}


class Wait:
    """What a parked statement waits for. word: its word; kind: the same, but that a map waits for a place (mapplace),
    then for the end of its members (mapend)."""
    __slots__ = ("word", "kind", "object", "into", "targets", "need", "sets", "value", "job", "function", "arguments",
                 "takes", "counts")

    def __init__(self, word: str, thing: Optional[Thing] = None, into: Optional[str] = None, kind: str = "") -> None:
        self.word, self.kind, self.object, self.into = word, kind or word, thing, into
        self.takes, self.counts = TAKES.get(self.kind, ""), COUNTS.get(self.kind, "")
        self.targets: Sequence[Handle] = ()                 # greenlets, or the job of a get
        self.need = 0                                       # of a joinall: how many ends are enough
        self.sets = 0                                       # of a wait: how often the event had been set
        self.value: Value = None                            # of a qput, a cput
        self.job: Tuple[str, int, int] = ("", 0, 0)         # of an nspawn: the job, its n, what it takes
        self.function: Optional[Function] = None            # of a gspawn or map
        self.arguments: List[Value] = []                    # of a gspawn; of a map those that have no member yet

    @property
    def thing(self) -> Thing:
        """The object on which it waits."""
        assert self.object is not None
        return self.object

    def text(self) -> str:
        """As the park line has it."""
        if self.object is not None:
            return f"{self.word} {self.object.name}"
        if self.word in ("join", "get", "kill"):
            whom = self.targets[0]
            return f"{self.word} j{whom.j}" if isinstance(whom, J) else f"{self.word} g{whom.g}"
        return self.word


class Item:
    """Something that is still to be delivered. kind: start, wake, late, timeout, kill or link; of the greenlet; ready:
    its ready number or None; and what its kind needs."""
    __slots__ = ("since", "kind", "greenlet", "deadline", "ready", "wait", "fault", "n", "link", "whom")

    def __init__(self, since: int, kind: str, greenlet: Greenlet, deadline: Optional[int] = None,
                 wait: Optional[Wait] = None, fault: Optional[Fault] = None, n: Optional[int] = None,
                 link: Optional[Link] = None) -> None:
        self.since, self.kind, self.greenlet, self.deadline = since, kind, greenlet, deadline
        self.wait, self.fault, self.n, self.link = wait, fault, n, link
        self.ready: Optional[int] = None
        self.whom: Sequence[Handle] = ()                    # whose ends its condition is about (IndexedMachine)

    @property
    def parked(self) -> Wait:
        """The wait of a wake or a late."""
        assert self.wait is not None
        return self.wait
