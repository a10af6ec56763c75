"""What a rule is: one decision of gvr's machine turned the other way.

A rule is a class over the machine. It overrides what it turns and leaves the rest alone, so several can stand together:
`machine_with(rules)` makes the class of the machine that has them all. `Ruled` keeps what more than one rule needs:
who tells whom, where who tells stands in the line, and ready numbers that leave room between two.
"""
from typing import Any, Dict, List, Optional, Set, Tuple

from ...model.items import NEWCOMER, Effect, Greenlet, Item, Thing, Wait
from ...model.machine import Machine
from ...model.tree import Statement
from ...model.values import Fault, G, Handle, Outcome, Scalar
from ...model.worlds import Answer

GAP = 2**32                       # ready numbers are multiples of it, but for those that a rule puts behind another

# Who tells waiters that they may go on: (`greenlet`, its number), or (an object's name, `waiters` or `joiners`).
Teller = Tuple[str, object]


def teller_of(item: Item) -> Optional[Teller]:
    """Who tells this item that it may go on; None if nobody does. In gevent each object and each greenlet has one
    notifier, a queue or a pool another one for its joiners."""
    if item.kind == 'link':
        return 'greenlet', item.greenlet.number
    if item.kind != 'wake':
        return None
    wait = item.parked
    if wait.object is not None and wait.kind != 'gkill':              # a gkill joins each member
        return wait.object.name, side_of(wait.kind)
    if wait.kind in ('join', 'get', 'joinall', 'gkill') and len(set(wait.targets)) == 1 and isinstance(wait.targets[0], G):
        return 'greenlet', wait.targets[0].g
    return None


def side_of(kind: str) -> str:
    return 'joiners' if kind in ('qjoin', 'gjoin') else 'waiters'


class Ruled(Machine):
    """The machine with the seams that rules use. Without a rule it does what the machine does."""

    yields_under_a_timer = True                  # whether one that yields (wait_yields) can be late

    def __init__(self, *arguments: Any) -> None:
        super().__init__(*arguments)
        self.looking = False                              # the loop looks at the world just now
        self.current: Optional[Item] = None               # what is being delivered
        self.delivering = -1                              # its place, or that of the last
        self.told: Optional[Tuple[Teller, int]] = None    # who is telling just now, and from where in the line
        self.pending: Dict[Teller, int] = {}              # where each teller stood last
        self.yielded: Set[int] = set()                    # since of those that need not have waited
        self.too_late: Set[int] = set()                   # since of those of them that this telling does not reach
        self.ended_before: List[Tuple[Wait, List[Handle]]] = []   # of each joinall those that had ended at its call
        self.kills_members = False                        # whether a gkill kills just now

    # ------------------------------------------------------------ the line

    def settle(self) -> None:
        for item in sorted(self.items.values(), key=self.rank):
            self.number(item, self.holds(item))

    def rank(self, item: Item) -> Tuple[int, int]:
        """The order in which items are numbered: by this, then by since."""
        return self.at_a_look(item) if self.looking else 0, 0

    def at_a_look(self, item: Item) -> int:
        """The same, where the loop has looked at the world."""
        return 0

    def number(self, item: Item, holds: bool) -> None:
        if holds and item.ready is None:
            item.ready = self.place_of(item)
            teller = teller_of(item)
            if teller is not None:
                self.pending[teller] = item.ready
        elif not holds and item.ready is not None and not self.stays_ready(item):
            item.ready = None

    def place_of(self, item: Item) -> int:
        """The ready number of an item whose condition holds: the end of the line."""
        self.next_ready += 1
        return (self.next_ready - 1) * GAP

    def stays_ready(self, item: Item) -> bool:
        """Whether an item keeps its number though its condition is gone."""
        return False

    def least_ready(self, below: int = NEWCOMER) -> Optional[Item]:
        found: Optional[Item] = None
        for item in self.items.values():
            if item.ready is not None and (found is None or found.ready is None or item.ready < found.ready):
                found = item
        return found if found is None or found.ready is None or found.ready < below * GAP else None

    def telling(self, teller: Teller) -> bool:
        """Whether some whom this one tells have not run yet."""
        if self.told is not None and self.told[0] == teller:
            return True
        return any(item.ready is not None and teller_of(item) == teller for item in self.items.values())

    def is_telling_now(self, teller: Teller) -> bool:
        """Whether the one that runs was told by this one."""
        return self.told is not None and self.told[0] == teller

    # ------------------------------------------------------------ what happens

    def answered(self, answer: Answer) -> None:
        self.looking = True
        super().answered(answer)
        self.looking = False

    def teller(self, item: Item) -> Optional[Teller]:
        """Who tells this item."""
        return teller_of(item)

    def deliver(self, item: Item) -> None:
        teller = self.teller(item)
        if item.ready is not None:
            self.delivering = item.ready
        told = None if item.ready is None or teller is None else (teller, item.ready)
        self.told, self.current = told, item
        super().deliver(item)
        self.told = self.current = None

    def next_job(self, pool: Thing) -> None:
        """A job of this pool is done, and its thread is free."""

    # ------------------------------------------------------------ waits

    def yields(self, g: Greenlet, wait: Wait, st: Statement) -> Effect:
        """Parks one that need not wait, behind those that have not run."""
        if self.current is not None and self.current.since in self.yielded:
            self.too_late.add(self.next_since)
        self.yielded.add(self.next_since)
        return self.park(g, wait, st.within if self.yields_under_a_timer else None)

    def killed(self, g: Greenlet, st: Statement, wait: Wait, fault: Fault) -> Effect:
        self.kills_members = wait.kind == 'gkill'
        effect = super().killed(g, st, wait, fault)
        self.kills_members = False
        return effect

    def waits_anew(self, wake: Item) -> None:
        """The wait begins once more, behind all others."""
        del self.items[wake.since], wake.greenlet.own[wake.since]
        wake.since, self.next_since = self.next_since, self.next_since + 1
        wake.ready = None
        self.items[wake.since] = wake.greenlet.own[wake.since] = wake

    def wait_for(self, g: Greenlet, st: Statement, wait: Wait) -> Effect:
        if wait.kind == 'joinall':
            self.ended_before.append((wait, [whom for whom in wait.targets if self.ended(whom)]))
        return super().wait_for(g, st, wait)

    def complete(self, g: Greenlet, wait: Wait, since: int) -> Optional[Outcome]:
        if wait.kind == 'joinall':
            return Outcome('value', self.joined(wait, False))
        return super().complete(g, wait, since)

    def late(self, wait: Wait, n: Optional[int]) -> Outcome:
        if wait.kind == 'joinall':
            return Outcome('value', self.joined(wait, True))
        return super().late(wait, n)

    def joined(self, wait: Wait, is_late: bool) -> Tuple[Scalar, ...]:
        """The list that a joinall gives."""
        before = next(ended for each, ended in self.ended_before if each is wait)
        known = [whom for whom in wait.targets if self.ended(whom) and (whom in before or self.is_told(whom, is_late))]
        return tuple(self.as_told(wait, known, before))[:self.most_joined(wait)]

    def is_told(self, whom: Handle, is_late: bool) -> bool:
        """Whether a joinall knows of an end that came while it waited."""
        return True

    def as_told(self, wait: Wait, known: List[Handle], before: List[Handle]) -> List[Handle]:
        """The order in which a joinall gives those of which it knows."""
        return known

    def most_joined(self, wait: Wait) -> int:
        """How many a joinall gives at most."""
        return len(wait.targets)


class Rule(Ruled):
    """A rule's class: its name, what it says in a line, and where the runtime shows it."""

    name = ''
    root = ''                     # the root of docs/FROM_GEVENT.md under which it stands; '' for other runtimes
    says = ''
    source = ''                   # file and function of the runtime
    documentation = ''            # what the runtime's documentation says of it; '' if nothing
