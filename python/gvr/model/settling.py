"""Who is ready: MACHINE, "Settling"; the column "Parks until" of LANGUAGE."""
import heapq
from typing import Callable, List, Optional, Tuple

from .items import ENDLESS, NEWCOMER, Greenlet, Item, Line, Link, Thing, Wait
from .state import State
from .tree import Scenario
from .worlds import World


class Settling(State):
    """Conditions, ready numbers and the line."""

    def __init__(self, scenario: Scenario, turns: int, moves: int, world: World, tell: Callable[[Line], object]) -> None:
        super().__init__(scenario, turns, moves, world, tell)
        self.line: List[Tuple[int, int]] = []           # a heap of (ready number, since); some are out of date

    def holds(self, item: Item) -> bool:
        """Whether the condition of an item holds."""
        if item.kind == "wake":
            if item.parked.kind == "sleep":
                return item.deadline is not None and self.now >= item.deadline
            return self.wait_holds(item.parked, item.since)
        if item.kind == "start":
            return item.deadline is None or self.now >= item.deadline
        if item.kind == "kill":
            return True
        if item.kind == "link":
            return item.link is not None and item.greenlet.state == "done" and self.fits(item.link, item.greenlet)
        return item.deadline is not None and self.now >= item.deadline         # a late, a timeout

    @staticmethod
    def fits(link: Link, g: Greenlet) -> bool:
        """Whether the greenlet, which has ended, ended in the way that the link is for."""
        assert g.outcome is not None
        return link.kind not in ("value", "fault") or link.kind == g.outcome.kind

    def wait_holds(self, wait: Wait, since: int) -> bool:
        """Whether what is waited for holds; since is that of the Wake, or NEWCOMER."""
        if wait.counts:
            return self.earlier(wait.thing, wait.counts, since) < self.available(wait.thing, wait.counts)
        kind = wait.kind
        if kind == "wait":
            return wait.thing.sets > wait.sets
        if kind in ("rget", "rwait"):
            return wait.thing.outcome is not None
        if kind == "joinall":
            return sum(1 for whom in wait.targets if self.ended(whom)) >= wait.need
        if kind == "qjoin":
            return wait.thing.tasks == 0
        if kind == "gjoin":
            return not wait.thing.members
        if kind == "cput":
            return all(offered != since for _, offered in wait.thing.offers)
        return all(self.ended(whom) for whom in wait.targets)     # join, get, kill, killall, gkill; a map at last

    def available(self, thing: Thing, what: str) -> int:
        """How many could take this from the object now: units, items, places or slots."""
        if thing.kind == "rlock":
            return 1 if thing.owner is None else 0
        if what == "unit":
            return thing.units
        if thing.kind == "channel":
            return len(thing.offers)
        if thing.is_shut:
            return ENDLESS
        return len(thing.items) if what == "item" else thing.free()

    def earlier(self, thing: Thing, what: str, since: int) -> int:
        """How many wait before this since to take the same from the object."""
        count = 0
        for item in self.items.values():
            if item.since >= since:
                break
            if item.kind == "wake" and item.parked.object is thing and item.parked.takes == what:
                count += 1
        return count

    def settle(self) -> None:
        """Each item whose condition holds gets a ready number, in order of since; one whose condition doesn't, none."""
        for item in list(self.items.values()):
            self.number(item, self.holds(item))

    def number(self, item: Item, holds: bool) -> None:
        """Gives an item its ready number, or takes it."""
        if not holds:
            item.ready = None
        elif item.ready is None:
            item.ready = self.next_ready
            self.next_ready += 1
            heapq.heappush(self.line, (item.ready, item.since))

    def least_ready(self, below: int = NEWCOMER) -> Optional[Item]:
        """The item of the least ready number below this one."""
        while self.line:
            ready, since = self.line[0]
            item = self.items.get(since)
            if item is not None and item.ready == ready:
                return item if ready < below else None
            heapq.heappop(self.line)
        return None
