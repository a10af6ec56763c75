"""The machine with indexes, for speed: it looks only at the items that a change touches.

Who waits on an object to take the same stands in one line, by since. Of a line the first so many are ready as the object
has units, items, places or slots: so a change makes a few at the border ready, or not ready any more.
"""
import heapq
from itertools import islice
from typing import Callable, Dict, List, Optional, Tuple

from .items import NEWCOMER, Greenlet, Item, Line, Link, Thing, Wait, WaitingLine
from .machine import Machine
from .tree import Scenario
from .values import Fault, Handle
from .worlds import World

WAITS_FOR_ENDS = ("join", "get", "kill", "killall", "gkill", "joinall", "mapend")


class IndexedMachine(Machine):
    """The same runs as Machine."""

    def __init__(self, scenario: Scenario, turns: int, moves: int, world: World, tell: Callable[[Line], object]) -> None:
        super().__init__(scenario, turns, moves, world, tell)
        self.touched: Dict[str, Thing] = {}             # objects that changed since the last settling
        self.fresh: Dict[int, Item] = {}                # items to be asked at the next settling
        self.asking: Dict[Handle, Dict[int, Item]] = {}     # of a greenlet or a job: the items that ask for its end
        self.timers: List[Tuple[int, int]] = []         # a heap of (deadline, since); some are out of date

    def add(self, kind: str, g: Greenlet, deadline: Optional[int] = None, wait: Optional[Wait] = None,
            fault: Optional[Fault] = None, n: Optional[int] = None, link: Optional[Link] = None) -> Item:
        item = super().add(kind, g, deadline, wait, fault, n, link)
        if deadline is not None:
            heapq.heappush(self.timers, (deadline, item.since))
        if kind == "wake" and item.parked.object is not None:
            thing = item.parked.object
            thing.lines.setdefault(item.parked.takes, WaitingLine()).waiting[item.since] = item
        if kind == "wake" and item.parked.kind in WAITS_FOR_ENDS:
            item.whom = tuple(set(item.parked.targets))
        elif kind == "link":
            item.whom = (g.handle,)
        for whom in item.whom:
            self.asking.setdefault(whom, {})[item.since] = item
        if kind != "wake" or not item.parked.takes:         # a newcomer that parks can't take yet
            self.fresh[item.since] = item
        return item

    def remove(self, item: Item) -> None:
        was_ready = item.ready is not None
        super().remove(item)
        self.fresh.pop(item.since, None)
        if item.kind == "wake" and item.parked.object is not None:
            line = item.parked.object.lines[item.parked.takes]
            del line.waiting[item.since]
            if item.parked.takes:                           # those behind it come nearer
                line.told -= was_ready
                self.touch(item.parked.object)
        for whom in item.whom:
            del self.asking[whom][item.since]

    def touch(self, thing: Thing) -> None:
        self.touched[thing.name] = thing

    def touch_whom(self, whom: Handle) -> None:
        self.fresh.update(self.asking.get(whom, {}))

    def earlier(self, thing: Thing, what: str, since: int) -> int:
        line = thing.lines.get(what)
        if line is None:
            return 0
        if since == NEWCOMER:
            return len(line.waiting)
        count = 0
        for other in line.waiting:
            if other >= since:
                break
            count += 1
        return count

    def clock_moves(self, now: int) -> None:
        super().clock_moves(now)
        while self.timers and self.timers[0][0] <= now:
            item = self.items.get(heapq.heappop(self.timers)[1])
            if item is not None:
                self.fresh[item.since] = item

    def least_deadline(self) -> Optional[int]:
        while self.timers and self.timers[0][1] not in self.items:
            heapq.heappop(self.timers)
        return self.timers[0][0] if self.timers else None

    def settle(self) -> None:
        if not self.touched and not self.fresh:
            return
        found: Dict[int, Tuple[Item, bool]] = {}
        for thing in self.touched.values():
            for what, line in thing.lines.items():
                if what:
                    self.move_border(line, self.available(thing, what), found)
                else:
                    self.fresh.update(line.waiting)
        for since, item in self.fresh.items():
            found[since] = item, self.holds(item)
        self.touched, self.fresh = {}, {}
        for since in sorted(found):
            item, holds = found[since]
            was_ready = item.ready is not None
            self.number(item, holds)
            if item.kind == "wake" and item.parked.takes:
                item.parked.thing.lines[item.parked.takes].told += holds - was_ready

    @staticmethod
    def move_border(line: WaitingLine, available: int, found: Dict[int, Tuple[Item, bool]]) -> None:
        """Finds those of a line that become ready, or stop being so."""
        wanted = min(available, len(line.waiting))
        low, high = sorted((line.told, wanted))
        for item in islice(line.waiting.values(), low, high):
            found[item.since] = item, wanted > line.told
