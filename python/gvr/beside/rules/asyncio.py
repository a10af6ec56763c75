"""The rules of asyncio (Python 3.11.2), beside those in `cancels` that it shares with trio, and gevent's."""
from typing import Any, Dict, List, Optional, Set

from ...model.items import NEWCOMER, Effect, Greenlet, Item, Thing, Wait
from ...model.tree import Statement
from ...model.values import GREENLET_EXIT, Fault, G, Handle, Outcome, fault_text
from .cancels import Cancels
from .rule import Rule

TASK_WAITS = ('join', 'get', 'kill', 'killall', 'joinall', 'rget', 'rwait')
TIMED = ('wait', 'acquire', 'qput', 'qget', 'qjoin')        # what `within` puts under asyncio.timeout
OTHER_SIDE = {'qput': 'qget', 'qget': 'qput'}


class ExtraHop(Cancels):
    name = 'extra_hop'
    says = 'join, get and waits for a result go on one step later'
    source = 'asyncio/tasks.py, _wait: a future of its own stands behind the done callback'

    def __init__(self, *arguments: Any) -> None:
        super().__init__(*arguments)
        self.hopped: Set[int] = set()

    def tells(self, item: Item) -> bool:
        return super().tells(item) and not self.hops(item)

    def hops(self, item: Item) -> bool:
        """Whether what is waited for is there, and the one that waits is not told yet."""
        return item.kind == 'wake' and item.parked.kind in TASK_WAITS and item.since not in self.hopped

    def deliver(self, item: Item) -> None:
        if self.hops(item):
            self.hopped.add(item.since)
            item.ready = None
            self.settle()
        else:
            super().deliver(item)


class CancelFirst(Cancels):
    name = 'cancel_first'
    says = 'a kill is thrown at the next step, also if a wake stands before it in the line'
    source = 'asyncio/tasks.py, Task.cancel: _must_cancel'

    def deliver(self, item: Item) -> None:
        cancel = self.cancel_of(item.greenlet) if item.kind in ('wake', 'late') and self.tells(item) else None
        if cancel is not None:
            self.deliver(cancel)
        else:
            super().deliver(item)


class UnstartedLater(Rule):
    name = 'unstarted_later'
    says = 'a task that is killed before it began ends at its place in the line'
    source = 'asyncio/tasks.py, Task.__step: the cancel is thrown at the first step'

    def hit(self, target: Handle, fault: Fault) -> None:
        assert isinstance(target, G)
        g = self.greenlets[target.g]
        start = self.own_item(g, 'start')
        if g.state == 'new' and start is not None:
            start.fault = fault
        else:
            super().hit(target, fault)

    def deliver(self, item: Item) -> None:
        if item.kind == 'start' and item.fault is not None:
            self.remove(item)
            self.say('throw g%d %s' % (item.greenlet.number, fault_text(item.fault)), item.greenlet)
            self.end(item.greenlet, Outcome('fault', item.fault))
        else:
            super().deliver(item)


class KilledAtEnd(Cancels):
    name = 'killed_at_end'
    says = 'a kill that was not thrown before its target returns makes it end by GreenletExit; the value is lost'
    source = 'asyncio/tasks.py, Task.__step: StopIteration, and _must_cancel'
    documentation = 'asyncio breaks it. Task.cancelled: "The Task is cancelled when the cancellation was requested ' \
                    'with cancel() and the wrapped coroutine propagated the CancelledError exception thrown into it"'

    def end(self, g: Greenlet, outcome: Outcome) -> None:
        is_killed = outcome.kind == 'value' and self.own_item(g, 'kill') is not None
        super().end(g, Outcome('fault', GREENLET_EXIT) if is_killed else outcome)


class CancelsCount(Cancels):
    name = 'cancels_count'
    says = 'a kill that was caught still counts: a timeout or a limit behind it is thrown as a cancel, and stays one'
    source = 'asyncio/timeouts.py, Timeout.__aexit__: uncancel() == 0; Python 3.11.3 counts from the entry of the block'
    documentation = 'asyncio breaks it. asyncio.timeout: "the top-most affected timeout() context manager converts ' \
                    'CancelledError into TimeoutError"'

    def __init__(self, *arguments: Any) -> None:
        super().__init__(*arguments)
        self.cancelling: Dict[int, int] = {}               # of each greenlet: cancels that came and were not undone
        self.expired: Set[int] = set()                     # numbers of Timeouts that were thrown

    def count(self, g: Greenlet) -> int:
        return self.cancelling.get(g.number, 0)

    def spend(self, cancel: Item) -> None:
        self.cancelling[cancel.greenlet.number] = self.count(cancel.greenlet) + 1
        if cancel.kind == 'timeout' and cancel.n is not None:
            self.expired.add(cancel.n)
        super().spend(cancel)

    def leave_timeout(self, g: Greenlet, n: int) -> None:
        super().leave_timeout(g, n)
        if n in self.expired:
            self.cancelling[g.number] = self.count(g) - 1

    def catches_cancel(self, g: Greenlet, n: int) -> bool:
        return n in self.expired and self.count(g) == 1

    def limit_throws(self, g: Greenlet, wait: Wait) -> bool:
        return wait.kind in TIMED and self.count(g) > 0

    def deliver(self, item: Item) -> None:
        if item.kind == 'late' and self.limit_throws(item.greenlet, item.parked):
            self.thrown(item.greenlet, GREENLET_EXIT)
        else:
            super().deliver(item)


class Tells(Cancels):
    """What the two rules on messages share: who waits on an object is told by a message, once."""

    def __init__(self, *arguments: Any) -> None:
        super().__init__(*arguments)
        self.told_ones: Set[int] = set()                   # since of those that were told

    def tell_next(self, thing: Thing, kind: str) -> None:
        """Tell the first that waits so and was not told."""
        for item in self.items.values():
            if item.kind == 'wake' and item.parked.object is thing and item.parked.kind == kind \
                    and item.since not in self.told_ones and not self.is_leaving(item.greenlet):
                self.told_ones.add(item.since)
                return

    def unpark(self, g: Greenlet) -> None:
        wake = self.own_item(g, 'wake')
        super().unpark(g)
        if wake is not None and wake.since in self.told_ones:
            self.told_ones.discard(wake.since)
            self.gave_up(wake.parked)

    def gave_up(self, wait: Wait) -> None:
        """One that was told is thrown into before it has gone on."""


class QueueTells(Tells):
    name = 'queue_tells'
    says = 'a queue tells who waits and keeps nothing for it: who comes may overtake, and who finds nothing waits anew'
    source = 'asyncio/queues.py, Queue.get and put: while self.empty(), and _wakeup_next'

    def there_is(self, wait: Wait) -> bool:
        """Whether the queue has what is waited for."""
        return bool(wait.thing.items) if wait.kind == 'qget' else wait.thing.free() > 0

    def wait_holds(self, wait: Wait, since: int) -> bool:
        if wait.kind not in OTHER_SIDE:
            return super().wait_holds(wait, since)
        return self.there_is(wait) if since == NEWCOMER else since in self.told_ones

    def taken(self, g: Greenlet, wait: Wait, since: int) -> Optional[Outcome]:
        outcome = super().taken(g, wait, since)
        if wait.kind in OTHER_SIDE:
            self.tell_next(wait.thing, OTHER_SIDE[wait.kind])
        return outcome

    def gave_up(self, wait: Wait) -> None:
        if wait.kind not in OTHER_SIDE:
            super().gave_up(wait)
        elif self.there_is(wait):
            self.tell_next(wait.thing, wait.kind)

    def deliver(self, item: Item) -> None:
        if item.kind != 'wake' or item.since not in self.told_ones or item.parked.kind not in OTHER_SIDE:
            super().deliver(item)
            return
        self.told_ones.discard(item.since)
        if self.there_is(item.parked):
            super().deliver(item)
        else:
            self.waits_anew(item)


class SemaphoreTells(Tells):
    name = 'semaphore_tells'
    says = 'who comes while one that was told has not run waits behind it, also if a unit is spare, until that one runs'
    source = 'asyncio/locks.py, Semaphore.locked, acquire and _wake_up_next'

    @staticmethod
    def is_semaphore(wait: Wait) -> bool:
        return wait.kind == 'acquire' and wait.thing.kind != 'rlock'

    def spare(self, thing: Thing) -> int:
        """The units that are no waiter's yet."""
        return thing.units - sum(1 for item in self.items.values()
                                 if item.since in self.told_ones and item.parked.object is thing)

    def wait_holds(self, wait: Wait, since: int) -> bool:
        if not self.is_semaphore(wait):
            return super().wait_holds(wait, since)
        if since != NEWCOMER:
            return since in self.told_ones
        return wait.thing.units > 0 and not self.earlier(wait.thing, 'unit', since)

    def tell_if_spare(self, thing: Thing) -> None:
        if self.spare(thing) > 0:
            self.tell_next(thing, 'acquire')

    def do_release(self, g: Greenlet, st: Statement) -> Effect:
        effect = super().do_release(g, st)
        thing = self.objects[st.thing]
        if thing.kind != 'rlock':
            self.tell_if_spare(thing)
        return effect

    def taken(self, g: Greenlet, wait: Wait, since: int) -> Optional[Outcome]:
        self.told_ones.discard(since)
        outcome = super().taken(g, wait, since)
        if self.is_semaphore(wait) and since != NEWCOMER:
            self.tell_if_spare(wait.thing)
        return outcome

    def gave_up(self, wait: Wait) -> None:
        if self.is_semaphore(wait):
            self.tell_if_spare(wait.thing)
        else:
            super().gave_up(wait)


class LockNowWaits(Cancels):
    name = 'lock_now_waits'
    says = 'who wants a lock that is released waits until the waiter before it has run, also by `now`'
    source = "asyncio/locks.py, Lock.locked and acquire; the adapter's idiom for `now`: not locked(), then acquire"
    documentation = 'asyncio breaks it. Lock: "When the state is unlocked, acquire() changes the state to locked and ' \
                    'returns immediately"'

    def wait_for(self, g: Greenlet, st: Statement, wait: Wait) -> Effect:
        is_free = wait.kind == 'acquire' and wait.thing.kind == 'rlock' and wait.thing.owner is None
        if st.now and is_free and not self.goes_on_at_once(g, wait):
            return self.park(g, wait)
        return super().wait_for(g, st, wait)

    def left_line(self, thing: Thing, since: int) -> bool:
        """A release looks at the first that waits, though it was killed."""
        return thing.kind != 'rlock' or since == NEWCOMER


class ZeroHops(Cancels):
    name = 'zero_hops'
    says = 'a deadline of 0 has a place in the line, and what it throws or tells comes a step behind it'
    source = 'asyncio/timeouts.py, Timeout.reschedule: call_soon; asyncio/tasks.py, _wait: call_later'

    def __init__(self, *arguments: Any) -> None:
        super().__init__(*arguments)
        self.zeros: Set[int] = set()                       # since of those that have not come to their place
        self.passed: Set[int] = set()                      # since of the lates that have

    def add(self, kind: str, g: Greenlet, *fields: Any, **named: Any) -> Item:
        item = super().add(kind, g, *fields, **named)
        if kind in ('late', 'timeout') and item.deadline is not None and item.deadline <= self.now:
            self.zeros.add(item.since)
        return item

    def has_come(self, item: Item) -> bool:
        return item.since not in self.zeros and super().has_come(item)

    def tells(self, item: Item) -> bool:
        return item.since not in self.zeros and super().tells(item)

    def takes_away(self, item: Item) -> bool:
        return item.since not in self.zeros and super().takes_away(item)

    def holds(self, item: Item) -> bool:
        if item.since not in self.zeros:
            return super().holds(item)
        is_timer = item.kind == 'late' and item.parked.kind not in TIMED         # else call_soon
        return item.ready is not None or self.looking or not is_timer

    def deliver(self, item: Item) -> None:
        late = self.own_item(item.greenlet, 'late')
        if item.since in self.zeros:
            self.zeros.discard(item.since)
            self.passed.add(item.since)
            item.ready = None
            self.settle()
        elif item.kind == 'wake' and self.tells(item) and late is not None and late.since in self.passed \
                and item.parked.kind in TIMED and self.cancel_of(item.greenlet) is None:
            self.is_late(item, late)
        else:
            super().deliver(item)

    def is_late(self, wake: Item, late: Item) -> None:
        """One that was told is late: the cancel of its limit came before it ran."""
        g, wait = wake.greenlet, wake.parked
        if self.limit_throws(g, wait):
            self.thrown(g, GREENLET_EXIT)
            return
        self.unpark(g)
        self.say('late g%d' % g.number, g)
        self.settle()
        self.run(g, self.late(wait, late.n))


RULES: List[type] = [ExtraHop, QueueTells, SemaphoreTells, LockNowWaits, CancelFirst, UnstartedLater, KilledAtEnd,
                     CancelsCount, ZeroHops]
