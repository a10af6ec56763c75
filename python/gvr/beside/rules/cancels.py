"""The rules of runtimes whose tasks are cancelled: what asyncio (Python 3.11) and trio (0.22) share; one is Go's too."""
from typing import Any, Dict, List, Optional, Set

from ...model.items import Effect, Ended, Greenlet, Item, Pending, Thing, Wait
from ...model.tree import Statement
from ...model.values import GREENLET_EXIT, VALUE_ERROR, Fault, Outcome, Raised, Value, timeout_fault
from .rule import Rule

CANCELS = ('kill', 'timeout')


class Cancels(Rule):
    """Which cancels of a greenlet have come, whether it was told to go on, and how a cancel is thrown. A cancel is a
    kill or a Timeout."""

    def has_come(self, item: Item) -> bool:
        """Whether this is a cancel that has come."""
        return item.kind == 'kill' or item.kind == 'timeout' and item.deadline is not None and self.now >= item.deadline

    def cancel_of(self, g: Greenlet) -> Optional[Item]:
        """The first cancel of a greenlet that has come."""
        return next((item for item in g.own.values() if self.has_come(item)), None)

    def tells(self, item: Item) -> bool:
        """Whether an item in the line tells its greenlet to go on, by what it waits for or by its deadline."""
        return item.kind in ('wake', 'late')

    def can_be_thrown_into(self, g: Greenlet) -> bool:
        """Whether a cancel that comes now is thrown at the wait of this greenlet."""
        is_told = any(item.ready is not None and self.tells(item) for item in g.own.values())
        return not is_told and self.own_item(g, 'wake') is not None

    def takes_away(self, item: Item) -> bool:
        """Whether an item, which is in the line, takes its greenlet away from what it waits for."""
        return item.kind in ('kill', 'timeout', 'late') and item.ready is not None

    def is_leaving(self, g: Greenlet) -> bool:
        """Whether a greenlet that waits stands no more in the line of those that do."""
        return False

    def deliver(self, item: Item) -> None:
        if item.kind in CANCELS:
            self.throw(item)
        else:
            super().deliver(item)

    def throw(self, cancel: Item) -> None:
        """A cancel is thrown."""
        fault = self.thrown_by(cancel)
        self.spend(cancel)
        self.thrown(cancel.greenlet, fault)

    def thrown_by(self, cancel: Item) -> Fault:
        """What a cancel throws."""
        return timeout_fault(cancel.n or 0) if cancel.fault is None else cancel.fault

    def spend(self, cancel: Item) -> None:
        """A cancel was thrown, and comes no more."""
        self.remove(cancel)

    def limit_throws(self, g: Greenlet, wait: Wait) -> bool:
        """Whether a wait of this greenlet that is late throws a cancel."""
        return False

    def under_way(self, g: Greenlet) -> Set[int]:
        """What has come to one that a cancel leaves a block of: the numbers of Timeouts; a kill is 0."""
        return set()


class TimeoutIsCancel(Cancels):
    name = 'timeout_is_cancel'
    says = 'a timeout is thrown as a cancel, and becomes a Timeout where its block ends'
    source = 'asyncio/timeouts.py, Timeout._on_timeout and __aexit__; trio/_timeouts.py, fail_at; ' \
             'trio/_core/_run.py, CancelScope._close'

    def __init__(self, *arguments: Any) -> None:
        super().__init__(*arguments)
        self.fired: Set[int] = set()                          # numbers of Timeouts that were thrown

    def thrown_by(self, cancel: Item) -> Fault:
        if cancel.kind == 'timeout' and cancel.n is not None:
            self.fired.add(cancel.n)
            return GREENLET_EXIT
        return super().thrown_by(cancel)

    def unwind(self, g: Greenlet, pending: Pending) -> Optional[Ended]:
        stack = g.stack                                       # who runs it keeps this list
        while stack:
            if stack[-1].kind == 'timeout':
                frame = stack.pop()
                is_caught = pending == Pending('fault', GREENLET_EXIT) and self.catches_cancel(g, frame.n)
                self.leave_timeout(g, frame.n)
                if is_caught and frame.statement is not None and frame.statement.option == 'silent':
                    return None
                pending = Pending('fault', timeout_fault(frame.n)) if is_caught else pending
                continue
            lower, g.stack = stack[:-1], stack[-1:]
            ended = super().unwind(g, pending)
            stack[:], g.stack = lower + g.stack, stack
            if ended is None:
                return None
        return Ended(Outcome('value' if pending.kind == 'return' else 'fault', pending.what))

    def catches_cancel(self, g: Greenlet, n: int) -> bool:
        """Whether the block of Timeout n, which a cancel is about to leave, makes a Timeout of it."""
        return n in self.fired


class CancelsMerge(Cancels):
    name = 'cancels_merge'
    says = 'kills and timeouts of one moment are one throw; it counts as the outermost of them'
    source = 'asyncio/tasks.py, Task.cancel and uncancel; asyncio/timeouts.py, Timeout.__aexit__; ' \
             'trio/_core/_run.py, CancelScope._close: parent_cancellation_is_visible_to_us'

    def __init__(self, *arguments: Any) -> None:
        super().__init__(*arguments)
        self.merged: Dict[int, Set[int]] = {}              # of each greenlet: what came at its last throw; a kill is 0

    def holds(self, item: Item) -> bool:
        if item.kind in CANCELS and item.ready is None and \
                any(other.kind in CANCELS and self.takes_away(other) for other in item.greenlet.own.values()):
            return False
        return super().holds(item)

    def throw(self, cancel: Item) -> None:
        g = cancel.greenlet
        come = [item for item in g.own.values() if self.has_come(item)]
        self.merged[g.number] = {item.n or 0 for item in come}
        for other in come:
            if other is not cancel:
                self.thrown_by(other)
                self.spend(other)
        super().throw(cancel)

    def catches_cancel(self, g: Greenlet, n: int) -> bool:
        return n == min(self.under_way(g), default=0)

    def under_way(self, g: Greenlet) -> Set[int]:
        return self.merged.get(g.number, set())


class CancelWaits(Cancels):
    name = 'cancel_waits'
    says = 'a kill or a timeout of one that runs, or was told to go on, is thrown at its next wait, behind the ready'
    source = 'asyncio/tasks.py, Task.cancel and __step: _must_cancel; trio/_core/_run.py, ' \
             'Task._attempt_delivery_of_any_pending_cancel: _abort_func'

    def holds(self, item: Item) -> bool:
        if item.kind in CANCELS and item.ready is None and not self.can_be_thrown_into(item.greenlet):
            return False
        return super().holds(item)


class LeavesAtOnce(Cancels):
    name = 'leaves_at_once'
    says = 'who is killed or late is no more in the line of those that wait, though it has not run yet'
    source = 'asyncio/locks.py, Semaphore._wake_up_next; asyncio/queues.py, Queue._wakeup_next: who is done is left ' \
             'out; trio/_core/_parking_lot.py, park: abort_fn; runtime/chan.go of Go, waitq.dequeue: selectDone'

    def is_leaving(self, g: Greenlet) -> bool:
        return any(self.takes_away(item) for item in g.own.values())

    def holds(self, item: Item) -> bool:
        if item.kind == 'wake' and item.ready is None and self.is_leaving(item.greenlet):
            return False
        return super().holds(item)

    def left_line(self, thing: Thing, since: int) -> bool:
        """Whether those that leave stand no more before the one of this since."""
        return True

    def earlier(self, thing: Thing, what: str, since: int) -> int:
        count = super().earlier(thing, what, since)
        if not count or not self.left_line(thing, since):
            return count
        return count - sum(1 for item in self.items.values()
                           if item.since < since and item.kind == 'wake' and item.ready is None
                           and item.parked.object is thing and item.parked.takes == what
                           and self.is_leaving(item.greenlet))


class HandedAtRelease(Rule):
    name = 'handed_at_release'
    says = "a released unit is the waiter's at once and no longer counted"
    source = 'asyncio/locks.py, Semaphore.release and _wake_up_next; trio/_sync.py, Semaphore.release'

    def handed(self, thing: Thing) -> int:
        """How many units are a waiter's already."""
        return sum(1 for item in self.items.values()
                   if item.kind == 'wake' and item.ready is not None and item.parked.object is thing)

    def asked(self, form: str, name: str) -> Value:
        value = super().asked(form, name)
        return value - self.handed(self.objects[name]) if form == 'counter' and isinstance(value, int) else value

    def do_release(self, g: Greenlet, st: Statement) -> Effect:
        thing = self.objects[st.thing]
        if thing.kind != 'bsem' or thing.size is None:
            return super().do_release(g, st)
        if thing.units - self.handed(thing) >= thing.size:
            raise Raised(VALUE_ERROR)
        thing.units += 1
        self.touch(thing)
        return None


class LateLooks(Rule):
    name = 'late_looks'
    says = 'a get that is late looks once more, and gives what has come'
    source = "the adapter's idiom for get: asyncio.wait, then done(); trio.move_on_after, then whether it has ended"

    def late(self, wait: Wait, n: Optional[int]) -> Outcome:
        outcome = None
        if wait.kind == 'get':
            outcome = self.outcome_of(wait.targets[0])
        elif wait.kind == 'rget':
            outcome = wait.thing.outcome
        return super().late(wait, n) if outcome is None else outcome


RULES: List[type] = [TimeoutIsCancel, CancelsMerge, CancelWaits, LeavesAtOnce, HandedAtRelease, LateLooks]
