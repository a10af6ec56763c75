"""The rules of trio (0.22), beside those in `cancels` that it shares with asyncio."""
from typing import Any, Dict, List, Optional, Set

from ...model.items import NEWCOMER, Effect, Greenlet, Item, Thing, Wait
from ...model.tree import Statement
from ...model.values import NOTHING, Fault, G, Handle, Outcome, Value
from .cancels import CANCELS, Cancels

JOINS = ('joinall', 'killall')


class Steps(Cancels):
    """What the rules on checkpoints share: who waits only to let the others run. A cancel that comes then is thrown
    there (`open`), or at the next wait (`shielded`)."""

    def __init__(self, *arguments: Any) -> None:
        super().__init__(*arguments)
        self.given: Dict[int, Optional[Outcome]] = {}      # since of each: what it has already
        self.open: Set[int] = set()
        self.shielded: Set[int] = set()

    def let_others_run(self, g: Greenlet, wait: Wait, given: Optional[Outcome]) -> Effect:
        """The greenlet goes on behind all that are ready."""
        self.given[self.next_since] = given
        (self.shielded if wait.takes else self.open).add(self.next_since)
        return self.park(g, Wait('sleep', into=wait.into), 0, sleeps=True)

    def do_sleep(self, g: Greenlet, st: Statement) -> Effect:
        if st.ms == 0:
            self.open.add(self.next_since)
        return super().do_sleep(g, st)

    def complete(self, g: Greenlet, wait: Wait, since: int) -> Optional[Outcome]:
        if since in self.given:
            return self.given.pop(since)
        return super().complete(g, wait, since)

    def can_be_thrown_into(self, g: Greenlet) -> bool:
        wake = self.own_item(g, 'wake')
        return super().can_be_thrown_into(g) and wake is not None and wake.since not in self.open | self.shielded


class Checkpoints(Steps):
    name = 'checkpoints'
    says = 'an operation that need not wait has its effect at once, and then lets all others run that can'
    source = 'trio/_sync.py, Semaphore.acquire, Lock.acquire and Event.wait; trio/_channel.py, send and receive'
    documentation = 'if you call an async function provided by Trio, and it doesn\'t raise an exception, then it ' \
                    'always acts as a checkpoint'

    def wait_for(self, g: Greenlet, st: Statement, wait: Wait) -> Effect:
        is_empty = wait.kind in JOINS and not wait.targets
        if st.now or is_empty or not self.goes_on_at_once(g, wait):
            return super().wait_for(g, st, wait)
        if wait.kind == 'joinall':
            self.ended_before.append((wait, [whom for whom in wait.targets if self.ended(whom)]))
        return self.let_others_run(g, wait, self.complete(g, wait, NEWCOMER))


class CancelStays(Cancels):
    name = 'cancel_stays'
    says = 'a kill or a timeout is thrown at each wait, not once; one that has not begun begins, and gets it there'
    source = 'trio/_core/_run.py, checkpoint and CancelScope: the scope stays cancelled'
    documentation = 'Cancellations in Trio are "level triggered", meaning that once a block has been cancelled, all ' \
                    'cancellable operations in that block will keep raising Cancelled'

    def hit(self, target: Handle, fault: Fault) -> None:
        assert isinstance(target, G)
        g = self.greenlets[target.g]
        if g.state != 'done' and self.own_item(g, 'kill') is None:
            self.add('kill', g, fault=fault)

    def holds(self, item: Item) -> bool:
        if item.kind in CANCELS and item.ready is None and self.own_item(item.greenlet, 'wake') is None:
            return False
        return super().holds(item)

    def spend(self, cancel: Item) -> None:
        cancel.ready = None                                # it stays, and comes again at the next wait

    def under_way(self, g: Greenlet) -> Set[int]:
        return {item.n or 0 for item in g.own.values() if self.has_come(item)}


class KillBeatsDeadline(Steps):
    name = 'kill_beats_deadline'
    says = 'a kill or a timeout that comes before one runs whose sleep is over, or that is late, is thrown there'
    source = 'trio/_timeouts.py, sleep_until, and move_on_at: a scope that gives way to those around it'

    def deliver(self, item: Item) -> None:
        is_over = item.kind == 'late' or item.kind == 'wake' and item.parked.kind == 'sleep'
        cancel = self.cancel_of(item.greenlet) if is_over and item.since not in self.open | self.shielded else None
        if cancel is not None:
            self.deliver(cancel)
        else:
            super().deliver(item)


class HandedInQueues(Cancels):
    name = 'handed_in_queues'
    says = 'who puts hands the item to the first that waits for one, who gets puts what the first waits to put, at once'
    source = 'trio/_channel.py, MemorySendChannel.send_nowait and MemoryReceiveChannel.receive_nowait'

    def __init__(self, *arguments: Any) -> None:
        super().__init__(*arguments)
        self.got: Dict[int, Value] = {}                 # since of one that waits for an item: what it was handed
        self.was_put: Set[int] = set()                     # since of those that wait to put, and whose item was put

    def first(self, thing: Thing, kind: str) -> Optional[Item]:
        """The first that waits so on a queue, and was not served."""
        return next((item for item in self.items.values()
                     if item.kind == 'wake' and item.parked.object is thing and item.parked.kind == kind
                     and item.since not in self.got and item.since not in self.was_put
                     and not self.is_leaving(item.greenlet)), None)

    def wait_holds(self, wait: Wait, since: int) -> bool:
        if wait.kind not in ('qput', 'qget'):
            return super().wait_holds(wait, since)
        if since != NEWCOMER:
            return since in self.got or since in self.was_put
        if wait.kind == 'qget':
            return bool(wait.thing.items)
        return wait.thing.free() > 0 or self.first(wait.thing, 'qget') is not None

    def taken(self, g: Greenlet, wait: Wait, since: int) -> Optional[Outcome]:
        thing = wait.thing
        if wait.kind == 'qput' and since == NEWCOMER:
            getter = self.first(thing, 'qget')
            if getter is None:
                thing.put(wait.value)
            else:
                self.got[getter.since] = wait.value
            return NOTHING
        if wait.kind == 'qget' and since == NEWCOMER:
            putter = self.first(thing, 'qput')
            if putter is not None:
                thing.put(putter.parked.value)
                self.was_put.add(putter.since)
            return Outcome('value', thing.take())
        if wait.kind == 'qget':
            return Outcome('value', self.got.pop(since))
        return NOTHING if wait.kind == 'qput' else super().taken(g, wait, since)


class JoinsInTurn(Steps):
    name = 'joins_in_turn'
    says = 'joinall and killall wait for one after the other, and let the others run at each that has ended already'
    source = "the adapter's idiom: an Event of each task; trio/_sync.py, Event.wait"

    def __init__(self, *arguments: Any) -> None:
        super().__init__(*arguments)
        self.turn_of: Dict[int, int] = {}                  # since of one that joins several: at which it is

    def wait_for(self, g: Greenlet, st: Statement, wait: Wait) -> Effect:
        if st.now or wait.kind not in JOINS or len(wait.targets) < 2:
            return super().wait_for(g, st, wait)
        if wait.kind == 'joinall':
            self.ended_before.append((wait, [whom for whom in wait.targets if self.ended(whom)]))
        self.comes_to(self.next_since, wait, 0)
        return self.park(g, wait, st.within)

    def comes_to(self, since: int, wait: Wait, turn: int) -> None:
        """The one of this since waits for this one of its list."""
        self.turn_of[since] = turn
        if self.ended(wait.targets[turn]):
            self.open.add(since)
        else:
            self.open.discard(since)

    def holds(self, item: Item) -> bool:
        if item.kind == 'wake' and item.since in self.turn_of:
            return self.ended(item.parked.targets[self.turn_of[item.since]])
        return super().holds(item)

    def deliver(self, item: Item) -> None:
        turn = self.turn_of.get(item.since, 0) + 1
        if item.kind == 'wake' and item.since in self.turn_of and turn < len(item.parked.targets):
            self.comes_to(item.since, item.parked, turn)
            item.ready = None
            self.settle()
        else:
            super().deliver(item)


class StepFirst(Steps):
    name = 'step_first'
    says = 'one that only lets others run, or begins to wait though it is killed, is thrown into a step later'
    source = 'trio/_core/_run.py, checkpoint and checkpoint_if_cancelled: cancel_shielded_checkpoint comes first'

    def __init__(self, *arguments: Any) -> None:
        super().__init__(*arguments)
        self.doomed: Set[int] = set()                      # since of those that are thrown into a step later

    def wait_for(self, g: Greenlet, st: Statement, wait: Wait) -> Effect:
        if st.now or not wait.takes or self.cancel_of(g) is None:
            return super().wait_for(g, st, wait)
        self.open.add(self.next_since)
        return self.park(g, Wait('sleep', into=wait.into), 0, sleeps=True)

    def deliver(self, item: Item) -> None:
        cancel = self.cancel_of(item.greenlet) if item.kind == 'wake' and item.since in self.open else None
        if cancel is None:
            super().deliver(item)
        elif item.since in self.doomed:
            self.deliver(cancel)
        else:
            self.doomed.add(item.since)
            item.ready = None
            self.settle()


class ZeroIsLate(Steps):
    name = 'zero_is_late'
    says = 'a wait within 0 is late also if it need not wait, two steps later'
    source = 'trio/_core/_run.py, CancelScope.__enter__: a deadline that has come cancels, and checkpoint'

    def __init__(self, *arguments: Any) -> None:
        super().__init__(*arguments)
        self.late_ones: Dict[int, Wait] = {}               # since of those that are late, and what they waited for

    def need_not_wait(self, g: Greenlet, wait: Wait) -> bool:
        if wait.kind in JOINS:
            return len(wait.targets) > 0 and self.ended(wait.targets[0])
        return bool(wait.takes) or self.goes_on_at_once(g, wait)

    def wait_for(self, g: Greenlet, st: Statement, wait: Wait) -> Effect:
        if st.within != 0 or not self.need_not_wait(g, wait):
            return super().wait_for(g, st, wait)
        if wait.kind == 'joinall':
            self.ended_before.append((wait, [whom for whom in wait.targets if self.ended(whom)]))
        self.late_ones[self.next_since] = wait
        self.open.add(self.next_since)
        return self.park(g, Wait('sleep', into=wait.into), 0, sleeps=True)

    def deliver(self, item: Item) -> None:
        if item.kind != 'wake' or item.since not in self.late_ones:
            super().deliver(item)
        elif item.since in self.open:
            self.open.discard(item.since)
            item.ready = None
            self.settle()
        else:
            self.given[item.since] = self.late(self.late_ones.pop(item.since), None)
            super().deliver(item)


RULES: List[type] = [Checkpoints, CancelStays, KillBeatsDeadline, HandedInQueues, JoinsInTurn, ZeroIsLate, StepFirst]
