"""The rules of gevent 22.10.2 on joinall, groups, pools, maps and jobs."""
from typing import Any, Dict, List, Optional, Set, Tuple

from ...model.items import ENDLESS, NEWCOMER, PARKED, Effect, Greenlet, Item, Job, Link, Thing, Wait
from ...model.tree import Function, Statement
from ...model.values import Fault, G, Handle, J, Outcome, Value
from ...model.worlds import Answer
from .rule import GAP, Rule, teller_of


HELPER = -1                      # the number of greenlets that no scenario sees


class EndingOrder(Rule):
    name, root = 'ending_order', '6'
    says = 'joinall answers in order of ending'
    source = 'gevent/_hub_primitives.py, _WaitIterator'
    documentation = 'gevent does as it says. wait: "Returns the list of ready objects, in the order in which they were ready"'

    def __init__(self, *arguments: Any) -> None:
        super().__init__(*arguments)
        self.ends: List[int] = []                                  # numbers, in order of ending
        self.telling_places: List[Tuple[Wait, Dict[Handle, Tuple[int, int]]]] = []

    def end(self, g: Greenlet, outcome: Outcome) -> None:
        self.ends.append(g.number)
        super().end(g, outcome)

    def wait_for(self, g: Greenlet, st: Statement, wait: Wait) -> Effect:
        if wait.kind == 'joinall':
            ended = [whom for whom in wait.targets if self.ended(whom)]
            self.telling_places.append((wait, {whom: (self.telling_place(whom), i) for i, whom in enumerate(ended)}))
        return super().wait_for(g, st, wait)

    def telling_place(self, whom: Handle) -> int:
        """Where in the line one that has ended tells its links, or the end of the line."""
        assert isinstance(whom, G)
        places = [item.ready for item in self.items.values() if item.ready is not None
                  and teller_of(item) == ('greenlet', whom.g)]
        return min(places, default=self.next_ready * GAP)

    def as_told(self, wait: Wait, known: List[Handle], before: List[Handle]) -> List[Handle]:
        places = next(places for each, places in self.telling_places if each is wait)
        first = sorted((whom for whom in wait.targets if whom in before), key=lambda whom: places[whom])
        rest = [whom for whom in known if whom not in before]
        return first + sorted(rest, key=lambda whom: self.ends.index(whom.g) if isinstance(whom, G) else 0)


class JoinallYields(Rule):
    name, root = 'joinall_yields', '8'
    says = 'joinall goes through the hub, also if all have ended'
    source = 'gevent/_hub_primitives.py, _WaitIterator: rawlink, then waiter.get, for each'

    def goes_on_at_once(self, g: Greenlet, wait: Wait) -> bool:
        if wait.kind == 'joinall' and wait.targets and wait.need:
            return False
        return super().goes_on_at_once(g, wait)


class CountStops(Rule):
    name, root = 'count_stops', '8'
    says = 'joinall with a count answers at most that many'
    source = 'gevent/_hub_primitives.py, _WaitIterator._count'
    documentation = 'gevent does as it says. joinall: "wait for (up to) count objects"'

    def most_joined(self, wait: Wait) -> int:
        return wait.need


class EndsTold(Rule):
    name, root = 'ends_told', '8'
    says = 'joinall that is late answers those whose end it was told of, not those that have ended'
    source = 'gevent/_hub_primitives.py, _WaitIterator: the end is told by gevent/greenlet.py, _notify_links, a callback later'

    def __init__(self, *arguments: Any) -> None:
        super().__init__(*arguments)
        self.told_from: Dict[int, int] = {}                        # a number: from which place on its end is told

    def end(self, g: Greenlet, outcome: Outcome) -> None:
        self.told_from[g.number] = self.next_ready
        super().end(g, outcome)

    def is_told(self, whom: Handle, is_late: bool) -> bool:
        if not is_late or not isinstance(whom, G):
            return super().is_told(whom, is_late)
        return self.told_from[whom.g] <= self.delivering // GAP


class LeaveByLink(Rule):
    name, root = 'leave_by_link', '9'
    says = 'a member leaves its group by a link, so one turn after its end; gkill waits until all have left'
    source = 'gevent/pool.py, Group.add: rawlink(self._discard)'
    documentation = 'gevent does as it says. Group: "Links to each item and removes it upon notification"'

    def admit(self, crew: Thing, function: Function, arguments: List[Value]) -> G:
        handle = super().admit(crew, function, arguments)
        self.add('link', self.greenlets[handle.g], link=Link(0, 'leave', function.line, thing=crew))
        return handle

    def end(self, g: Greenlet, outcome: Outcome) -> None:
        g.crew = None
        super().end(g, outcome)

    def call_link(self, g: Greenlet, link: Link) -> None:
        if link.kind != 'leave':
            super().call_link(g, link)
            return
        assert link.thing is not None
        link.thing.members.remove(g.number)
        self.touch(link.thing)
        self.settle()

    def goes_on_at_once(self, g: Greenlet, wait: Wait) -> bool:
        return not (wait.kind == 'gkill' and wait.targets) and super().goes_on_at_once(g, wait)


class GkillNewcomers(Rule):
    name, root = 'gkill_newcomers', '9'
    says = 'gkill kills those too that come while it waits'
    source = 'gevent/pool.py, Group.kill: while self.greenlets'

    def __init__(self, *arguments: Any) -> None:
        super().__init__(*arguments)
        self.faults: List[Tuple[Wait, Fault]] = []

    def killed(self, g: Greenlet, st: Statement, wait: Wait, fault: Fault) -> Effect:
        if wait.kind == 'gkill':
            self.faults.append((wait, fault))
        return super().killed(g, st, wait, fault)

    def complete(self, g: Greenlet, wait: Wait, since: int) -> Optional[Outcome]:
        if wait.kind != 'gkill' or not wait.thing.members:
            return super().complete(g, wait, since)
        members = [G(number) for number in wait.thing.members]
        new = [member for member in members if member not in wait.targets]
        wait.targets = members
        self.park(g, wait)
        fault = next(fault for each, fault in self.faults if each is wait)
        self.kills_members = True
        for member in new:
            self.hit(member, fault)
        self.kills_members = False
        return None


class KilledOnce(Rule):
    name, root = 'killed_once', '9'
    says = 'gkill kills each member once: one that survived is not killed again'
    source = 'gevent/pool.py, Group.kill: those in self.dying are left out'
    documentation = 'gevent breaks it. Group.kill: "Kill all greenlets being tracked by this group"'

    def __init__(self, *arguments: Any) -> None:
        super().__init__(*arguments)
        self.dying: Set[Handle] = set()

    def hit(self, target: Handle, fault: Fault) -> None:
        if self.kills_members and target in self.dying:
            return
        if self.kills_members:
            self.dying.add(target)
        super().hit(target, fault)


class GkillInTurn(Rule):
    name, root = 'gkill_in_turn', '3'
    says = 'each kill of a gkill has its place at once: a throw stands before the links of one that had not begun'
    source = 'gevent/pool.py, Group.kill: greenlet.kill(block=False) of each'

    def hit(self, target: Handle, fault: Fault) -> None:
        super().hit(target, fault)
        if self.kills_members:
            self.settle()


class JoinBeforePlace(Rule):
    name, root = 'join_before_place', '9'
    says = 'a pool that becomes empty tells its joiners before those that wait for a place'
    source = 'gevent/pool.py, Pool._discard: the event is set before the semaphore is released'

    def rank(self, item: Item) -> Tuple[int, int]:
        is_place = item.kind == 'wake' and item.parked.kind in ('gspawn', 'mapplace')
        return super().rank(item)[0], int(is_place)


class MapByHelper(Rule):
    name, root = 'map_by_helper', '3'
    says = 'map has a helper that makes the members a turn later'
    source = 'gevent/pool.py, GroupMappingMixin.map: Greenlet.spawn(self.__map)'
    stops_at_a_fault = False

    def do_map(self, g: Greenlet, st: Statement) -> Effect:
        elements = self.value_of(st.operands[0], g)
        if not isinstance(elements, tuple):
            return super().do_map(g, st)
        wait = Helped(g, self.objects[st.thing], st.into)
        wait.function, wait.arguments = self.functions[st.function], list(elements)
        self.add('helper', Greenlet(HELPER, wait.function, [], False, 0), wait=wait)      # it outlives this wait
        return self.park(g, wait)

    def holds(self, item: Item) -> bool:
        if item.kind == 'wake' and item.parked.kind == 'helped':
            return False                                            # its helper's end lets it go on
        return item.kind in ('helper', 'told') or super().holds(item)

    def deliver(self, item: Item) -> None:
        if item.kind not in ('helper', 'told'):
            super().deliver(item)
            return
        self.delivering = item.ready or 0
        self.remove(item)
        wait = item.parked
        assert isinstance(wait, Helped)
        if item.kind == 'helper':
            self.help(item.greenlet, wait)
            return
        wake = self.own_item(wait.caller, 'wake')
        if wake is not None and wake.parked is wait:
            super().deliver(wake)
        else:
            self.settle()

    def woken(self, g: Greenlet, wake: Item) -> None:
        if isinstance(wake.parked, HelpersPlace):
            self.make_member(wake.parked.helped)
            self.help(g, wake.parked.helped)
        else:
            super().woken(g, wake)

    def help(self, helper: Greenlet, wait: 'Helped') -> None:
        """The helper makes members, and waits for each place as others do; then it reads their results in order."""
        while wait.arguments:
            place = HelpersPlace(wait)
            if not self.wait_holds(place, NEWCOMER):
                self.add('wake', helper, wait=place)
                break
            self.make_member(wait)
        else:
            self.read_results(wait)
        self.settle()

    def make_member(self, wait: 'Helped') -> None:
        assert wait.function is not None
        wait.targets = [*wait.targets, self.admit(wait.thing, wait.function, [wait.arguments.pop(0)])]
        self.settle()

    def read_results(self, wait: 'Helped') -> None:
        """Read the results from the first that was not read; `need` counts them, `value` keeps the first fault."""
        while wait.need < len(wait.targets):
            member = wait.targets[wait.need]
            outcome = self.outcome_of(member)
            if outcome is None:
                assert isinstance(member, G)
                self.add('link', self.greenlets[member.g], link=ResultLink(wait))
                return
            if outcome.fault is not None and wait.value is None:
                wait.value = outcome.fault
                if self.stops_at_a_fault:
                    break
            wait.need += 1
        self.add('told', self.greenlets[0], wait=wait)

    def call_link(self, g: Greenlet, link: Link) -> None:
        if isinstance(link, ResultLink):
            self.read_results(link.wait)
            self.settle()
            return
        super().call_link(g, link)

    def complete(self, g: Greenlet, wait: Wait, since: int) -> Optional[Outcome]:
        if wait.kind != 'helped':
            return super().complete(g, wait, since)
        return Outcome('fault', wait.value) if isinstance(wait.value, Fault) else self.mapped(wait)


class Helped(Wait):
    """The wait of a map that has a helper."""
    __slots__ = ('caller',)

    def __init__(self, caller: Greenlet, thing: Thing, into: Optional[str]) -> None:
        super().__init__('map', thing, into, 'helped')
        self.caller = caller


class HelpersPlace(Wait):
    """The wait of a map's helper for a place."""
    __slots__ = ('helped',)

    def __init__(self, helped: Helped) -> None:
        super().__init__('map', helped.thing, None, 'mapplace')
        self.helped = helped


class ResultLink(Link):
    """By which a map's helper is told of the end of a member."""
    __slots__ = ('wait',)

    def __init__(self, wait: Helped) -> None:
        super().__init__(0, 'result', 0)
        self.wait = wait


class MapRaisesEarly(Rule):
    name, root = 'map_raises_early', '6'
    says = 'map raises as soon as its helper reads a fault, and leaves the others running'
    source = 'gevent/pool.py, GroupMappingMixin.__map: get() of each in order; the first fault raises'
    stops_at_a_fault = True


class OneJobMore(Rule):
    name, root = 'one_job_more', 'more'
    says = 'a native pool of n threads takes n + 1 jobs; the last waits in the pool'
    source = 'gevent/threadpool.py, ThreadPool.__init__: Semaphore(1), then + maxsize'
    documentation = 'ThreadPool.spawn blocks until the number of tasks is "approximately" below its size'

    def __init__(self, *arguments: Any) -> None:
        super().__init__(*arguments)
        self.backlog: Dict[str, List[Tuple[int, Tuple[str, int, int]]]] = {}

    def available(self, thing: Thing, what: str) -> int:
        if what != 'slot':
            return super().available(thing, what)
        return thing.free() + 1 - len(self.backlog.get(thing.name, ()))

    def post(self, g: Greenlet, pool: Thing, wait: Wait) -> J:
        if pool.free() > 0:
            return super().post(g, pool, wait)
        number = len(self.jobs) + 1
        self.say('job j%d g%d %s %d' % (number, g.number, wait.job[0], wait.job[1]), g)
        self.jobs[number] = Job(pool)
        self.backlog.setdefault(pool.name, []).append((number, wait.job))
        self.jobs_out += 1
        return J(number)

    def next_job(self, pool: Thing) -> None:
        """One that waits in the pool takes the thread of the one that is done."""
        if self.backlog.get(pool.name):
            number, job = self.backlog[pool.name].pop(0)
            pool.out.add(number)
            self.world.post(number, *job)

    def answered(self, answer: Answer) -> None:
        if answer.kind == 'done':
            self.next_job(self.jobs[answer.job].pool)
        super().answered(answer)


class JobLast(Rule):
    name, root = 'job_last', 'more'
    says = 'the result of a job comes behind all deadlines of its moment'
    source = 'gevent/threadpool.py, ThreadResult._on_async: the result goes on by one more callback'

    def __init__(self, *arguments: Any) -> None:
        super().__init__(*arguments)
        self.answers: Dict[int, Answer] = {}                        # since of an item: what it tells

    def answered(self, answer: Answer) -> None:
        if answer.kind != 'done':
            super().answered(answer)
            return
        self.now, self.looking = answer.at, True
        self.answers[self.next_since] = answer
        self.add('done', self.greenlets[0])
        self.settle()
        self.looking = False

    def holds(self, item: Item) -> bool:
        return item.kind == 'done' or super().holds(item)

    def at_a_look(self, item: Item) -> int:
        return 1 if item.kind == 'done' else super().at_a_look(item)

    def deliver(self, item: Item) -> None:
        if item.kind != 'done':
            super().deliver(item)
            return
        self.delivering = item.ready or 0
        self.remove(item)
        answer = self.answers.pop(item.since)
        job = self.jobs[answer.job]
        job.pool.out.discard(answer.job)
        self.jobs_out -= 1
        self.next_job(job.pool)
        self.settle()                                                # those that wait for a thread are told first
        job.outcome = answer.outcome
        self.settle()


class LooksLast(Rule):
    name, root = 'looks_last', '5'
    says = 'the loop looks at the world when nobody is ready, and not after each turn: jobs are told of later'
    source = 'gevent/_ffi/loop.py, _run_callbacks: runs callbacks, also those that come meanwhile, until none is left'

    def end_of_turn(self) -> None:
        if self.least_ready() is None:
            super().end_of_turn()
