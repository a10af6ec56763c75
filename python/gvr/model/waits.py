"""Waits, kills and jobs: MACHINE, "Waiting" and "Kill"; the columns "Gives", "Late" and "now" of LANGUAGE."""
from typing import List, Optional, Sequence, Tuple

from .bodies import Bodies
from .items import NEWCOMER, PARKED, Effect, Greenlet, Job, Stop, Thing, Wait
from .tree import Function, Statement
from .values import (EMPTY, FULL, NOTHING, SHUT_DOWN, TYPE_ERROR, Fault, G, Handle, J, Outcome, Raised, Scalar, Value,
                     fault_text, timeout_fault)

MOST_KILLS = 1000000
TRUE, FALSE = Outcome("value", True), Outcome("value", False)


class Waits(Bodies):
    """How a statement waits, and what its wait gives."""

    def wait_for(self, g: Greenlet, st: Statement, wait: Wait) -> Effect:
        """A newcomer goes on at once, answers by `now`, or parks."""
        if self.goes_on_at_once(g, wait):
            given = self.complete(g, wait, NEWCOMER)
        elif st.now:
            given = self.late(wait, None)
        else:
            draws = st.within is not None and wait.kind in ("get", "rget")
            return self.park(g, wait, st.within, self.next_timeout() if draws else None)
        return PARKED if given is None else self.give(g, wait.into, given)

    def goes_on_at_once(self, g: Greenlet, wait: Wait) -> bool:
        """Whether a newcomer need not wait."""
        if wait.kind == "wait":
            return wait.thing.is_set
        if wait.kind == "acquire" and wait.thing.owner == g.number:
            return True
        return self.wait_holds(wait, NEWCOMER)

    def park(self, g: Greenlet, wait: Wait, within: Optional[int] = None, n: Optional[int] = None,
             sleeps: bool = False) -> Effect:
        """The greenlet parks: with a Late, that draws Timeout n, after `within`; until then where it sleeps."""
        deadline = None if within is None else self.now + within
        until = "" if deadline is None else f" until {deadline}"
        self.say(f"park g{g.number} {wait.text()}{until}", g)
        g.into = wait.into
        wake = self.add("wake", g, deadline if sleeps else None, wait)
        if wait.kind == "cput":
            wait.thing.offers.append((wait.value, wake.since))
            self.touch(wait.thing)
        if deadline is not None and not sleeps:
            self.add("late", g, deadline, wait, n=n)
        return PARKED

    def unpark(self, g: Greenlet) -> None:
        """The Wake and the Late of a greenlet go, and its offer on a channel."""
        for kind in ("wake", "late"):
            item = self.own_item(g, kind)
            if item is not None:
                self.remove(item)
                if kind == "wake" and item.parked.kind == "cput":
                    thing = item.parked.thing
                    thing.offers = [offer for offer in thing.offers if offer[1] != item.since]
                    self.touch(thing)

    @staticmethod
    def give(g: Greenlet, into: Optional[str], given: Outcome) -> None:
        """The statement gives a value, or raises."""
        if given.fault is not None:
            raise Raised(given.fault)
        if into is not None:
            g.locals[into] = given.what

    def next_timeout(self) -> int:
        """The number of the next Timeout."""
        self.timeouts += 1
        return self.timeouts

    def late(self, wait: Wait, n: Optional[int]) -> Outcome:
        """What a wait gives at its deadline, with the n that was drawn; or under `now`, with None."""
        kind = wait.kind
        if kind in ("get", "rget"):
            return Outcome("fault", timeout_fault(self.next_timeout() if n is None else n))
        if kind == "joinall":
            return Outcome("value", self.ended_of(wait.targets))
        if kind == "qput":
            return Outcome("fault", FULL)
        if kind in ("qget", "qpeek"):
            return Outcome("fault", EMPTY)
        return FALSE if kind in ("wait", "acquire", "qjoin") else NOTHING

    def ended_of(self, targets: Sequence[Handle]) -> Tuple[Scalar, ...]:
        """Those that have ended, in the order of the list."""
        return tuple([whom for whom in targets if self.ended(whom)])

    def complete(self, g: Greenlet, wait: Wait, since: int) -> Optional[Outcome]:
        """What a wait gives that goes on; None where a map parks again."""
        kind = wait.kind
        if kind in ("acquire", "qput", "qget", "qpeek", "cget", "gspawn", "mapplace", "nspawn"):
            self.touch(wait.thing)
            return self.taken(g, wait, since)
        if kind == "get":
            return self.outcome_of(wait.targets[0])
        if kind == "joinall":
            return Outcome("value", self.ended_of(wait.targets))
        if kind in ("wait", "qjoin"):
            return TRUE
        if kind == "rget":
            return wait.thing.outcome
        if kind == "rwait":
            put = wait.thing.outcome
            return put if put is not None and put.kind == "value" else NOTHING
        return self.mapped(wait) if kind == "mapend" else NOTHING

    def taken(self, g: Greenlet, wait: Wait, since: int) -> Optional[Outcome]:
        """Takes what was waited for."""
        kind, thing = wait.kind, wait.thing
        if kind == "acquire":
            if thing.kind == "rlock":
                thing.owner, thing.depth = g.number, thing.depth + 1
            else:
                thing.units -= 1
            return TRUE
        if kind == "qput":
            if thing.is_shut:
                return Outcome("fault", SHUT_DOWN)
            thing.put(wait.value)
            return NOTHING
        if kind in ("qget", "qpeek"):
            if thing.is_shut and self.earlier(thing, "item", since) >= len(thing.items):
                return Outcome("fault", SHUT_DOWN)
            return Outcome("value", thing.take() if kind == "qget" else thing.next_item())
        if kind == "cget":
            return Outcome("value", thing.offers.pop(0)[0])
        if kind == "nspawn":
            return Outcome("value", self.post(g, thing, wait))
        assert wait.function is not None
        if kind == "gspawn":
            return Outcome("value", self.admit(thing, wait.function, wait.arguments))
        wait.targets = [*wait.targets, self.admit(thing, wait.function, wait.arguments[:1])]
        self.settle()
        return self.map_on(g, wait, wait.arguments[1:])

    # ------------------------------------------------------------ map

    def map_on(self, g: Greenlet, wait: Wait, elements: List[Value]) -> Optional[Outcome]:
        """A map with these elements to come: a member for each, waiting for a place before each, then for all."""
        thing, function, members = wait.thing, wait.function, list(wait.targets)
        assert function is not None
        while True:
            wait = Wait("map", thing, wait.into, "mapplace" if elements else "mapend")
            wait.function, wait.arguments, wait.targets = function, elements, members
            if not self.wait_holds(wait, NEWCOMER):
                self.park(g, wait)
                return None
            if not elements:
                return self.complete(g, wait, NEWCOMER)
            members = [*members, self.admit(thing, function, elements[:1])]
            elements = elements[1:]

    def mapped(self, wait: Wait) -> Outcome:
        """What a map gives whose members have all ended."""
        values: List[Scalar] = []
        is_nested = False
        for member in wait.targets:
            outcome = self.outcome_of(member)
            assert outcome is not None
            if outcome.kind == "fault":
                return outcome
            if isinstance(outcome.what, tuple):
                is_nested = True
            else:
                values.append(outcome.what)
        return Outcome("fault", TYPE_ERROR) if is_nested else Outcome("value", tuple(values))

    # ------------------------------------------------------------ jobs and kills

    def post(self, g: Greenlet, pool: Thing, wait: Wait) -> J:
        """Posts a job."""
        number = len(self.jobs) + 1
        job, n, takes = wait.job
        self.say(f"job j{number} g{g.number} {job} {n}", g)
        self.world.post(number, job, n, takes)
        self.jobs[number] = Job(pool)
        pool.out.add(number)
        self.jobs_out += 1
        return J(number)

    def hit(self, target: Handle, fault: Fault) -> None:
        """A kill of one greenlet."""
        assert isinstance(target, G)
        g = self.greenlets[target.g]
        if g.state == "done":
            return
        if g.state == "live":
            if self.kills == MOST_KILLS:
                raise Stop("no-kills")
            self.add("kill", g, fault=fault)
            return
        start = self.own_item(g, "start")
        if start is not None:
            self.remove(start)
        self.say(f"throw g{g.number} {fault_text(fault)}", g)
        self.end(g, Outcome("fault", fault))

    def killed(self, g: Greenlet, st: Statement, wait: Wait, fault: Fault) -> Effect:
        """Kills the targets of the wait, then waits for them, but not under `now`."""
        for target in wait.targets:
            self.hit(target, fault)
        return None if st.now else self.wait_for(g, st, wait)

    def new_of(self, g: Greenlet, st: Statement, function: Function) -> Greenlet:
        """A greenlet of the statement's function and arguments."""
        made = self.create(function, [self.value_of(e, g) for e in st.operands])
        if st.into is not None:
            g.locals[st.into] = made.handle
        return made
