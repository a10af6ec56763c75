"""The effect of each statement: LANGUAGE, "Statements", row by row."""
from typing import Callable, Dict, List, Optional, Sequence

from .items import Effect, Frame, Greenlet, Land, Line, Link, PARKED, Pending, Stop, Thing, Wait
from .syntax import SHAPES
from .tree import Scenario, Statement
from .values import (GREENLET_EXIT, INVALID_SWITCH, RUNTIME_ERROR, TYPE_ERROR, VALUE_ERROR, Fault, G, J, Outcome, Raised,
                     Value, value_text)
from .waits import Waits
from .worlds import World

MOST_LINKS = 100000


class Statements(Waits):
    """do(g, st) has the effect of a statement; do_print and its kin are the rows."""

    def __init__(self, scenario: Scenario, turns: int, moves: int, world: World, tell: Callable[[Line], object]) -> None:
        super().__init__(scenario, turns, moves, world, tell)
        self.effects: Dict[str, Callable[[Greenlet, Statement], Effect]] = {
            word: getattr(self, "do_" + word) for word in SHAPES if word != "while"}

    def do(self, g: Greenlet, st: Statement) -> Effect:
        return self.effects[st.word](g, st)

    # ------------------------------------------------------------ what operands have to be

    def greenlet_of(self, value: Value, raw_too: bool = False) -> G:
        """The value, which has to be a greenlet; one that is not raw unless raw_too."""
        if not isinstance(value, G) or (not raw_too and self.greenlets[value.g].raw):
            raise Raised(TYPE_ERROR)
        return value

    @staticmethod
    def fault_of(value: Value) -> Fault:
        """The value, which has to be a fault."""
        if not isinstance(value, Fault):
            raise Raised(TYPE_ERROR)
        return value

    def targets_of(self, value: Value) -> List[G]:
        """The value, which has to be a list of greenlets that are not raw."""
        if not isinstance(value, tuple):
            raise Raised(TYPE_ERROR)
        return [self.greenlet_of(each) for each in value]

    def values_of(self, g: Greenlet, st: Statement) -> List[Value]:
        """The values of all operands."""
        return [self.value_of(e, g) for e in st.operands]

    def same_host(self, g: Greenlet, whom: G) -> None:
        """The other has to have the host of the one that runs."""
        if self.host_of(whom.g) != self.host_of(g.number):
            raise Raised(INVALID_SWITCH)

    # ------------------------------------------------------------ values and blocks

    def do_print(self, g: Greenlet, st: Statement) -> Effect:
        self.say(f"print g{g.number} {value_text(self.value_of(st.operands[0], g))}", g)
        return None

    def do_let(self, g: Greenlet, st: Statement) -> Effect:
        assert st.into is not None
        g.locals[st.into] = self.value_of(st.operands[0], g)
        return None

    def do_return(self, g: Greenlet, st: Statement) -> Effect:
        return Pending("return", self.value_of(st.operands[0], g))

    def do_raise(self, g: Greenlet, st: Statement) -> Effect:
        raise Raised(self.fault_of(self.value_of(st.operands[0], g)))

    def do_if(self, g: Greenlet, st: Statement) -> Effect:
        body = st.body if self.truth(self.value_of(st.operands[0], g)) else st.other
        g.stack.append(Frame("body", body or ()))
        return None

    def do_try(self, g: Greenlet, st: Statement) -> Effect:
        g.stack += [Frame("try", statement=st), Frame("body", st.body)]
        return None

    def do_timeout(self, g: Greenlet, st: Statement) -> Effect:
        n = self.next_timeout()
        self.add("timeout", g, None if st.ms is None else self.now + st.ms, n=n)
        g.stack += [Frame("timeout", statement=st, n=n), Frame("body", st.body)]
        return None

    # ------------------------------------------------------------ making greenlets, and links

    def do_spawn(self, g: Greenlet, st: Statement) -> Effect:
        self.add("start", self.new_of(g, st, self.functions[st.function]))
        return None

    def do_spawnlater(self, g: Greenlet, st: Statement) -> Effect:
        assert st.ms is not None
        self.add("start", self.new_of(g, st, self.functions[st.function]), self.now + st.ms)
        return None

    def do_new(self, g: Greenlet, st: Statement) -> Effect:
        self.new_of(g, st, self.functions[st.function])
        return None

    def do_start(self, g: Greenlet, st: Statement) -> Effect:
        whom = self.greenlets[self.greenlet_of(self.value_of(st.operands[0], g)).g]
        if whom.state == "new" and self.own_item(whom, "start") is None:
            self.add("start", whom)
        return None

    def linked(self, g: Greenlet, st: Statement, kind: str, thing: Optional[Thing] = None) -> Effect:
        """A link of any kind."""
        whom = self.greenlets[self.greenlet_of(self.value_of(st.operands[0], g)).g]
        if self.links == MOST_LINKS:
            raise Stop("no-links")
        self.links += 1
        function = self.functions[st.function] if st.function else None
        link = Link(self.links, kind, st.line, function, st.number or 0, thing)
        if whom.state != "done" or self.fits(link, whom):
            self.add("link", whom, link=link)
        if st.into is not None:
            g.locals[st.into] = self.links
        return None

    def do_link(self, g: Greenlet, st: Statement) -> Effect:
        return self.linked(g, st, "any")

    def do_linkvalue(self, g: Greenlet, st: Statement) -> Effect:
        return self.linked(g, st, "value")

    def do_linkfault(self, g: Greenlet, st: Statement) -> Effect:
        return self.linked(g, st, "fault")

    def do_rawlink(self, g: Greenlet, st: Statement) -> Effect:
        return self.linked(g, st, "set", self.objects[st.thing]) if st.thing else self.linked(g, st, "mark")

    def do_unlink(self, g: Greenlet, st: Statement) -> Effect:
        number = self.value_of(st.operands[0], g)
        if type(number) is not int:
            raise Raised(TYPE_ERROR)
        for item in self.items.values():
            if item.link is not None and item.link.number == number:
                self.remove(item)
                break
        return None

    # ------------------------------------------------------------ waits for a time and for greenlets

    def do_sleep(self, g: Greenlet, st: Statement) -> Effect:
        return self.park(g, Wait("sleep"), st.ms, sleeps=True)

    def do_join(self, g: Greenlet, st: Statement) -> Effect:
        wait = Wait("join")
        wait.targets = [self.greenlet_of(self.value_of(st.operands[0], g))]
        return self.wait_for(g, st, wait)

    def do_get(self, g: Greenlet, st: Statement) -> Effect:
        whom = self.value_of(st.operands[0], g)
        wait = Wait("get", into=st.into)
        wait.targets = [whom if isinstance(whom, J) else self.greenlet_of(whom)]
        return self.wait_for(g, st, wait)

    def do_kill(self, g: Greenlet, st: Statement) -> Effect:
        values = self.values_of(g, st)
        wait = Wait("kill")
        wait.targets = [self.greenlet_of(values[0])]
        return self.killed(g, st, wait, self.with_fault(values[1:]))

    def do_killall(self, g: Greenlet, st: Statement) -> Effect:
        values = self.values_of(g, st)
        wait = Wait("killall")
        wait.targets = self.targets_of(values[0])
        return self.killed(g, st, wait, self.with_fault(values[1:]))

    def with_fault(self, given: Sequence[Value]) -> Fault:
        """The fault behind `with`, GreenletExit where there is none."""
        return self.fault_of(given[0]) if given else GREENLET_EXIT

    def do_joinall(self, g: Greenlet, st: Statement) -> Effect:
        wait = Wait("joinall", into=st.into)
        wait.targets = self.targets_of(self.value_of(st.operands[0], g))
        wait.need = len(wait.targets) if st.number is None else min(st.number, len(wait.targets))
        return self.wait_for(g, st, wait)

    # ------------------------------------------------------------ events and results

    def set_event(self, thing: Thing) -> None:
        """The event is set, and all who wait may go on."""
        thing.is_set, thing.sets = True, thing.sets + 1
        self.touch(thing)

    def do_set(self, g: Greenlet, st: Statement) -> Effect:
        self.set_event(self.objects[st.thing])
        return None

    def do_clear(self, g: Greenlet, st: Statement) -> Effect:
        self.objects[st.thing].is_set = False
        return None

    def do_wait(self, g: Greenlet, st: Statement) -> Effect:
        wait = Wait("wait", self.objects[st.thing], st.into)
        wait.sets = wait.thing.sets
        return self.wait_for(g, st, wait)

    def do_rset(self, g: Greenlet, st: Statement) -> Effect:
        return self.put_result(self.objects[st.thing], Outcome("value", self.value_of(st.operands[0], g)))

    def do_rfail(self, g: Greenlet, st: Statement) -> Effect:
        return self.put_result(self.objects[st.thing], Outcome("fault", self.fault_of(self.value_of(st.operands[0], g))))

    def put_result(self, thing: Thing, outcome: Outcome) -> Effect:
        """Something is put into a result."""
        thing.outcome = outcome
        self.touch(thing)
        return None

    def on_object(self, g: Greenlet, st: Statement) -> Effect:
        """A wait on an object without more ado."""
        return self.wait_for(g, st, Wait(st.word, self.objects[st.thing], st.into))

    do_rget = do_rwait = do_acquire = do_qget = do_qpeek = do_qjoin = do_cget = do_gjoin = on_object

    # ------------------------------------------------------------ semaphores, locks, queues and channels

    def do_release(self, g: Greenlet, st: Statement) -> Effect:
        thing = self.objects[st.thing]
        if thing.kind == "rlock":
            if thing.owner != g.number:
                raise Raised(RUNTIME_ERROR)
            thing.depth -= 1
            if thing.depth == 0:
                thing.owner = None
        elif thing.kind == "bsem" and thing.units == thing.size:
            raise Raised(VALUE_ERROR)
        else:
            thing.units += 1
        self.touch(thing)
        return None

    def do_qput(self, g: Greenlet, st: Statement) -> Effect:
        wait = Wait("qput", self.objects[st.thing])
        wait.value = self.value_of(st.operands[0], g)
        if wait.thing.order == "prio" and type(wait.value) is not int:
            raise Raised(TYPE_ERROR)
        return self.wait_for(g, st, wait)

    def do_qdone(self, g: Greenlet, st: Statement) -> Effect:
        thing = self.objects[st.thing]
        if thing.tasks == 0:
            raise Raised(VALUE_ERROR)
        thing.tasks -= 1
        self.touch(thing)
        return None

    def do_qshut(self, g: Greenlet, st: Statement) -> Effect:
        thing = self.objects[st.thing]
        thing.is_shut = True
        if st.option == "immediate":
            thing.tasks = max(0, thing.tasks - len(thing.items))
            thing.items = []
        self.touch(thing)
        return None

    def do_cput(self, g: Greenlet, st: Statement) -> Effect:
        wait = Wait("cput", self.objects[st.thing])
        wait.value = self.value_of(st.operands[0], g)
        return self.park(g, wait)

    # ------------------------------------------------------------ groups, pools and jobs

    def do_gspawn(self, g: Greenlet, st: Statement) -> Effect:
        wait = Wait("gspawn", self.objects[st.thing], st.into)
        wait.function, wait.arguments = self.functions[st.function], self.values_of(g, st)
        return self.wait_for(g, st, wait)

    def do_gkill(self, g: Greenlet, st: Statement) -> Effect:
        wait = Wait("gkill", self.objects[st.thing])
        fault = self.with_fault(self.values_of(g, st))
        wait.targets = [G(number) for number in wait.thing.members]
        return self.killed(g, st, wait, fault)

    def do_map(self, g: Greenlet, st: Statement) -> Effect:
        elements = self.value_of(st.operands[0], g)
        if not isinstance(elements, tuple):
            raise Raised(TYPE_ERROR)
        wait = Wait("map", self.objects[st.thing], st.into, "mapplace")
        wait.function = self.functions[st.function]
        given = self.map_on(g, wait, list(elements))
        return PARKED if given is None else self.give(g, st.into, given)

    def do_nspawn(self, g: Greenlet, st: Statement) -> Effect:
        n = self.value_of(st.operands[0], g)
        if type(n) is not int:
            raise Raised(TYPE_ERROR)
        wait = Wait("nspawn", self.objects[st.thing], st.into)
        wait.job = st.option, n, st.ms or 0
        return self.wait_for(g, st, wait)

    # ------------------------------------------------------------ raw greenlets

    def do_raw(self, g: Greenlet, st: Statement) -> Effect:
        parent = g.number
        for value in self.values_of(g, st):
            under = self.greenlet_of(value, raw_too=True)
            self.same_host(g, under)
            parent = under.g
        made = self.create(self.functions[st.function], [], True, parent)
        if st.into is not None:
            g.locals[st.into] = made.handle
        return None

    def do_switch(self, g: Greenlet, st: Statement) -> Effect:
        values = self.values_of(g, st)
        whom = self.greenlet_of(values[0], raw_too=True)
        self.same_host(g, whom)
        g.into = st.into
        return Land(whom.g, Outcome("value", values[1]))

    def do_throw(self, g: Greenlet, st: Statement) -> Effect:
        values = self.values_of(g, st)
        whom = self.greenlet_of(values[0], raw_too=True)
        fault = self.with_fault(values[1:])
        self.same_host(g, whom)
        g.into = st.into
        return Land(whom.g, Outcome("fault", fault))

    def do_setparent(self, g: Greenlet, st: Statement) -> Effect:
        child, parent = [self.greenlet_of(value, raw_too=True) for value in self.values_of(g, st)]
        if not self.greenlets[child.g].raw:
            raise Raised(TYPE_ERROR)
        self.same_host(g, child)
        self.same_host(g, parent)
        above = parent.g
        while above != child.g and self.greenlets[above].raw:
            above = self.greenlets[above].parent
        if above == child.g:
            raise Raised(VALUE_ERROR)
        self.greenlets[child.g].parent = parent.g
        return None
