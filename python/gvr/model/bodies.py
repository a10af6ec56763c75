"""How a body runs: its blocks, its end, and raw greenlets. LANGUAGE, "Values and blocks"; MACHINE, "End" and "Raw
greenlets"."""
from typing import List, Optional, Union

from .expressions import Expressions
from .items import PARKED, Effect, Ended, Frame, Greenlet, Land, Pending, Stop, Thing
from .tree import Function, Statement
from .values import GREENLET_EXIT, NOTHING, Fault, G, Outcome, Raised, Value, catches, outcome_text, timeout_fault

MOST_GREENLETS = 20000


class Bodies(Expressions):
    """Runs bodies until they park or end."""

    def do(self, g: Greenlet, st: Statement) -> Effect:
        """The effect of a statement; Machine has it, by the tables of LANGUAGE."""
        raise NotImplementedError

    # ------------------------------------------------------------ making and beginning

    def create(self, function: Function, arguments: List[Value], raw: bool = False, parent: int = 0) -> Greenlet:
        """A new greenlet."""
        if len(self.greenlets) == MOST_GREENLETS:
            raise Stop("no-greenlets")
        g = Greenlet(len(self.greenlets), function, arguments, raw, parent)
        self.greenlets.append(g)
        return g

    def admit(self, crew: Thing, function: Function, arguments: List[Value]) -> G:
        """A new member of a group or pool, which is to start."""
        g = self.create(function, arguments)
        g.crew = crew
        crew.members.append(g.number)
        self.touch(crew)
        self.add("start", g)
        return g.handle

    def begin_body(self, g: Greenlet) -> None:
        """The body begins."""
        g.state = "live"
        g.locals = dict(zip(g.function.parameters, g.arguments))
        g.stack = [Frame("body", g.function.body)]
        self.say(f"start g{g.number} {g.function.name}", g)

    # ------------------------------------------------------------ running

    def run(self, g: Greenlet, given: Optional[Outcome]) -> None:
        """Runs a greenlet until it parks or ends; a raw one until its host does. given: what its statement gives or
        raises; None where the body begins."""
        while True:
            what = self.resume(g, given)
            if isinstance(what, Ended):
                self.end(g, what.outcome)
                if not g.raw:
                    return
                what = Land(g.parent, passed_on(what.outcome))
            if not isinstance(what, Land):
                return
            number, given = self.land(what.greenlet, what.sent)
            g = self.greenlets[number]

    def resume(self, g: Greenlet, given: Optional[Outcome]) -> Union[None, Ended, Land]:
        """Goes on in a greenlet. None: it has parked."""
        if given is not None and given.kind == "fault":
            ended = self.unwind(g, Pending("fault", given.what))
            if ended is not None:
                return ended
        elif given is not None and g.into is not None:
            g.locals[g.into] = given.what
        return self.advance(g)

    def begin_move(self) -> None:
        """One more move."""
        if self.moves == self.most_moves:
            raise Stop("no-moves")
        self.moves += 1

    def advance(self, g: Greenlet) -> Union[None, Ended, Land]:
        """Runs statement after statement. None: it has parked."""
        stack = g.stack
        while stack:
            top = stack[-1]
            if top.kind == "body":
                if top.place == len(top.body):
                    stack.pop()
                    continue
                st = top.body[top.place]
                top.place += 1
                if st.word == "while":
                    stack.append(Frame("while", statement=st))
                    continue
                effect = self.move(g, st)
                if effect is None:
                    continue
                if effect == PARKED:
                    return None
                if isinstance(effect, Land):
                    return effect
            else:
                effect = self.repeat(g, top) if top.kind == "while" else self.leave(g, top)
            ended = self.unwind(g, effect) if isinstance(effect, Pending) else None
            if ended is not None:
                return ended
        g.at = g.function.end_line
        return Ended(NOTHING)

    def move(self, g: Greenlet, st: Statement) -> Effect:
        """One statement, and who is ready behind it."""
        self.begin_move()
        g.at = st.line
        effect: Effect
        try:
            effect = self.do(g, st)
        except Raised as raised:
            effect = Pending("fault", raised.fault)
        self.settle()
        return effect

    def repeat(self, g: Greenlet, frame: Frame) -> Optional[Pending]:
        """Evaluates the condition of a `while`."""
        st = frame.statement
        assert st is not None
        self.begin_move()
        g.at = st.line
        try:
            if self.truth(self.value_of(st.operands[0], g)):
                g.stack.append(Frame("body", st.body))
            else:
                g.stack.pop()
        except Raised as raised:
            return Pending("fault", raised.fault)
        return None

    def leave(self, g: Greenlet, frame: Frame) -> Optional[Pending]:
        """A block's body has come to its end."""
        g.stack.pop()
        if frame.kind == "timeout":
            self.leave_timeout(g, frame.n)
        elif frame.kind == "finally":
            return frame.pending
        else:
            self.begin_final(g, frame, None)
        return None

    @staticmethod
    def begin_final(g: Greenlet, frame: Frame, pending: Optional[Pending]) -> bool:
        """Begins the `finally` of a try, where it has one."""
        assert frame.statement is not None
        if frame.statement.final is None:
            return False
        g.stack.append(Frame("finally", pending=pending))
        g.stack.append(Frame("body", frame.statement.final))
        return True

    def unwind(self, g: Greenlet, pending: Pending) -> Optional[Ended]:
        """A fault or a return leaves blocks. None: it stops inside the body."""
        while g.stack:
            frame = g.stack.pop()
            if frame.kind == "timeout":
                self.leave_timeout(g, frame.n)
                silent = frame.statement is not None and frame.statement.option == "silent"
                if silent and pending == Pending("fault", timeout_fault(frame.n)):
                    return None
            elif frame.kind == "try" and pending.kind == "fault" and self.catch(g, frame, pending):
                return None
            elif frame.kind in ("try", "except") and self.begin_final(g, frame, pending):
                return None
        return Ended(Outcome("value" if pending.kind == "return" else "fault", pending.what))

    @staticmethod
    def catch(g: Greenlet, frame: Frame, pending: Pending) -> bool:
        """Begins the first `except` whose class catches the fault."""
        assert frame.statement is not None and isinstance(pending.what, Fault)
        for each in frame.statement.excepts:
            if catches(each.name, pending.what):
                if each.into is not None:
                    g.locals[each.into] = pending.what
                g.stack.append(Frame("except", statement=frame.statement))
                g.stack.append(Frame("body", each.body))
                return True
        return False

    def leave_timeout(self, g: Greenlet, n: int) -> None:
        """The block of Timeout n is left."""
        for item in g.own.values():
            if item.kind == "timeout" and item.n == n:
                self.remove(item)
                return

    # ------------------------------------------------------------ ending

    def end(self, g: Greenlet, outcome: Outcome) -> None:
        """The greenlet has ended."""
        g.outcome = passed_on(outcome)
        g.state, g.stack, g.locals = "done", [], {}
        self.say(f"end g{g.number} {outcome_text(g.outcome)}", g)
        for item in list(g.own.values()):
            if item.link is None or not self.fits(item.link, g):
                self.remove(item)
        if g.crew is not None:
            g.crew.members.remove(g.number)
            self.touch(g.crew)
        self.touch_whom(g.handle)
        self.settle()
        if g.number == 0:
            raise Stop(g.outcome.kind, g.outcome)

    # ------------------------------------------------------------ raw greenlets

    def land(self, number: int, sent: Outcome) -> "tuple[int, Optional[Outcome]]":
        """What is sent arrives at a greenlet. Gives the one that runs, and what its switch gives; None if it begins."""
        while True:
            g = self.greenlets[number]
            if g.state == "live":
                self.say(f"into g{number} {outcome_text(sent)}", g)
                return number, sent
            if g.state == "new" and sent.kind == "value":
                g.arguments = [sent.what]
                self.begin_body(g)
                return number, None
            if g.state == "new":
                self.end(g, sent)
            sent = passed_on(sent)
            number = g.parent

    def host_of(self, number: int) -> int:
        """The first above it that is not raw."""
        while self.greenlets[number].raw:
            number = self.greenlets[number].parent
        return number


def passed_on(outcome: Outcome) -> Outcome:
    """GreenletExit counts as the value GreenletExit."""
    return Outcome("value", GREENLET_EXIT) if outcome.what == GREENLET_EXIT else outcome
