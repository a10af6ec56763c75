"""A decider that drives the model of the machine in this process, statement by statement.

Only two methods differ from the machine of a scenario: how a body begins, and how it comes to its next statement. A
body has one open place and the timeout blocks around it; where the machine would look at the text for the next
statement, it asks.
"""
import re
from typing import Any, Callable, Dict, List, NamedTuple, Optional, Type, Union

import greenlet as real

from ..model import (PARKED, Effect, Ended, Expression, Frame, Function, G, Greenlet, IndexedMachine, Land, Line,
                     Machine, Outcome, Pending, Scenario, ScriptWorld, Statement as Move, Thing, fault_text,
                     read_declaration, read_expression, read_fault, read_statement, value_text)
from .decider import FAULT, START, STOP, VALUE, Next, Options
from .record import Body, Record, Statement

HANDLE = re.compile(r'g[0-9]+\Z')
NUMBER = re.compile(r'-?[0-9]+\Z')
# Where the one value of a statement stands, which differs from call to call.
VALUE_AT = {'print': 1, 'join': 1, 'get': 1, 'kill': 1, 'start': 1, 'qput': 2, 'rset': 2, 'cput': 2, 'switch': 2}
MOST_READ = 20000                                # statements that are kept as they were read


class Last(NamedTuple):
    """A body is at its end: its last line, if it has one, or the fault that it ends by."""
    line: Optional[str]
    fault: Optional[str]


class Functions(Dict[str, Function]):
    """Any name is a function; what it does is told."""

    def __missing__(self, name: str) -> Function:
        function = self[name] = Function(name, False, ['i'])
        return function


class Reading:
    """Statements as the model has them, by their texts."""

    def __init__(self) -> None:
        self.read: Dict[str, Move] = {}
        self.but_for_value: Dict[str, Move] = {}

    def statement(self, text: str, gives: bool) -> Move:
        """A statement. The machine is through with it before the next one is asked for: so those that differ in their
        value alone are one, which gets the value."""
        words = text.split(' ')
        at = VALUE_AT.get(words[0])
        if at is not None:
            value = words[at]
            if NUMBER.match(value) or HANDLE.match(value):
                words[at] = 'none'
                move = known(self.but_for_value, ' '.join(words), gives)
                if words[0] == 'switch':
                    move.operands = (move.operands[0], constant(value))
                else:
                    move.operands = (constant(value), *move.operands[1:])
                return move
        return known(self.read, text, gives)

    def timeout(self, milliseconds: Optional[int]) -> Move:
        return known(self.read, 'timeout %s' % ('none' if milliseconds is None else milliseconds), False)


def known(read: Dict[str, Move], text: str, gives: bool) -> Move:
    """A statement that is read once."""
    key = ('v <- ' + text) if gives else text
    move = read.get(key)
    if move is None:
        if len(read) > MOST_READ:
            read.clear()
        move = read_statement(key)
        move.operands = tuple([handles(e) for e in move.operands])
        read[key] = move
    return move


def constant(word: str) -> Expression:
    return Expression('constant', value=G(int(word[1:])) if word[0] == 'g' else int(word))


def handles(expression: Expression) -> Expression:
    """The expression, in which gN is the handle of greenlet N."""
    if expression.form == 'name' and HANDLE.match(expression.name):
        return constant(expression.name)
    if expression.operands:
        expression.operands = tuple([handles(e) for e in expression.operands])
    return expression


class Driven(Machine):
    """A machine whose bodies ask for their next statement. ask(number, kind, text) gives it."""
    ask: Callable[[int, str, str], Union[Move, Last]]

    def begin_body(self, g: Greenlet) -> None:
        g.state, g.locals, g.stack = 'live', {}, []      # the stack has the timeout blocks that are open
        self.say('start g%d %s' % (g.number, g.function.name), g)

    def resume(self, g: Greenlet, given: Optional[Outcome]) -> Union[None, Ended, Land]:
        kind, text = START, value_text(g.arguments[0]) if g.arguments else 'none'
        if given is not None:
            kind, text = given.kind, value_text(given.what)
            if kind == VALUE and g.into is not None:
                g.locals[g.into] = given.what
        while True:
            told = self.ask(g.number, kind, text)
            if isinstance(told, Last):
                return Ended(self.last(g, told))
            effect: Effect = self.move(g, told)
            if effect == PARKED:
                return None
            if isinstance(effect, Land):
                return effect
            if isinstance(effect, Pending):
                kind, text = FAULT, value_text(effect.what)
                continue
            kind, text = VALUE, 'none'
            if told.word == 'timeout':
                g.stack.pop()                            # the block's statements: those that are told
            elif told.into is not None:
                text = value_text(g.locals[told.into])

    def last(self, g: Greenlet, told: Last) -> Outcome:
        """How a body ends."""
        for frame in reversed(g.stack):
            self.leave_timeout(g, frame.n)
        if told.line is None:
            return Outcome(VALUE, None) if told.fault is None else Outcome(FAULT, read_fault(told.fault))
        self.begin_move()
        if told.fault is not None:
            return Outcome(FAULT, read_fault(told.fault))
        word, text = told.line.split(' ', 1)
        value = self.value_of(handles(read_expression(text)), g)
        return Outcome(VALUE if word == 'return' else FAULT, value)

    def close(self, number: int) -> None:
        """The innermost timeout block of a greenlet is left."""
        g = self.greenlets[number]
        frame: Frame = g.stack.pop()
        self.leave_timeout(g, frame.n)


class DrivenFast(Driven, IndexedMachine):
    """The same, by the machine that looks only at what a change touches."""


class Stepped:
    """Decides by a machine of the model."""

    def __init__(self, record: Record, options: Options = Options(), machine: Type[Driven] = DrivenFast) -> None:
        self.record, self.reading = record, Reading()
        self.lines: List[str] = []
        world = ScriptWorld(options.tick)
        world.begin(1)
        self.machine = machine(Scenario(2), options.turns, options.moves, world, self._hear)
        self.machine.functions = Functions()
        self.machine.ask = self._ask
        self.engine = self.outside = real.greenlet(self.machine.go)

    def _hear(self, line: Line) -> None:
        self.lines.append(line.text)

    def _ask(self, number: int, kind: str, text: str) -> Union[Move, Last]:
        """The machine's side: a body goes on; what is its next statement?"""
        lines, self.lines = self.lines, []
        told: Union[Move, Last] = self.outside.switch(Next(lines, number, kind, text))
        return told

    def _answer(self, *told: Any) -> Next:
        """Lets the machine go on to its next question, or to its end."""
        asked = self.engine.switch(*told)
        return asked if isinstance(asked, Next) else Next(self.lines, 0, STOP, self.lines[-1])

    def begin(self) -> Next:
        self.engine.parent = self.outside = real.getcurrent()
        return self._answer()

    def declared(self, kind: str, name: str, rest: str) -> None:
        text = '%s %s %s' % (kind, name, rest) if rest else '%s %s' % (kind, name)
        self.machine.objects[name] = Thing(read_declaration(text))

    def told(self, body: Body, statement: Statement) -> Next:
        return self._answer(self.reading.statement(statement.text, statement.gives and not statement.is_let))

    def opened(self, body: Body, milliseconds: Optional[int]) -> Next:
        return self._answer(self.reading.timeout(milliseconds))

    def closed(self, body: Body) -> None:
        assert body.number is not None
        self.machine.close(body.number)

    def ended(self, body: Body) -> Next:
        through = body.last is not None and body.through
        fault = body.last.fault if through and body.last is not None else body.final_fault
        return self._answer(Last(body.final, fault))
