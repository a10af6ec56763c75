"""What an expression comes to: LANGUAGE, "Expressions"."""
from typing import Tuple

from .items import Greenlet
from .settling import Settling
from .tree import Expression
from .values import (MOST_ELEMENTS, TYPE_ERROR, VALUE_ERROR, G, J, Raised, Scalar, Value, arithmetic, same)

INTEGERS = ("+", "-", "*", "/", "%", "<", "<=")
OUTCOMES = ("ready", "successful", "value", "exception")


class Expressions(Settling):
    """Evaluates."""

    def value_of(self, e: Expression, g: Greenlet) -> Value:
        """The value of an expression in a greenlet, or Raised. Operands go from left to right, then their kinds are
        tested."""
        form = e.form
        if form == "name":
            return g.locals.get(e.name)
        if form == "constant":
            return e.value
        if form == "self":
            return g.handle
        if form in ("and", "or"):
            first = self.truth(self.value_of(e.operands[0], g))
            return first if first == (form == "or") else self.truth(self.value_of(e.operands[1], g))
        if e.name:
            return self.asked(form, e.name)
        return self.operated(form, tuple([self.value_of(x, g) for x in e.operands]))

    def operated(self, form: str, values: Tuple[Value, ...]) -> Value:
        """What an operator makes of the values of its operands."""
        if form in INTEGERS:
            return self.counted(form, values[0], values[1])
        if form in ("==", "!="):
            return same(values[0], values[1]) == (form == "==")
        if form == "not":
            return not self.truth(values[0])
        if form in OUTCOMES:
            return self.of_outcome(form, values[0])
        return self.listed(form, values)

    @staticmethod
    def counted(form: str, a: Value, b: Value) -> Value:
        """Operators on integers."""
        if type(a) is not int or type(b) is not int:
            raise Raised(TYPE_ERROR)
        if form in ("<", "<="):
            return a < b or (form == "<=" and a == b)
        return arithmetic(form, a, b)

    @staticmethod
    def listed(form: str, values: Tuple[Value, ...]) -> Value:
        """list, push, at, len."""
        if form == "list":
            return scalars(values)
        first = values[0]
        if not isinstance(first, tuple):
            raise Raised(TYPE_ERROR)
        if form == "len":
            return len(first)
        if form == "push":
            more = scalars(values[1:])
            if len(first) == MOST_ELEMENTS:
                raise Raised(VALUE_ERROR)
            return first + more
        place = values[1]
        if type(place) is not int:
            raise Raised(TYPE_ERROR)
        if not 0 <= place < len(first):
            raise Raised(VALUE_ERROR)
        return first[place]

    def of_outcome(self, form: str, whom: Value) -> Value:
        """ready, successful, value, exception."""
        if not isinstance(whom, (G, J)):
            raise Raised(TYPE_ERROR)
        outcome = self.outcome_of(whom)
        if form == "ready":
            return outcome is not None
        if form == "successful":
            return outcome is not None and outcome.kind == "value"
        wanted = "value" if form == "value" else "fault"
        return outcome.what if outcome is not None and outcome.kind == wanted else None

    def asked(self, form: str, name: str) -> Value:
        """isset, counter, qsize, unfinished, members."""
        thing = self.objects[name]
        if form == "isset":
            return thing.is_set if thing.kind == "event" else thing.outcome is not None
        if form == "counter":
            return thing.units
        if form == "qsize":
            return len(thing.items)
        return thing.tasks if form == "unfinished" else len(thing.members)

    @staticmethod
    def truth(value: Value) -> bool:
        """The value, which has to be a truth value."""
        if not isinstance(value, bool):
            raise Raised(TYPE_ERROR)
        return value


def scalars(values: Tuple[Value, ...]) -> Tuple[Scalar, ...]:
    """The values as elements of a list: none of them is a list."""
    found = []
    for value in values:
        if isinstance(value, tuple):
            raise Raised(TYPE_ERROR)
        found.append(value)
    return tuple(found)
