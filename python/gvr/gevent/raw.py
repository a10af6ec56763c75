"""The module `greenlet`: raw greenlets, which switch to each other by hand. Their bodies never wait.

A switch sends one value. One argument goes as it is; several, or none, or names go as the Arguments that they are.
"""
from typing import Any, Callable, Dict, Optional, Tuple

import greenlet as real

from ..live.errors import GreenletExit as GreenletExit, InvalidSwitchError as error
from ..live.session import Session
from ..live.tasks import Handle, Task
from ._base import Unsupported, name_of, session

__all__ = ['greenlet', 'getcurrent', 'error', 'GreenletExit', 'settrace', 'gettrace']
__version__ = '2.0.2'


class Arguments:
    """What a switch sends where it isn't one value."""

    def __init__(self, args: Tuple[Any, ...], kwargs: Dict[str, Any]) -> None:
        self.args, self.kwargs = args, kwargs

    def __repr__(self) -> str:
        return 'arguments %r' % (self.received(),)

    def received(self) -> Any:
        """What a switch that receives them gives."""
        if not self.kwargs:
            return self.args
        return (self.args, self.kwargs) if self.args else self.kwargs


def received(value: Any) -> Any:
    return value.received() if isinstance(value, Arguments) else value


class greenlet(Handle):
    """A raw greenlet; the machine makes it where it is made. gevent's Greenlet is one too, as far as a raw one of its
    own may switch to it."""
    error, GreenletExit = error, GreenletExit
    run: Any

    def __init__(self, run: Optional[Callable[..., Any]] = None, parent: Optional['greenlet'] = None) -> None:
        if run is not None:
            self.run = run
        current, here = session(), getcurrent()
        above, uses = here if parent is None else parent, ()    # type: greenlet, Tuple[int, ...]
        text = 'raw {}'
        if parent is not None and parent is not here:
            text, uses = 'raw {} under g%d' % _number(parent), (_number(parent),)
        self._parent: Any = above
        current.make(text, self._life, name_of(run) if run is not None else type(self).__name__, self, uses)

    def _life(self) -> Any:
        begins = session().task().begins_with
        if isinstance(begins, Arguments):
            return self.run(*begins.args, **begins.kwargs)
        return self.run(begins)

    @property
    def _task(self) -> Optional[Task]:
        current = Session.current
        return current.tasks.get(self.number) if current is not None and self.number is not None else None

    def switch(self, *args: Any, **kwargs: Any) -> Any:
        """Sends, and waits for what is sent back."""
        current, number = session(), _number(self)
        value = args[0] if len(args) == 1 and not kwargs else Arguments(args, kwargs)
        text, uses = current.words.encode(value)
        return received(current.say('switch g%d %s' % (number, text), True, (number, *uses)))

    def throw(self, *args: Any) -> Any:
        """Raises an exception there: its class, and what it is made of, or the exception."""
        current, number = session(), _number(self)
        exception = exception_of(*args)
        behind = '' if isinstance(exception, GreenletExit) else ' with ' + current.words.fault(exception)
        return received(current.say('throw g%d%s' % (number, behind), True, (number,)))

    @property
    def parent(self) -> Any:
        return self._parent

    @parent.setter
    def parent(self, parent: 'greenlet') -> None:
        number, above = _number(self), _number(parent)
        session().say('setparent g%d g%d' % (number, above), uses=(number, above))
        self._parent = parent

    @property
    def dead(self) -> bool:
        task = self._task
        return task is not None and task.outcome is not None

    def __bool__(self) -> bool:
        task = self._task
        return task is not None and task.real is not None and task.outcome is None

    def __repr__(self) -> str:
        return '<greenlet g%s>' % self.number

    @staticmethod
    def getcurrent() -> Any:
        return getcurrent()


def _number(target: greenlet) -> int:
    if target.number is None:
        raise Unsupported('a switch to a greenlet that was not started')
    return target.number


def exception_of(kind: Any = GreenletExit, value: Any = None, trace: Any = None) -> BaseException:
    """The exception that the arguments of a throw are."""
    if isinstance(kind, BaseException):
        return kind
    if isinstance(value, kind):
        made: BaseException = value
    elif value is None:
        made = kind()
    else:
        made = kind(*value) if isinstance(value, tuple) else kind(value)
    return made


def getcurrent() -> Any:
    """The greenlet that runs."""
    current = Session.current
    task = current.by_real.get(real.getcurrent()) if current is not None else None
    return task.handle if task is not None else real.getcurrent()


def settrace(*_: Any) -> None:
    raise Unsupported('greenlet.settrace: the trace of the run has each switch')


def gettrace() -> None:
    return None
