"""In place of examples/gevent/gcase.py, for the façade: greenlets have the machine's numbers, and times are exact."""
import sys
from typing import Any, Callable, Optional

import gevent                                    # noqa: F401
import greenlet
from gevent import (Greenlet, GreenletExit, Timeout, getcurrent, joinall, killall, sleep, spawn,      # noqa: F401
                    spawn_later)
from gevent.event import AsyncResult, Event      # noqa: F401
from gevent.exceptions import LoopExit           # noqa: F401
from gevent.lock import BoundedSemaphore, RLock, Semaphore      # noqa: F401
from gevent.pool import Group, Pool              # noqa: F401
from gevent.queue import (Channel, Empty, Full, JoinableQueue, LifoQueue, PriorityQueue, Queue)      # noqa: F401
from gevent.threadpool import ThreadPool         # noqa: F401

MS = 0.001
MAIN = getcurrent()


def number(g: Any) -> int:
    """The machine makes a greenlet at its first mention, as the scenarios do."""
    return int(g._made() if isinstance(g, Greenlet) else g.number)


def name(g: Any) -> str:
    return 'g%s' % g.number


def text(v: Any) -> str:
    if v is None:
        return 'none'
    if v is True or v is False:
        return str(v).lower()
    if isinstance(v, list):
        return '[' + ', '.join(text(x) for x in v) + ']'
    if isinstance(v, greenlet.greenlet):
        return name(v)
    if isinstance(v, BaseException):
        if isinstance(v, Timeout):
            return 'Timeout(%s)' % v.number      # type: ignore[attr-defined]
        return 'Error(%s)' % v.args[0] if isinstance(v, Err) else type(v).__name__
    return str(v)


class Err(Exception):
    """gvr's Error N."""


def T(ms: int, silent: bool = False) -> Any:
    return Timeout(ms * MS, False if silent else None)


def P(v: Any) -> None:
    sys.stdout.write('print %s %s\n' % (name(getcurrent()), text(v)))


def S(fn: Callable[..., Any], *args: Any) -> Any:
    return spawn(fn, *args)


def SL(ms: int, fn: Callable[..., Any], *args: Any) -> Any:
    return spawn_later(ms * MS, fn, *args)


def GS(crew: Any, fn: Callable[..., Any], *args: Any) -> Any:
    return crew.spawn(fn, *args)


def Z(ms: int) -> None:
    sleep(ms * MS)


def W(ms: Optional[int]) -> Optional[float]:
    return None if ms is None else ms * MS


def run(main: Callable[[], Any]) -> None:
    try:
        v = main()
        sys.stdout.write('stop value %s\n' % text(v))
    except GreenletExit:                         # a greenlet that ends by it has it as its value
        sys.stdout.write('stop value GreenletExit\n')
    except BaseException as e:
        sys.stdout.write('stop fault %s\n' % text(e))
