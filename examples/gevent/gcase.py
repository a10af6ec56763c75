"""What the gevent side of every case shares.

One millisecond of gvr is MS seconds. Greenlets are numbered as gvr numbers
them: main is g0, the others in order of making. P(v) writes the line that
gvr's trace writes for `print`. GCASE_TRACE=1 adds a line `> gN` for each
switch out of the hub, seen by greenlet.settrace.
"""
import os
import sys

import greenlet
import gevent
import gevent.hub
from gevent import GreenletExit, Timeout, getcurrent, joinall, killall, sleep, spawn, spawn_later
from gevent.event import AsyncResult, Event
from gevent.exceptions import LoopExit
from gevent.lock import BoundedSemaphore, RLock, Semaphore
from gevent.pool import Group, Pool
from gevent.queue import Channel, Empty, Full, JoinableQueue, LifoQueue, PriorityQueue, Queue
from gevent.threadpool import ThreadPool

MS = float(os.environ.get("GCASE_MS", "0.004"))
MAIN = getcurrent()
NUM = {id(MAIN): 0}
KEEP = [MAIN]
if not os.environ.get("GCASE_LOUD"):
    gevent.get_hub().exception_stream = None  # no tracebacks on stderr


def number(g):
    """The number of a greenlet, drawn at its first mention."""
    if id(g) not in NUM:
        NUM[id(g)] = len(KEEP)
        KEEP.append(g)
    return NUM[id(g)]


def name(g):
    if isinstance(g, gevent.hub.Hub):
        return "hub"
    return "g%d" % NUM[id(g)] if id(g) in NUM else "link"


def text(v):
    if v is None:
        return "none"
    if v is True or v is False:
        return str(v).lower()
    if isinstance(v, list):
        return "[" + ", ".join(text(x) for x in v) + "]"
    if isinstance(v, greenlet.greenlet):
        return name(v)
    if isinstance(v, BaseException):
        if isinstance(v, Timeout):
            return "Timeout(%s)" % timeout_number(v)
        return ("Error(%s)" % v.args[0]) if isinstance(v, Err) else type(v).__name__
    return str(v)


class Err(Exception):
    """gvr's Error N."""


TIMEOUTS = {}


KEEP_T = []


def timeout_number(t):
    """The number of a Timeout, drawn at its first mention: that of one that gevent made, where it is told."""
    if id(t) not in TIMEOUTS:
        TIMEOUTS[id(t)] = len(TIMEOUTS) + 1
        KEEP_T.append(t)
    return TIMEOUTS[id(t)]


def T(ms, silent=False):
    """A gevent Timeout, numbered in order of making; use it as `with T(5):`."""
    t = Timeout(None if ms is None else ms * MS, False if silent else None)
    timeout_number(t)
    return t


def P(v):
    print("print", name(getcurrent()), text(v), flush=True)


def S(fn, *args):
    g = spawn(fn, *args)
    number(g)
    return g


def SL(ms, fn, *args):
    g = spawn_later(ms * MS, fn, *args)
    number(g)
    return g


def GS(crew, fn, *args):
    g = crew.spawn(fn, *args)
    number(g)
    return g


def Z(ms):
    sleep(ms * MS)


def W(ms):
    """A timeout of so many milliseconds of gvr, none as None."""
    return None if ms is None else ms * MS


def _trace(event, args):
    origin, target = args
    if isinstance(origin, gevent.hub.Hub):
        sys.stdout.write("  %s %s\n" % (">" if event == "switch" else "! throw", name(target)))
        sys.stdout.flush()


def run(main):
    """Run main in the main greenlet and tell how it ended, as `stop` does."""
    if os.environ.get("GCASE_TRACE"):
        greenlet.settrace(_trace)
    try:
        v = main()
        print("stop value", text(v), flush=True)
    except BaseException as e:  # GreenletExit and Timeout too
        print("stop fault", text(e), flush=True)
    greenlet.settrace(None)
    sys.stdout.flush()
    os._exit(0)
