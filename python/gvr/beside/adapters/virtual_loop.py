"""A gevent event loop in pure Python over a virtual clock.

gevent's hub, greenlets, events, locks, queues and pools run over it unchanged: `gevent.config.loop = VirtualLoop`
(or GEVENT_LOOP=gvr.beside.adapters.virtual_loop.VirtualLoop) before the hub is made. The semantics are those of libev as gevent's
`corecext` uses it (gevent/_ffi/loop.py says the same in Python):

  an iteration   1 prepare: the callbacks of run_callback, also those that are added meanwhile, until none is left; after
                   each 50 the clock is looked at, and past the switch interval the rest waits for the next iteration
                 2 the wait: none if callbacks are left, else until the least deadline (or until a job is due)
                 3 all timers that are due are collected, by deadline and then by start, and stopped
                 4 they are called, those of higher priority first (a Timeout has -1, a sleep 0); async watchers
                   after the timers of their priority
  the end        no timer, no async watcher and no callback is left: run() returns, and the hub throws LoopExit

The clock moves in step 2 alone, or by `COST` for each callback: 0 is the model's own world, in which computing takes no
time; otherwise a wait is also rounded up to the next true millisecond, as libev does. `now()` is libev's: the moment
at the last look, and not the clock.

Jobs of native threads: `gate(takes, latch, opened)`: the job's thread waits on the latch; the loop opens it when the
moment has come, and waits until the thread has sent its async. So true threads do the jobs, and the run is still a
function of the scenario.
"""
import heapq
import itertools
import os
import sys
import threading
from collections import deque
from typing import Any, Callable, Deque, Iterator, List, Optional, Set, Tuple

COST = float(os.environ.get('VIRTUAL_LOOP_COST', '0'))     # what one callback costs, in seconds of the virtual clock
PRIORITIES = True            # False: timers have none, as under libuv


class Callback:
    """The class of gevent/_ffi/callback.py."""
    __slots__ = ('callback', 'args')

    def __init__(self, callback: Callable[..., object], args: Tuple[Any, ...]) -> None:
        self.callback: Optional[Callable[..., object]] = callback
        self.args: Optional[Tuple[Any, ...]] = args or ()

    def stop(self) -> None:
        self.callback = self.args = None

    close = stop

    def __bool__(self) -> bool:                       # pending, or running just now
        return self.args is not None

    @property
    def pending(self) -> bool:
        return self.callback is not None


class Watcher:
    """What timers and async watchers share."""

    def __init__(self, loop: 'VirtualLoop', ref: bool = True, priority: Optional[int] = None) -> None:
        self.loop, self.ref, self.priority = loop, ref, priority or 0
        self.active = self.pending = False
        self.callback: Optional[Callable[..., object]] = None
        self.args: Tuple[Any, ...] = ()

    def start(self, callback: Callable[..., object], *args: Any, **named: Any) -> None:
        self.callback, self.args = callback, args
        self.active = True
        if self.ref:
            self.loop.active.add(self)

    def stop(self) -> None:
        self.active = self.pending = False
        self.callback, self.args = None, ()
        self.loop.active.discard(self)

    close = stop

    def __enter__(self) -> 'Watcher':
        return self

    def __exit__(self, *exc: object) -> None:
        self.close()

    def call(self) -> None:
        if not self.pending or self.callback is None:                  # stopped after it was collected
            return
        self.pending = False
        callback, args = self.callback, self.args
        try:
            callback(*args)
        except BaseException:                 # as libev's callback does: nothing escapes into the loop
            self.loop.handle_error(self, *sys.exc_info())
        if not self.active and not self.pending and self.callback is callback:
            self.callback, self.args = None, ()


class Timer(Watcher):
    """A timer that goes off once."""

    def __init__(self, loop: 'VirtualLoop', after: float, repeat: float, ref: bool, priority: Optional[int]) -> None:
        super().__init__(loop, ref, priority if PRIORITIES else 0)
        if repeat:
            raise NotImplementedError('repeating timers')
        self.after, self.at, self.number = after, 0.0, 0

    def start(self, callback: Callable[..., object], *args: Any, **named: Any) -> None:
        update = named.get('update')
        if self.loop.starting_timer_may_update_loop_time if update is None else update:
            self.loop.update_now()
        super().start(callback, *args)
        self.at = self.loop.now() + self.after
        self.number = next(self.loop.counter)
        heapq.heappush(self.loop.timers, (self.at, self.number, self))

    def due(self, at: float, number: int) -> bool:
        return self.active and self.at == at and self.number == number


class Async(Watcher):
    """What a thread wakes the loop by."""

    def send(self) -> None:
        with self.loop.changed:
            self.loop.sent.append(self)
            self.loop.changed.notify()

    def send_ignoring_arg(self, _: object) -> None:
        self.send()


class VirtualLoop:
    """The loop, as gevent's hub wants one."""

    CALLBACK_CHECK_COUNT = 50
    MAXPRI, MINPRI = 2, -2
    approx_timer_resolution = 0.00001
    error_handler: Any = None
    default = True
    starting_timer_may_update_loop_time = False

    def __init__(self, flags: Any = None, default: Any = None) -> None:
        self.clock = self._now = 0.0
        self.callbacks: Deque[Callback] = deque()
        self.timers: List[Tuple[float, int, Timer]] = []
        self.counter: Iterator[int] = itertools.count()
        self.active: Set[Watcher] = set()
        self.changed = threading.Condition()
        self.sent: Deque[Watcher] = deque()
        self.gates: List[Tuple[float, int, threading.Event, Callable[[], None]]] = []
        self.iterations = self.callbacks_run = 0
        self.broken = False

    # ------------------------------------------------------------ what the hub asks of a loop

    def now(self) -> float:
        return self._now

    def update_now(self) -> None:
        self._now = self.clock

    def run_callback(self, func: Callable[..., object], *args: Any) -> Callback:
        cb = Callback(func, args)
        self.callbacks.append(cb)
        return cb

    def run_callback_threadsafe(self, func: Callable[..., object], *args: Any) -> Callback:
        with self.changed:
            cb = self.run_callback(func, *args)
            self.changed.notify()
        return cb

    def timer(self, after: float, repeat: float = 0.0, ref: bool = True, priority: Optional[int] = None) -> Timer:
        return Timer(self, after, repeat, ref, priority)

    def async_(self, ref: bool = True, priority: Optional[int] = None) -> Async:
        return Async(self, ref, priority)

    def fork(self, ref: bool = True, priority: Optional[int] = None) -> Watcher:
        return Watcher(self, False, priority)

    def handle_error(self, context: object, type: Any, value: Any, tb: Any) -> None:
        handler = self.error_handler
        if handler is not None:
            getattr(handler, 'handle_error', handler)(context, type, value, tb)
        else:
            sys.__excepthook__(type, value, tb)

    def break_(self, how: object = None) -> None:
        self.broken = True

    def destroy(self) -> bool:
        return True

    def _format(self) -> str:
        return 'virtual'

    # ------------------------------------------------------------ an iteration

    def run(self, nowait: bool = False, once: bool = False) -> None:
        self.broken = False
        while True:
            self.iterations += 1
            self.run_callbacks()
            self.wait(block=not (nowait or self.callbacks))
            self.deliver()
            if self.broken or nowait or once or not (self.active or self.callbacks):
                return

    def run_callbacks(self) -> None:
        self.starting_timer_may_update_loop_time = True
        try:
            count, expiration = self.CALLBACK_CHECK_COUNT, self._now + sys.getswitchinterval()
            while self.callbacks:
                cb = self.callbacks.popleft()
                count -= 1
                callback, args, cb.callback = cb.callback, cb.args, None
                if callback is None or args is None:
                    continue
                self.clock += COST
                self.callbacks_run += 1
                try:
                    callback(*args)
                except BaseException:
                    self.handle_error(cb, *sys.exc_info())
                finally:
                    cb.args = None
                if count == 0 and self.callbacks:
                    count = self.CALLBACK_CHECK_COUNT
                    self.update_now()
                    if self._now >= expiration:
                        return
            self.update_now()
        finally:
            self.starting_timer_may_update_loop_time = False

    def least_timer(self) -> Optional[float]:
        while self.timers:
            at, number, t = self.timers[0]
            if t.due(at, number):
                return at
            heapq.heappop(self.timers)
        return None

    def wait(self, block: bool) -> None:
        timer = self.least_timer()
        gate = self.gates[0][0] if self.gates else None
        if block and not self.sent and self.active:
            moments = [m for m in (timer, gate) if m is not None]
            if moments:
                if COST:                      # epoll_wait takes whole milliseconds: libev rounds up
                    wait = max(0.0, min(moments) - self.clock)
                    self.clock += int(wait * 1000 + 0.9999) / 1000
                else:
                    self.clock = max(self.clock, min(moments))
            else:
                self.heard()
        self.update_now()
        if gate is not None and gate <= self._now:
            _, _, latch, opened = heapq.heappop(self.gates)
            latch.set()
            self.heard()
            opened()

    def heard(self) -> None:
        """Wait, in true time, for the async of a thread."""
        with self.changed:
            if not self.changed.wait_for(lambda: self.sent or self.callbacks, timeout=10):
                raise SystemError('a thread did not answer')

    def deliver(self) -> None:
        pending: List[Watcher] = []
        while self.timers and self.timers[0][0] <= self._now:
            at, number, t = heapq.heappop(self.timers)
            if t.due(at, number):
                t.active, t.pending = False, True
                self.active.discard(t)
                pending.append(t)
        while self.sent:
            w = self.sent.popleft()
            if w.active:
                w.pending = True
                pending.append(w)
        for w in sorted(pending, key=lambda w: -w.priority):
            w.call()

    # ------------------------------------------------------------ jobs

    def gate(self, takes: float, latch: threading.Event, opened: Callable[[], None]) -> None:
        """Open the latch that a job's thread waits on when `takes` has passed; then call opened()."""
        heapq.heappush(self.gates, (self._now + takes, next(self.counter), latch, opened))
