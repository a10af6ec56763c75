"""Under patch_all: the names of the modules threading and queue whose waits are the machine's.

Code of Python's own library goes on with the real ones: it may run outside of a run, and has its own order.
"""
import os
import queue
import sys
import threading
from typing import Any, Callable, Dict, Optional, Tuple

from ..live.session import Session
from . import event, local as local_module, lock, queue as queues
from ._base import Deadline, Unsupported, name_of
from .greenlet import Greenlet, getcurrent

LIBRARY = os.path.dirname(os.__file__) + os.sep
REAL: Dict[Tuple[Any, str], Any] = {}


class Lock(lock.Semaphore):
    """Any greenlet may release it; more often than it was taken is a RuntimeError, as in Python."""

    def __init__(self) -> None:
        super().__init__(1)

    def acquire(self, blocking: bool = True, timeout: Optional[float] = -1) -> bool:
        return super().acquire(blocking, None if timeout is None or timeout < 0 else timeout)

    def release(self) -> None:
        if self.counter > 0:
            raise RuntimeError('release unlocked lock')
        super().release()

    def __enter__(self) -> bool:
        return self.acquire()


class RLock(lock.RLock):
    def acquire(self, blocking: bool = True, timeout: Optional[float] = -1) -> bool:
        return super().acquire(blocking, None if timeout is None or timeout < 0 else timeout)


class Semaphore(lock.Semaphore):
    def release(self, n: int = 1) -> None:
        for _ in range(n):
            super().release()

    def __enter__(self) -> bool:
        return self.acquire()


class BoundedSemaphore(lock.BoundedSemaphore):
    def release(self, n: int = 1) -> None:
        for _ in range(n):
            super().release()

    def __enter__(self) -> bool:
        return self.acquire()


class Condition:
    """A lock, and a semaphore of as many units as were notified."""

    def __init__(self, lock: Any = None) -> None:
        self._lock = RLock() if lock is None else lock
        self._told = Semaphore(0)
        self._waiting = 0
        self.acquire, self.release = self._lock.acquire, self._lock.release

    def __enter__(self) -> Any:
        return self._lock.__enter__()

    def __exit__(self, *_: Any) -> None:
        self._lock.__exit__(*_)

    def wait(self, timeout: Optional[float] = None) -> bool:
        self._waiting += 1
        self._lock.release()
        told = False
        try:
            told = self._told.acquire(timeout=timeout)
        finally:
            self._waiting -= 1
            if not told and self._told.counter > self._waiting:
                self._told.acquire(blocking=False)       # a notification that came for this one
            self._lock.acquire()
        return told

    def wait_for(self, predicate: Callable[[], Any], timeout: Optional[float] = None) -> Any:
        deadline, result = Deadline(timeout), predicate()
        while not result and not deadline.passed():
            self.wait(deadline.left())
            result = predicate()
        return result

    def notify(self, n: int = 1) -> None:
        for _ in range(min(n, self._waiting - self._told.counter)):
            self._told.release()

    def notify_all(self) -> None:
        self.notify(self._waiting)

    notifyAll = notify_all


class Thread(Greenlet):
    """A thread is a greenlet."""

    def __init__(self, group: None = None, target: Optional[Callable[..., Any]] = None, name: Optional[str] = None,
                 args: Any = (), kwargs: Any = None, *, daemon: Optional[bool] = None) -> None:
        super().__init__(self._call, target, args, kwargs or {})
        self._target, self.daemon = target, bool(daemon)
        if name is not None:
            self.name = name

    def _make(self, statement: str) -> None:
        from ._base import session
        hint = name_of(self._target) if self._target is not None else type(self).__name__
        session().make(statement, self._life, hint, self)

    def _call(self, target: Optional[Callable[..., Any]], args: Any, kwargs: Any) -> None:
        if type(self).run is not Thread.run:
            self.run()
        elif target is not None:
            target(*args, **kwargs)

    def run(self) -> None:
        if self._target is not None:
            self._target(*self.args[1], **self.args[2])

    def is_alive(self) -> bool:
        return self._started and not self.ready()

    @property
    def ident(self) -> Optional[int]:
        return self.number


def current_thread() -> Any:
    """The greenlet that runs, in a run."""
    return getcurrent() if Session.current is not None else REAL[threading, 'current_thread']()


class Fifo(queues.JoinableQueue):
    """queue.Queue."""

    def __init__(self, maxsize: int = 0) -> None:
        super().__init__(maxsize)


class _NoTasks:
    def task_done(self) -> None:
        raise Unsupported('task_done of a queue that is no Queue: the machine counts tasks of those alone')

    def join(self) -> None:
        raise Unsupported('join of a queue that is no Queue: the machine counts tasks of those alone')


class Lifo(_NoTasks, queues.LifoQueue):
    def __init__(self, maxsize: int = 0) -> None:
        super().__init__(maxsize)


class Priority(_NoTasks, queues.PriorityQueue):
    def __init__(self, maxsize: int = 0) -> None:
        super().__init__(maxsize)


class Simple(queues.SimpleQueue):
    def __init__(self) -> None:
        super().__init__()


OURS: Dict[Tuple[Any, str], Any] = {
    (threading, 'Lock'): Lock, (threading, 'RLock'): RLock, (threading, 'Event'): event.Event,
    (threading, 'Semaphore'): Semaphore, (threading, 'BoundedSemaphore'): BoundedSemaphore,
    (threading, 'Condition'): Condition, (threading, 'Thread'): Thread, (threading, 'local'): local_module.local,
    (threading, 'current_thread'): current_thread, (queue, 'Queue'): Fifo, (queue, 'LifoQueue'): Lifo,
    (queue, 'PriorityQueue'): Priority, (queue, 'SimpleQueue'): Simple}
WHOLE = ('Thread', 'local', 'current_thread')    # these are the façade's for the library too, while a run lasts


def _chosen(real: Any, ours: Any) -> Any:
    """A class that makes the façade's for the program, and the real one for the library. The program may derive from
    it."""
    def new(cls: Any, *args: Any, **kwargs: Any) -> Any:
        caller = sys._getframe(1).f_code.co_filename
        library = caller.startswith(LIBRARY) and 'packages' not in caller[len(LIBRARY):]
        if cls is chosen and (library or Session.current is None):
            return real(*args, **kwargs)
        return object.__new__(cls)
    chosen = type(ours.__name__, (ours,), {'__new__': new})
    return chosen


def install() -> None:
    """The program's threads and queues are the machine's from now on."""
    if REAL:
        return
    for (module, name), ours in OURS.items():
        real = REAL[module, name] = getattr(module, name)
        setattr(module, name, ours if name in WHOLE else _chosen(real, ours))


def restore() -> None:
    for (module, name), real in REAL.items():
        setattr(module, name, real)
    REAL.clear()
