"""Scenarios as trio tasks, for the subset that maps.

    python3 -m gvr.beside.adapters.trio < trees > events

spawn is start_soon of one nursery, kill is the cancel of a scope around the task, GreenletExit is Cancelled, a timeout
block is a scope with a deadline (as fail_after and move_on_after are), join and get wait for an Event of the task.
Operations are written plainly: in trio each of them lets others run first, also one that need not wait. What has no
counterpart is Unsupported: raise of GreenletExit or a Timeout, kill with a fault, new, start, spawnlater, links, results,
groups, pools, maps, jobs, channels, raw greenlets, peeks, queues that are not fifo, joinall of some.

trio's run loop is its own, over a clock that jumps to the next deadline when all tasks are asleep. Held still is what
varies from run to run: the loop takes a batch of tasks in its order, or the other way round, by the toss of a coin (here
always in its order); equal deadlines, and the tasks that wait for an Event, come in no order (here in that of making).
"""
import argparse
import functools
import math
from typing import Any, Awaitable, Callable, Dict, List, Optional, Tuple, Type

import trio
from trio._core import _run as run_loop

from .bodies import Names, Returned, Tree
from .protocol import PLAIN, G, Unsupported, Value, kind_of, value_text
from .tasks import MS, VOID, TaskRun, serve_runs

EXC: Dict[str, Type[BaseException]] = dict(PLAIN, GreenletExit=trio.Cancelled)
GRAIN = 2.0 ** -40               # between equal deadlines: trio's heap has no order of them, here it is that of making
SLACK = 2.0 ** -20               # the clock stands so far behind the moment: it reaches all of its deadlines at once


class NoCoin:
    """In place of the run loop's random numbers."""

    def random(self) -> float:
        """Always less than a half: the loop then turns each batch round, and takes it from its end, so in its order."""
        return 0.0


class NumberedTimeout(trio.TooSlowError):  # type: ignore[misc]
    """The TooSlowError of a block, or of a wait, with the number that the scenario knows it by."""

    def __init__(self, number: int) -> None:
        super().__init__()
        self.number = number


class Clock(trio.abc.Clock):  # type: ignore[misc]
    """A clock that jumps when all are asleep."""

    def __init__(self, hangs: Callable[[], None]) -> None:
        self.hangs, self.now, self.deadlines = hangs, 0.0, 0

    def start_clock(self) -> None:
        """Nothing: it stands still."""

    def current_time(self) -> float:
        """The moment, and a little more."""
        return self.now + SLACK

    def deadline_to_sleep_time(self, deadline: float) -> float:
        """The loop asks when nobody can go on: nothing has to be waited for."""
        if deadline == math.inf:
            self.hangs()
        else:
            self.now = max(self.now, round(deadline / MS) * MS)
        return 0.0

    def after(self, seconds: float) -> float:
        """The deadline so many seconds from now."""
        self.deadlines += 1
        return self.now + seconds + self.deadlines * GRAIN


class Waiters(Dict[Any, None]):
    """In place of an Event's set of tasks: they are woken in the order in which they came to wait."""

    def add(self, task: Any) -> None:
        """A task waits."""
        self[task] = None

    def remove(self, task: Any) -> None:
        """It does not any more."""
        del self[task]


def event() -> Any:
    """An Event of trio with that order."""
    made = trio.Event()
    made._tasks = Waiters()
    return made


class Steps(trio.abc.Instrument):  # type: ignore[misc]
    """Counts the steps of all tasks."""

    count = 0

    def before_task_step(self, task: object) -> None:
        """A task goes on."""
        self.count += 1


class Run(TaskRun):
    """One run."""

    exceptions = EXC
    late_class = trio.TooSlowError

    def __init__(self, tree: Tree, options: argparse.Namespace) -> None:
        super().__init__(tree, options)
        self.counted, self.clock = Steps(), Clock(self.hang)
        self.scopes: List[Any] = []                          # of each task: a cancel scope, and an Event of its end
        self.ends: List[Any] = []
        self.number_of: Dict[Any, int] = {}
        self.nursery: Any = None
        self.over: Optional[str] = None                      # the cause, once there is one
        self.objects = {o['name']: self.make(o) for o in tree['objects']}

    def make(self, o: Tree) -> Any:
        kind, n = o['kind'], o.get('n') or 0
        if kind == 'queue' and o['queue'] == 'fifo':
            return trio.open_memory_channel(n or math.inf)
        made: Any = {'event': event, 'sem': lambda: trio.Semaphore(n), 'rlock': trio.Lock,
                     'bsem': lambda: trio.Semaphore(n, max_value=n)}.get(kind)
        return made() if made else None

    # ------------------------------------------------------------ numbers, outcomes, queries

    def me(self) -> int:
        return self.number_of[trio.lowlevel.current_task()]

    def outcome(self, n: int) -> Optional[Tuple[str, Value]]:
        return self.outcomes.get(n)

    def query_object(self, form: str, name: str) -> Any:
        o = self.objects[name]
        if o is None or form not in ('isset', 'counter', 'qsize'):
            raise Unsupported(form)
        if form == 'isset':
            return o.is_set()
        return o.value if form == 'counter' else o[1].statistics().current_buffer_used

    def to_exc(self, f: Any) -> BaseException:
        if f.kind == 'GreenletExit':
            raise Unsupported('raise GreenletExit')                # a program cannot make a Cancelled
        return super().to_exc(f)

    def steps(self) -> int:
        return self.counted.count

    def is_over(self) -> bool:
        return self.over is not None

    # ------------------------------------------------------------ bodies

    def spawned(self, f: Tree, args: List[Value]) -> int:
        """Make a task of this function; its number."""
        n = len(self.scopes)
        self.scopes.append(trio.CancelScope())
        self.ends.append(event())
        self.nursery.start_soon(self.whole, n, f, args)
        return n

    async def whole(self, n: int, f: Tree, args: List[Value]) -> None:
        """Task n, within its scope."""
        if self.over is not None:
            return
        self.number_of[trio.lowlevel.current_task()] = n
        with self.scopes[n]:
            await self.body(n, f, args)
        self.ends[n].set()
        if n == 0:
            kind, v = self.outcomes.get(0, ('value', None))
            self.stop('%s %s' % (kind, value_text(v)))

    async def body(self, n: int, f: Tree, args: List[Value]) -> None:
        try:
            r = await self.block(f['body'], self.began(n, f, args))
        except VOID as e:
            if self.over is None:
                self.voided(e)
                self.stop(str(self.void))
        except BaseException as e:
            if self.over is None:
                self.failed(n, e)
            if isinstance(e, trio.Cancelled):
                raise
        else:
            if self.over is None:
                self.outcomes[n] = ('value', None if r is None else r[0])
                self.ended(n)

    def move(self) -> None:
        if self.over is not None:
            raise Unsupported('what is behind the end')
        super().move()

    def stop(self, cause: str) -> None:
        """The run is over; what is left is cancelled, and told no more."""
        if self.over is None:
            self.over = cause
            self.log('stop', out=cause)
            self.nursery.cancel_scope.cancel()

    def hang(self) -> None:
        self.stop('hang')

    async def root(self) -> None:
        async with trio.open_nursery() as self.nursery:
            self.spawned(self.fns['main'], [])

    def go(self) -> 'Run':
        run_loop._r = NoCoin()
        trio.run(self.root, clock=self.clock, instruments=[self.counted])
        return self

    async def timeout(self, st: Tree, env: Names) -> Returned:
        self.timeouts += 1
        n = self.timeouts
        with trio.CancelScope(deadline=self.clock.after(st['ms'] * MS) if 'ms' in st else math.inf) as scope:
            return await self.block(st['body'], env)
        if scope.cancelled_caught and not st.get('silent'):
            raise NumberedTimeout(n)
        return None

    # ------------------------------------------------------------ operands

    def number(self, v: Any) -> int:
        """The number of a task that is not this one."""
        if not isinstance(v, G):
            raise TypeError
        if v.g == self.me():
            raise Unsupported('a task and itself')
        return v.g

    def numbers(self, v: Any) -> List[int]:
        if kind_of(v) != 'list':
            raise TypeError
        return [self.number(x) for x in v]

    async def timed(self, st: Tree, wait: Callable[[], Awaitable[Any]], late: Callable[[], Any]) -> Any:
        """Await wait() for at most `within`; late() tells what it gives then."""
        limit = self.limit(st)
        if limit is None:
            return await wait()
        with trio.CancelScope(deadline=self.clock.after(limit)):
            return await wait()
        return late()

    async def all_end(self, numbers: List[int]) -> None:
        for n in numbers:
            await self.ends[n].wait()

    async def joined(self, st: Tree, numbers: List[int]) -> None:
        """Wait until they have all ended, or `within` is over."""
        if self.limit(st) != 'now':
            await self.timed(st, lambda: self.all_end(numbers), lambda: None)

    # ------------------------------------------------------------ tasks

    async def do_spawn(self, st: Tree, env: Names) -> Any:
        args = [self.ev(e, env) for e in st['args']]
        return G(self.spawned(self.fns[st['f']], args))

    async def do_sleep(self, st: Tree, env: Names) -> Any:
        if st['ms'] == 0:
            await trio.sleep(0)
        else:
            await trio.sleep_until(self.clock.after(st['ms'] * MS))

    async def do_join(self, st: Tree, env: Names) -> Any:
        await self.joined(st, [self.number(self.ev(st['e'], env))])

    async def do_get(self, st: Tree, env: Names) -> Any:
        n = self.number(self.ev(st['e'], env))
        if self.limit(st) is not None:
            self.timeouts += n not in self.outcomes
        number = self.timeouts
        await self.joined(st, [n])
        if n not in self.outcomes:
            raise NumberedTimeout(number)
        kind, x = self.outcomes[n]
        if kind == 'fault':
            raise self.to_exc(x)
        return x

    async def do_kill(self, st: Tree, env: Names) -> Any:
        v = self.ev(st['e'], env)
        if 'with' in st:
            raise Unsupported('kill with')
        if v == G(self.me()) and self.limit(st) == 'now':
            self.scopes[self.me()].cancel()
            return
        n = self.number(v)
        self.scopes[n].cancel()
        await self.joined(st, [n])

    async def do_joinall(self, st: Tree, env: Names) -> Any:
        v: Any = self.ev(st['e'], env)
        numbers = self.numbers(v)
        if st.get('count', len(numbers)) != len(numbers):
            raise Unsupported('joinall count')
        await self.joined(st, numbers)
        return tuple(x for x in v if x.g in self.outcomes)

    async def do_killall(self, st: Tree, env: Names) -> Any:
        numbers = self.numbers(self.ev(st['e'], env))
        if 'with' in st:
            raise Unsupported('killall with')
        for n in numbers:
            self.scopes[n].cancel()
        await self.joined(st, numbers)

    # ------------------------------------------------------------ events, semaphores, locks, queues

    async def do_wait(self, st: Tree, env: Names) -> Any:
        waited = self.obj(st)
        if self.limit(st) == 'now':
            return waited.is_set()

        async def wait() -> bool:
            await waited.wait()
            return True
        return await self.timed(st, wait, lambda: False)

    async def do_acquire(self, st: Tree, env: Names) -> Any:
        o = self.obj(st)
        if isinstance(o, trio.Lock) and o.statistics().owner is trio.lowlevel.current_task():
            raise Unsupported('a lock taken twice')
        if self.limit(st) == 'now':
            return self.taken_now(o)

        async def acquire() -> bool:
            await o.acquire()
            return True
        return await self.timed(st, acquire, lambda: False)

    def taken_now(self, o: Any) -> bool:
        try:
            o.acquire_nowait()
        except trio.WouldBlock:
            return False
        return True

    async def do_release(self, st: Tree, env: Names) -> Any:
        self.obj(st).release()

    async def do_qput(self, st: Tree, env: Names) -> Any:
        sender, v = self.obj(st)[0], self.ev(st['e'], env)
        if self.limit(st) != 'now':
            return await self.timed(st, functools.partial(sender.send, v), self.raises('Full'))
        try:
            sender.send_nowait(v)
        except trio.WouldBlock:
            raise EXC['Full'] from None

    async def do_qget(self, st: Tree, env: Names) -> Any:
        receiver = self.obj(st)[1]
        if self.limit(st) != 'now':
            return await self.timed(st, receiver.receive, self.raises('Empty'))
        try:
            return receiver.receive_nowait()
        except trio.WouldBlock:
            raise EXC['Empty'] from None


if __name__ == '__main__':
    serve_runs(Run)
