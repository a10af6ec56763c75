"""Scenarios as asyncio tasks, for the subset that maps.

    python3 -m gvr.beside.adapters.asyncio < trees > events

spawn is create_task, kill is cancel, GreenletExit is CancelledError, Timeout is TimeoutError of asyncio.timeout. What
has no counterpart is Unsupported: kill with a fault, new, start, spawnlater, links that call a function, groups,
pools, maps, jobs, channels, raw greenlets, peeks, a lock taken twice by its owner, a result put twice. The loop is
asyncio's own (SelectorEventLoop) over a virtual clock.
"""
import argparse
import asyncio
import functools
import selectors
from asyncio import CancelledError
from typing import Any, Awaitable, Callable, Dict, List, Optional, Tuple, Type

from .bodies import Names, Returned, Tree
from .protocol import PLAIN, Fault, G, Unsupported, Value, kind_of, value_text
from .tasks import MS, VOID, TaskRun, serve_runs

EXC: Dict[str, Type[BaseException]] = dict(PLAIN, GreenletExit=CancelledError, Empty=asyncio.QueueEmpty, Full=asyncio.QueueFull)
QUEUES = {'fifo': asyncio.Queue, 'join': asyncio.Queue, 'lifo': asyncio.LifoQueue, 'prio': asyncio.PriorityQueue}
TIMEOUT: Any = getattr(asyncio, 'timeout', None)          # since Python 3.11


class NumberedTimeout(TimeoutError):
    """The TimeoutError of a block, or of a wait, with the number that the scenario knows it by."""

    def __init__(self, number: int) -> None:
        super().__init__()
        self.number = number


class Clock(selectors.SelectSelector):
    """Waits by moving the loop's clock."""
    loop: 'VirtualLoop'

    def select(self, timeout: Optional[float] = None) -> List[Tuple[selectors.SelectorKey, int]]:
        if timeout is None:
            self.loop.hangs = True
            self.loop.stop()
        elif timeout > 0:
            self.loop.clock = round((self.loop.clock + timeout) / MS) * MS
        return super().select(0)


class VirtualLoop(asyncio.SelectorEventLoop):
    """asyncio's own loop over that clock."""

    def __init__(self) -> None:
        selector = Clock()
        selector.loop = self
        self.clock, self.hangs, self.iteration, self.timers = 0.0, False, 0, 0
        super().__init__(selector)
        self._clock_resolution = 2.0 ** -20

    def time(self) -> float:
        return self.clock

    def call_at(self, when: float, callback: Callable[..., object], *args: Any, context: Any = None) -> asyncio.TimerHandle:
        self.timers += 1                       # the heap keeps no order of equal deadlines; here they keep that of making
        return super().call_at(when + self.timers * 2.0 ** -40, callback, *args, context=context)

    def _run_once(self) -> None:
        self.iteration += 1
        super()._run_once()  # type: ignore[misc]


class Run(TaskRun):
    """One run."""

    exceptions = EXC

    def __init__(self, tree: Tree, options: argparse.Namespace) -> None:
        super().__init__(tree, options)
        self.loop = VirtualLoop()
        asyncio.set_event_loop(self.loop)
        self.loop.set_exception_handler(lambda loop, context: None)
        self.tasks: List['asyncio.Task[Any]'] = []
        self.number_of: Dict[int, int] = {}
        self.owner: Dict[int, Optional[int]] = {}
        self.objects = {o['name']: self.make(o) for o in tree['objects']}

    def make(self, o: Tree) -> Any:
        kind, n = o['kind'], o.get('n') or 0
        if kind == 'queue':
            return QUEUES[o['queue']](n)
        made: Any = {'event': asyncio.Event, 'sem': lambda: asyncio.Semaphore(n), 'bsem': lambda: asyncio.BoundedSemaphore(n),
                'result': self.loop.create_future, 'rlock': asyncio.Lock}.get(kind)
        return made() if made else None

    # ------------------------------------------------------------ numbers, outcomes, queries

    def me(self) -> int:
        return self.number_of[id(asyncio.current_task())]

    def number(self, task: 'asyncio.Task[Any]') -> int:
        self.number_of[id(task)] = len(self.tasks)
        self.tasks.append(task)
        return len(self.tasks) - 1

    def outcome(self, n: int) -> Optional[Tuple[str, Value]]:
        t = self.tasks[n]
        if n not in self.outcomes and t.done():
            return ('value', Fault('GreenletExit')) if t.cancelled() else ('fault', self.to_fault(t.exception()))
        return self.outcomes.get(n) if t.done() else None

    def query_object(self, form: str, name: str) -> Any:
        o = self.objects[name]
        if o is None or form == 'members':
            raise Unsupported(form)
        if form == 'isset':
            return o.is_set() if isinstance(o, asyncio.Event) else o.done()
        if form == 'qsize':
            return o.qsize()
        return o._value if form == 'counter' else o._unfinished_tasks

    def steps(self) -> int:
        return self.loop.iteration

    def is_over(self) -> bool:
        return self.void is not None or self.loop.hangs

    # ------------------------------------------------------------ bodies

    async def body(self, f: Tree, args: List[Value]) -> Value:
        n = self.me()
        try:
            r = await self.block(f['body'], self.began(n, f, args))
            v = None if r is None else r[0]
        except VOID as e:
            self.voided(e)
            self.loop.stop()
            return None
        except BaseException as e:
            self.failed(n, e)
            raise
        if getattr(self.tasks[n], '_must_cancel'):               # killed, and not thrown into before its end
            self.failed(n, CancelledError())
        else:
            self.outcomes[n] = ('value', v)
            self.ended(n)
        return v

    def go(self) -> 'Run':
        main = self.loop.create_task(self.body(self.fns['main'], []))
        self.number(main)
        try:
            self.loop.run_until_complete(main)
            cause = 'value ' + value_text(self.outcomes[0][1]) if 0 in self.outcomes else None
        except BaseException as e:
            cause = None if self.loop.hangs or self.void else 'fault ' + value_text(self.to_fault(e))
        for n, t in enumerate(self.tasks):
            if n not in self.begun and t.done():
                kind, v = self.outcome(n) or ('value', None)
                self.log('killed', g=n, out='%s %s' % (kind, value_text(v)))
        self.log('stop', out=self.void or ('hang' if self.loop.hangs and cause is None else cause))
        return self

    async def timeout(self, st: Tree, env: Names) -> Returned:
        self.timeouts += 1
        n = self.timeouts
        scope = TIMEOUT(st['ms'] * MS if 'ms' in st else None)
        try:
            async with scope:
                return await self.block(st['body'], env)
        except TimeoutError as e:
            if scope.expired() and not isinstance(e, NumberedTimeout):
                if st.get('silent'):
                    return None
                raise NumberedTimeout(n) from None
            raise

    # ------------------------------------------------------------ operands

    def task(self, v: Any) -> 'asyncio.Task[Any]':
        if not isinstance(v, G):
            raise TypeError
        return self.tasks[v.g]

    async def timed(self, st: Tree, make: Callable[[], Awaitable[Any]], late: Callable[[], Any]) -> Any:
        """Await make() for at most `within`; late() tells what it gives then."""
        limit = self.limit(st)
        if limit is None:
            return await make()
        try:
            async with TIMEOUT(limit) as scope:
                return await make()
        except TimeoutError:
            if not scope.expired():
                raise
        return late()

    def timeout_now(self) -> 'NumberedTimeout':
        self.timeouts += 1
        return NumberedTimeout(self.timeouts)

    # ------------------------------------------------------------ tasks

    async def do_spawn(self, st: Tree, env: Names) -> Any:
        args = [self.ev(e, env) for e in st['args']]
        return G(self.number(self.loop.create_task(self.body(self.fns[st['f']], args))))

    async def do_sleep(self, st: Tree, env: Names) -> Any:
        await asyncio.sleep(st['ms'] * MS)

    async def joined(self, tasks: List[Any], st: Tree, **how: Any) -> None:
        if any(not t.done() for t in tasks):
            limit = self.limit(st)
            await asyncio.wait(tasks, timeout=None if limit == 'now' else limit, **how)

    async def do_join(self, st: Tree, env: Names) -> Any:
        t = self.task(self.ev(st['e'], env))
        if t is asyncio.current_task():
            raise Unsupported('join of self')
        await self.joined([t], st)

    async def do_get(self, st: Tree, env: Names) -> Any:
        v = self.ev(st['e'], env)
        t = self.task(v)
        if t is asyncio.current_task():
            raise Unsupported('get of self')
        if not t.done():
            if self.limit(st) == 'now':
                raise self.timeout_now()
            late = self.timeout_now() if self.limit(st) is not None else None
            await self.joined([t], st)
            if not t.done():
                assert late is not None
                raise late
        kind, x = self.outcome(v.g) or ('value', None)
        if kind == 'fault':
            raise self.to_exc(x)
        return x

    async def do_kill(self, st: Tree, env: Names) -> Any:
        t = self.task(self.ev(st['e'], env))
        if 'with' in st:
            raise Unsupported('kill with')
        t.cancel()
        if self.limit(st) != 'now':
            if t is asyncio.current_task():
                raise Unsupported('kill of self that waits')
            await self.joined([t], st)

    def list_of(self, st: Tree, env: Names) -> Tuple[Any, List[Any]]:
        v = self.ev(st['e'], env)
        if kind_of(v) != 'list':
            raise TypeError
        ts = [self.task(x) for x in v]
        if asyncio.current_task() in ts:
            raise Unsupported('self in a list')
        return v, ts

    async def do_joinall(self, st: Tree, env: Names) -> Any:
        v, ts = self.list_of(st, env)
        if 'count' in st and st['count'] not in (1, len(ts)):
            raise Unsupported('joinall count')
        if ts and st.get('count') != 0:
            first = st.get('count') == 1 and len(ts) > 1
            if not (first and any(t.done() for t in ts)):
                await self.joined(ts, st, return_when=asyncio.FIRST_COMPLETED if first else asyncio.ALL_COMPLETED)
        return tuple(x for x in v if self.tasks[x.g].done())

    async def do_killall(self, st: Tree, env: Names) -> Any:
        v, ts = self.list_of(st, env)
        if 'with' in st:
            raise Unsupported('killall with')
        for t in ts:
            t.cancel()
        if ts and self.limit(st) != 'now':
            await self.joined(ts, st)

    async def do_rawlink(self, st: Tree, env: Names) -> Any:
        h = self.ev(st['e'], env)
        self.links += 1
        k = self.links

        def call(_: object) -> None:
            self.log('link', k=k, g=h.g, **({'mark': st['mark']} if 'mark' in st else {'set': st['obj']}))
            if 'obj' in st:
                self.objects[st['obj']].set()
        self.task(h).add_done_callback(call)
        return k

    # ------------------------------------------------------------ events, results, semaphores, locks, queues

    async def do_clear(self, st: Tree, env: Names) -> Any:
        self.obj(st).clear()

    async def do_wait(self, st: Tree, env: Names) -> Any:
        return await self.timed(st, self.obj(st).wait, lambda: False)

    async def do_rset(self, st: Tree, env: Names) -> Any:
        if self.obj(st).done():
            raise Unsupported('a result put twice')
        self.obj(st).set_result(self.ev(st['e'], env))

    async def do_rfail(self, st: Tree, env: Names) -> Any:
        if self.obj(st).done():
            raise Unsupported('a result put twice')
        self.obj(st).set_exception(self.to_exc(self.fault(self.ev(st['e'], env))))

    async def do_rget(self, st: Tree, env: Names) -> Any:
        r = self.obj(st)
        if not r.done():
            if self.limit(st) == 'now':
                raise self.timeout_now()
            late = self.timeout_now() if self.limit(st) is not None else None
            await self.joined([r], st)
            if not r.done():
                assert late is not None
                raise late
        return r.result()

    async def do_rwait(self, st: Tree, env: Names) -> Any:
        r = self.obj(st)
        await self.joined([r], st)
        return r.result() if r.done() and r.exception() is None else None

    async def do_acquire(self, st: Tree, env: Names) -> Any:
        o = self.obj(st)
        lock = isinstance(o, asyncio.Lock)
        if lock and self.owner.get(id(o)) == self.me():
            raise Unsupported('a lock taken twice')
        if self.limit(st) == 'now':
            if o.locked():
                return False
            await o.acquire()
            got = True
        else:
            got = await self.timed(st, o.acquire, lambda: False)
        if got and lock:
            self.owner[id(o)] = self.me()
        return got

    async def do_release(self, st: Tree, env: Names) -> Any:
        o = self.obj(st)
        if isinstance(o, asyncio.Lock):
            if self.owner.get(id(o)) != self.me():
                raise RuntimeError
            self.owner[id(o)] = None
        o.release()

    async def do_qput(self, st: Tree, env: Names) -> Any:
        q, v = self.obj(st), self.ev(st['e'], env)
        if self.kinds[st['obj']]['queue'] == 'prio' and kind_of(v) != 'int':
            raise TypeError
        if self.limit(st) == 'now':
            return q.put_nowait(v)
        put: Callable[[], Awaitable[Any]] = functools.partial(q.put, v)
        await self.timed(st, put, self.raises('Full'))

    async def do_qget(self, st: Tree, env: Names) -> Any:
        q = self.obj(st)
        if self.limit(st) == 'now':
            return q.get_nowait()
        return await self.timed(st, q.get, self.raises('Empty'))

    async def do_qdone(self, st: Tree, env: Names) -> Any:
        self.obj(st).task_done()

    async def do_qjoin(self, st: Tree, env: Names) -> Any:
        async def join() -> bool:
            await self.obj(st).join()
            return True
        return await self.timed(st, join, lambda: False)


if __name__ == '__main__':
    serve_runs(Run)
