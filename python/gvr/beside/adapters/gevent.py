"""Scenarios as real gevent greenlets.

    python3 -m gvr.beside.adapters.gevent [--loop virtual|libev] [--cost SECONDS] [--ms SECONDS] [--no-priorities]
                                          [--ordered-groups] < trees > events

Every statement is the gevent call that docs/FROM_GEVENT.md gives for it; bodies are Python functions that interpret
the tree inside a gevent.Greenlet (main's in the main greenlet). What is recorded: docs/BESIDE.md. Nothing of gevent is
replaced but the loop; Group and Pool are subclassed in one place, to number the greenlets that they admit.
"""
import argparse
import threading
import time
from typing import Any, Callable, Dict, List, Optional, Set, TextIO, Tuple, Type, cast

import greenlet
import gevent
import gevent.hub
from gevent import GreenletExit, Timeout, getcurrent
from gevent._hub_local import set_hub
from gevent.event import AsyncResult, Event
from gevent.exceptions import LoopExit
from gevent.lock import BoundedSemaphore, RLock, Semaphore
from gevent.pool import Group, Pool
from gevent.queue import Channel, JoinableQueue, LifoQueue, PriorityQueue, Queue
from gevent.threadpool import ThreadPool

from . import virtual_loop
from .bodies import Bodies, Names, Returned, Tree
from .protocol import (PLAIN, Budget, Err, Fault, G, InvalidSwitch, J, Unsupported, Value, job_outcome, kind_of, serve,
                       serve_options, truth, value_text)

EXC: Dict[str, Type[BaseException]] = dict(PLAIN, GreenletExit=GreenletExit, LoopExit=LoopExit)
CLASSES = [(GreenletExit, 'GreenletExit'), (LoopExit, 'LoopExit'), (InvalidSwitch, 'InvalidSwitch')] + \
    [(c, k) for k, c in PLAIN.items() if k != 'InvalidSwitch']
QUEUES = {'fifo': Queue, 'lifo': LifoQueue, 'prio': PriorityQueue, 'join': JoinableQueue}


class Abort(BaseException):
    """Thrown into main when another greenlet finds that the run is void."""


class InOrder(Dict[Any, bool]):
    """A set that is walked in order of adding: gevent walks a group "in no particular order", that of addresses."""

    def add(self, x: Any) -> None:
        self[x] = True

    def discard(self, x: Any) -> None:
        self.pop(x, None)


VOID = (Budget, Unsupported, Abort)


class Run(Bodies):
    def __init__(self, tree: Tree, options: argparse.Namespace) -> None:
        super().__init__(tree, options)
        self.ms_second = float(options.ms)
        self.greenlets: List[Any] = []                 # by number
        self.number_of: Dict[int, int] = {}            # by id
        self.raw: Set[int] = set()                     # numbers of raw greenlets
        self.parent: Dict[int, int] = {}               # their parents' numbers
        self.resumed: Dict[int, int] = {}              # by id: how often a greenlet was switched to
        self.timeout_number: Dict[int, Tuple[Any, int]] = {}
        self.links: Dict[int, Tuple[Any, Any]] = {}
        self.jobs: List[Any] = []
        self.queued: Dict[str, List[Tuple[float, threading.Event]]] = {}     # of native pools: jobs that wait for a thread
        self.running: Dict[str, int] = {}              # and how many have one
        self.main: Any = None
        set_hub(None)                                  # a hub and a loop of its own for each run
        self.hub = gevent.get_hub()
        self.hub.exception_stream = None
        self.objects = {o['name']: self.make(o) for o in tree['objects']}

    # ------------------------------------------------------------ objects and numbers

    def make(self, o: Tree) -> Any:
        kind, n = o['kind'], o.get('n')
        if kind == 'queue':
            return QUEUES[o['queue']](n)
        if kind in ('group', 'pool'):
            return self.crew(Pool if kind == 'pool' else Group, [] if n is None else [n])
        made = {'event': Event, 'result': AsyncResult, 'rlock': RLock, 'channel': Channel}
        return made[kind]() if kind in made else {'sem': Semaphore, 'bsem': BoundedSemaphore, 'native': ThreadPool}[kind](n)

    def crew(self, kind: Any, arguments: List[int]) -> Any:
        """A group or pool that numbers those that it admits."""
        run = self

        class Numbered(kind):  # type: ignore[misc]
            def __init__(self) -> None:
                super().__init__(*arguments)
                if run.options.ordered_groups:
                    self.greenlets = InOrder()

            def add(self, g: Any, *more: Any, **named: Any) -> None:
                super().add(g, *more, **named)
                run.number(g)
        return Numbered()

    def number(self, g: Any) -> int:
        if id(g) not in self.number_of:
            self.number_of[id(g)] = len(self.greenlets)
            self.greenlets.append(g)
        return self.number_of[id(g)]

    def me(self) -> int:
        return self.number_of[id(getcurrent())]

    def traced(self, event: str, args: Tuple[Any, Any]) -> None:
        origin, target = args
        n = self.resumed.get(id(target), 0)
        self.resumed[id(target)] = n + 1
        if id(target) in self.number_of and origin is not target:
            self.log('switch', g=self.number_of[id(target)])

    # ------------------------------------------------------------ faults

    def next_timeout(self) -> int:
        self.timeouts += 1
        return self.timeouts

    def to_exc(self, fault: Fault) -> BaseException:
        if fault.kind == 'Error':
            return Err(fault.n or 0)
        if fault.kind == 'Timeout':
            for made, n in self.timeout_number.values():
                if n == fault.n:
                    return cast(BaseException, made)
        return EXC[fault.kind]()

    def to_fault(self, e: BaseException) -> Fault:
        if isinstance(e, Err):
            return Fault('Error', e.n)
        if isinstance(e, Timeout):
            t, n = self.timeout_number.get(id(e), (None, 0))
            return Fault('Timeout', n)
        for cls, kind in CLASSES:
            if isinstance(e, cls):
                return Fault(kind)
        return Fault(type(e).__name__)             # what no scenario can raise: an error inside gevent

    def back(self, v: Any) -> Any:
        """A value that came out of gevent."""
        if isinstance(v, BaseException):
            return self.to_fault(v)
        return v

    # ------------------------------------------------------------ queries

    def query_handle(self, form: str, handle: Any) -> Value:
        if isinstance(handle, J):
            r = self.jobs[handle.j - 1]
            if form == 'ready':
                return bool(r.ready())
            if form == 'successful':
                return bool(r.successful())
            return cast(Value, self.back(r.value if form == 'value' else r.exception))
        g = self.greenlets[handle.g]
        if isinstance(g, gevent.Greenlet):
            if form in ('ready', 'successful'):
                return bool(g.ready() if form == 'ready' else g.successful())
            return cast(Value, self.back(g.value if form == 'value' else g.exception))
        if handle.g not in self.outcomes:
            return None if form in ('value', 'exception') else False
        kind, v = self.outcomes[handle.g]
        if form in ('ready', 'successful'):
            return form == 'ready' or kind == 'value'
        return v if (kind == 'value') == (form == 'value') else None

    def query_object(self, form: str, name: str) -> Value:
        o = self.objects[name]
        if form == 'isset':
            return bool(o.ready())
        if form == 'counter':
            return int(o.counter)
        if form == 'qsize':
            return int(o.qsize())
        return int(o.unfinished_tasks) if form == 'unfinished' else len(o)

    # ------------------------------------------------------------ bodies

    def body(self, n: int, f: Tree, args: List[Value]) -> Value:
        """Run a body in the current greenlet; give its value or raise its exception."""
        self.begun.add(n)
        self.log('start', g=n, f=f['name'])
        env = dict(zip(f['params'], args))
        try:
            r = self.block(f['body'], env)
            v = None if r is None else r[0]
        except VOID:
            raise
        except BaseException as e:
            self.ended(n, e)
            raise
        self.ended(n, None, v)
        return v

    def ended(self, n: int, e: Optional[BaseException], v: Value = None) -> None:
        fault = self.to_fault(e) if e is not None else None
        if fault == Fault('GreenletExit') and n != 0:
            e, v = None, fault
        self.outcomes[n] = ('value', v) if e is None else ('fault', fault)
        self.log('end', g=n, out=self.outcome_text(n))

    def outcome_text(self, n: int) -> str:
        kind, v = self.outcomes[n]
        return '%s %s' % (kind, value_text(v))

    def entry(self, name: str, args: List[Value]) -> Value:
        """What a gevent.Greenlet runs."""
        return self.guard(lambda: self.body(self.number(getcurrent()), self.fns[name], args))

    def guard(self, call: Callable[[], Value]) -> Value:
        try:
            return call()
        except Budget:
            self.main.throw(Abort('no-moves'))
        except Unsupported as e:
            self.log('unsupported', what=str(e))
            self.main.throw(Abort('unsupported'))
        return None

    def go(self) -> 'Run':
        self.main = getcurrent()
        self.number(self.main)
        greenlet.settrace(self.traced)
        try:
            cause = 'value ' + value_text(self.body(0, self.fns['main'], []))
        except Budget:
            cause = 'no-moves'
        except Unsupported as e:
            self.log('unsupported', what=str(e))
            cause = 'unsupported'
        except Abort as e:
            cause = e.args[0]
        except BaseException as e:
            cause = 'fault ' + value_text(self.to_fault(e))
        greenlet.settrace(None)
        for n, g in enumerate(self.greenlets):         # those that were killed before they began
            if n not in self.outcomes and n not in self.begun and isinstance(g, gevent.Greenlet) and g.ready():
                v = g.value if g.successful() else g.exception
                kind = 'value' if g.successful() else 'fault'
                self.log('killed', g=n, out='%s %s' % (kind, value_text(self.back(v))))
        self.log('stop', out=cause, now=round(self.hub.loop.now() / self.ms_second, 3))
        return self

    # ------------------------------------------------------------ statements

    def block(self, statements: List[Tree], env: Names) -> Returned:
        """None, or (value,) at a return."""
        for st in statements:
            r = self.statement(st, env)
            if r is not None:
                return r
        return None

    def statement(self, st: Tree, env: Names) -> Returned:
        """Run a statement; what `block` gives."""
        word = st['do']
        if word == 'while':
            return self.repeated(st, env)
        self.move()
        if word == 'return':
            return (self.ev(st['e'], env),)
        if word == 'if':
            return self.block(st['body'] if truth(self.ev(st['e'], env)) else st.get('other', []), env)
        if word == 'try':
            return self.try_(st, env)
        if word == 'timeout':
            return self.timeout(st, env)
        if not self.runs_alone(st, env):
            self.called(st, env)
        return None

    def timeout(self, st: Tree, env: Names) -> Returned:
        """A `timeout` block."""
        t = Timeout(None if 'ms' not in st else self.seconds(st['ms']), False if st.get('silent') else None)
        self.numbered(t, self.next_timeout())
        with t:
            return self.block(st['body'], env)
        return None                                    # a silent one came

    def repeated(self, st: Tree, env: Names) -> Returned:
        """A `while`."""
        while True:
            self.move()
            if not truth(self.ev(st['e'], env)):
                return None
            r = self.block(st['body'], env)
            if r is not None:
                return r

    def called(self, st: Tree, env: Names) -> None:
        """A statement that is a call of gevent. One that was left and came back is a `go`."""
        word, current = st['do'], getcurrent()
        before = self.resumed.get(id(current), 0)
        v: Any = None
        try:
            v = getattr(self, 'do_' + word)(st, env)
        finally:
            if self.resumed.get(id(current), 0) != before and word not in ('switch', 'throw'):
                self.log('go', g=self.me(), line=st['line'])
        if word == 'nspawn':
            self.log('job', g=self.me(), j=v.j)
        if 'into' in st:
            env[st['into']] = v

    def try_(self, st: Tree, env: Names) -> Returned:
        pending, exc = None, None
        try:
            pending = self.block(st['body'], env)
        except VOID:
            raise
        except BaseException as e:
            exc = e
            body = self.handler(st, self.to_fault(e), env)
            if body is not None:
                exc = None
                try:
                    pending = self.block(body, env)
                except VOID:
                    raise
                except BaseException as e2:
                    exc = e2
        if 'final' in st:
            r = self.block(st['final'], env)
            if r is not None:
                return r
        if exc is not None:
            raise exc
        return pending

    # ------------------------------------------------------------ operands

    def seconds(self, ms: int) -> float:
        return ms * self.ms_second

    def within(self, st: Tree) -> Tuple[bool, Optional[float]]:
        """(blocking, timeout) of WAIT."""
        w = st.get('wait')
        if w is None:
            return True, None
        return (False, None) if w[0] == 'now' else (True, self.seconds(w[1]))

    def numbered(self, t: Any, n: int) -> None:
        self.timeout_number[id(t)] = (t, n)

    def target(self, v: Any, raw_too: bool = False) -> Any:
        if kind_of(v) != 'greenlet' or (not raw_too and v.g in self.raw):
            raise TypeError
        return self.greenlets[v.g]

    def targets(self, v: Any) -> List[Any]:
        if kind_of(v) != 'list':
            raise TypeError
        return [self.target(x) for x in v]

    def with_(self, st: Tree, env: Names) -> Fault:
        return self.fault(self.ev(st['with'], env)) if 'with' in st else Fault('GreenletExit')

    def calls_timeout(self, parks: bool, call: Callable[[], Any]) -> Any:
        """get and rget: the Timeout that gevent makes inside gets the number that the model draws."""
        n = self.next_timeout() if parks else None
        try:
            return call()
        except Timeout as t:
            if id(t) not in self.timeout_number:
                self.numbered(t, n if n is not None else self.next_timeout())
            raise

    def for_ever(self, timeout: Optional[float]) -> None:
        """The wait for main's end, or for the end of a link's greenlet: nobody can see it."""
        Event().wait(timeout)

    # ------------------------------------------------------------ greenlets

    def made(self, st: Tree, env: Names) -> Tuple[G, Any]:
        g = gevent.Greenlet(self.entry, st['f'], [self.ev(e, env) for e in st['args']])
        return G(self.number(g)), g

    def do_spawn(self, st: Tree, env: Names) -> Any:
        h, g = self.made(st, env)
        g.start()
        return h

    def do_spawnlater(self, st: Tree, env: Names) -> Any:
        h, g = self.made(st, env)
        g.start_later(self.seconds(st['ms']))
        return h

    def do_new(self, st: Tree, env: Names) -> Any:
        return self.made(st, env)[0]

    def do_start(self, st: Tree, env: Names) -> Any:
        g = self.target(self.ev(st['e'], env))
        if isinstance(g, gevent.Greenlet):
            g.start()

    def do_sleep(self, st: Tree, env: Names) -> Any:
        gevent.sleep(self.seconds(st['ms']))

    def do_join(self, st: Tree, env: Names) -> Any:
        g, (_, timeout) = self.target(self.ev(st['e'], env)), self.within(st)
        if isinstance(g, gevent.Greenlet):
            g.join(timeout)
        elif not g.dead:
            self.for_ever(timeout)

    def do_get(self, st: Tree, env: Names) -> Any:
        v, (block, timeout) = self.ev(st['e'], env), self.within(st)
        o = self.jobs[v.j - 1] if kind_of(v) == 'job' else self.target(v)
        if isinstance(o, greenlet.greenlet) and not isinstance(o, gevent.Greenlet):
            raise Unsupported('get of main')
        parks = block and timeout is not None and not o.ready()
        return self.back(self.calls_timeout(parks, lambda: o.get(block=block, timeout=timeout)))

    def do_kill(self, st: Tree, env: Names) -> Any:
        v = self.ev(st['e'], env)
        fault = self.with_(st, env)
        g, (block, timeout) = self.target(v), self.within(st)
        if isinstance(g, gevent.Greenlet):
            g.kill(self.to_exc(fault), block=block, timeout=timeout)
        elif not g.dead:
            self.hub.loop.run_callback(g.throw, self.to_exc(fault))        # gevent.kill of a raw greenlet
            if block:
                self.for_ever(timeout)

    def do_killall(self, st: Tree, env: Names) -> Any:
        v = self.ev(st['e'], env)
        fault = self.with_(st, env)
        gs, (block, timeout) = self.targets(v), self.within(st)
        if any(not isinstance(g, gevent.Greenlet) for g in gs):
            raise Unsupported('killall of main')
        return self.calls_timeout(False, lambda: gevent.killall(gs, self.to_exc(fault), block=block, timeout=timeout))

    def do_joinall(self, st: Tree, env: Names) -> Any:
        v = self.ev(st['e'], env)
        gs, (_, timeout) = self.targets(v), self.within(st)
        if any(not isinstance(g, gevent.Greenlet) for g in gs):
            raise Unsupported('joinall of main')
        done = gevent.joinall(gs, timeout=timeout, count=st.get('count'))
        return tuple(G(self.number_of[id(g)]) for g in done)

    def linked(self, st: Tree, env: Names, method: str) -> int:
        h = self.ev(st['e'], env)
        g, k = self.target(h), len(self.links) + 1
        if not isinstance(g, gevent.Greenlet):
            self.links[k] = (None, None)
            return k

        def call(source: Any) -> Any:
            me = self.number(getcurrent())
            self.log('link', k=k, g=h.g, to=me)
            return self.guard(lambda: self.body(me, self.fns[st['f']], [G(h.g)]))
        getattr(g, method)(call)
        self.links[k] = (g, call)
        return k

    def do_link(self, st: Tree, env: Names) -> Any:
        return self.linked(st, env, 'link')

    def do_linkvalue(self, st: Tree, env: Names) -> Any:
        return self.linked(st, env, 'link_value')

    def do_linkfault(self, st: Tree, env: Names) -> Any:
        return self.linked(st, env, 'link_exception')

    def do_rawlink(self, st: Tree, env: Names) -> Any:
        h = self.ev(st['e'], env)
        g, k = self.target(h), len(self.links) + 1

        def call(source: Any) -> Any:
            if 'mark' in st:
                self.log('link', k=k, g=h.g, mark=st['mark'])
            else:
                self.log('link', k=k, g=h.g, set=st['obj'])
                self.objects[st['obj']].set()
        if isinstance(g, gevent.Greenlet):
            g.rawlink(call)
        self.links[k] = (g, call) if isinstance(g, gevent.Greenlet) else (None, None)
        return k

    def do_unlink(self, st: Tree, env: Names) -> Any:
        n = self.ev(st['e'], env)
        if kind_of(n) != 'int':
            raise TypeError
        g, call = self.links.get(n, (None, None))
        if g is not None:
            g.unlink(call)

    # ------------------------------------------------------------ events, results, semaphores, locks

    def obj(self, st: Tree) -> Any:
        return self.objects[st['obj']]

    def do_set(self, st: Tree, env: Names) -> Any:
        self.obj(st).set()

    def do_clear(self, st: Tree, env: Names) -> Any:
        self.obj(st).clear()

    def do_wait(self, st: Tree, env: Names) -> Any:
        return bool(self.obj(st).wait(timeout=self.within(st)[1]))

    def do_rset(self, st: Tree, env: Names) -> Any:
        self.obj(st).set(self.ev(st['e'], env))

    def do_rfail(self, st: Tree, env: Names) -> Any:
        self.obj(st).set_exception(self.to_exc(self.fault(self.ev(st['e'], env))))

    def do_rget(self, st: Tree, env: Names) -> Any:
        r, (block, timeout) = self.obj(st), self.within(st)
        parks = block and timeout is not None and not r.ready()
        return self.back(self.calls_timeout(parks, lambda: r.get(block=block, timeout=timeout)))

    def do_rwait(self, st: Tree, env: Names) -> Any:
        return self.back(self.obj(st).wait(timeout=self.within(st)[1]))

    def do_acquire(self, st: Tree, env: Names) -> Any:
        block, timeout = self.within(st)
        return bool(self.obj(st).acquire(block, timeout))

    def do_release(self, st: Tree, env: Names) -> Any:
        self.obj(st).release()

    # ------------------------------------------------------------ queues and channels

    def do_qput(self, st: Tree, env: Names) -> Any:
        v, (block, timeout) = self.ev(st['e'], env), self.within(st)
        if isinstance(self.obj(st), PriorityQueue) and kind_of(v) != 'int':
            raise TypeError
        self.obj(st).put(v, block, timeout)

    def do_qget(self, st: Tree, env: Names) -> Any:
        return self.obj(st).get(*self.within(st))

    def do_qpeek(self, st: Tree, env: Names) -> Any:
        return self.obj(st).peek(*self.within(st))

    def do_qdone(self, st: Tree, env: Names) -> Any:
        self.obj(st).task_done()

    def do_qjoin(self, st: Tree, env: Names) -> Any:
        return bool(self.obj(st).join(timeout=self.within(st)[1]))

    def do_qshut(self, st: Tree, env: Names) -> Any:
        raise Unsupported('qshut')

    def do_cput(self, st: Tree, env: Names) -> Any:
        self.obj(st).put(self.ev(st['e'], env))

    def do_cget(self, st: Tree, env: Names) -> Any:
        return self.obj(st).get()

    # ------------------------------------------------------------ groups, pools, jobs

    def do_gspawn(self, st: Tree, env: Names) -> Any:
        g = self.obj(st).spawn(self.entry, st['f'], [self.ev(e, env) for e in st['args']])
        return G(self.number(g))

    def do_gjoin(self, st: Tree, env: Names) -> Any:
        self.obj(st).join(timeout=self.within(st)[1])

    def do_gkill(self, st: Tree, env: Names) -> Any:
        self.obj(st).kill(self.to_exc(self.with_(st, env)), block=self.within(st)[0])

    def do_map(self, st: Tree, env: Names) -> Any:
        v = self.ev(st['e'], env)
        if kind_of(v) != 'list':
            raise TypeError
        out = tuple(self.back(x) for x in self.obj(st).map(lambda x: self.entry(st['f'], [x]), v))
        if any(kind_of(x) == 'list' for x in out):
            raise TypeError
        return out

    def do_nspawn(self, st: Tree, env: Names) -> Any:
        n = self.ev(st['e'], env)
        if kind_of(n) != 'int':
            raise TypeError
        takes, pool, loop = self.seconds(st.get('takes', 0)), self.obj(st), self.hub.loop
        latch = threading.Event()

        def job() -> Any:
            if hasattr(loop, 'gate'):
                latch.wait()
            else:
                time.sleep(takes)
            outcome = job_outcome(st['job'], n)
            if outcome.fault is not None:
                raise self.to_exc(outcome.fault)
            return outcome.what
        r = pool.spawn(job)
        if hasattr(loop, 'gate'):
            self.queued.setdefault(st['obj'], []).append((takes, latch))
            self.begin_jobs(st['obj'])
        self.jobs.append(r)
        return J(len(self.jobs))

    def begin_jobs(self, name: str) -> None:
        """As many jobs of a pool run as it has threads, the others wait in its task queue."""
        waiting = self.queued[name]
        while waiting and self.running.get(name, 0) < self.objects[name].maxsize:
            takes, latch = waiting.pop(0)
            self.running[name] = self.running.get(name, 0) + 1

            def opened() -> None:
                self.running[name] -= 1
                self.begin_jobs(name)
            self.hub.loop.gate(takes, latch, opened)

    # ------------------------------------------------------------ raw greenlets

    def host_of(self, n: int) -> int:
        while n in self.raw:
            n = self.parent[n]
        return n

    def of_host(self, v: G) -> None:
        if self.host_of(v.g) != self.host_of(self.me()):
            raise InvalidSwitch

    def do_raw(self, st: Tree, env: Names) -> Any:
        parent = self.me()
        if 'under' in st:
            v = self.ev(st['under'], env)
            self.target(v, True)
            self.of_host(v)
            parent = v.g
        f = self.fns[st['f']]

        def run(x: Value = Fault('GreenletExit')) -> Any:              # greenlet begins a new parent so: without an argument
            me = self.me()
            try:
                return self.guard(lambda: self.body(me, f, [x]))
            except GreenletExit:
                return Fault('GreenletExit')
            except VOID:
                raise
            except BaseException as e:
                self.never_begun(self.parent[me], self.to_fault(e))
                raise
        g = greenlet.greenlet(run, self.greenlets[parent])
        n = self.number(g)
        self.raw.add(n)
        self.parent[n] = parent
        return G(n)

    def do_switch(self, st: Tree, env: Names) -> Any:
        v, x = self.ev(st['e'], env), self.ev(st['e2'], env)
        g = self.target(v, True)
        self.of_host(v)
        return self.back(greenlet.greenlet.switch(g, x))

    def never_begun(self, n: int, f: Fault) -> None:
        """A fault arrives at a raw greenlet: one that is new dies of it, and so on upwards."""
        while n in self.raw and n not in self.begun and n not in self.outcomes:
            self.outcomes[n] = ('value', f) if f.kind == 'GreenletExit' else ('fault', f)
            self.log('killed', g=n, out=self.outcome_text(n))
            if f.kind == 'GreenletExit':
                return
            n = self.parent[n]

    def do_throw(self, st: Tree, env: Names) -> Any:
        v, f = self.ev(st['e'], env), self.with_(st, env)
        g = self.target(v, True)
        self.of_host(v)
        self.never_begun(v.g, f)
        return self.back(greenlet.greenlet.throw(g, self.to_exc(f)))

    def do_setparent(self, st: Tree, env: Names) -> Any:
        c, p = self.ev(st['e'], env), self.ev(st['e2'], env)
        child, parent = self.target(c, True), self.target(p, True)
        if c.g not in self.raw:
            raise TypeError
        self.of_host(c)
        self.of_host(p)
        child.parent = parent
        self.parent[c.g] = p.g


def main() -> None:
    parser = argparse.ArgumentParser()
    serve_options(parser)
    parser.add_argument('--loop', choices=('virtual', 'libev'), default='virtual')
    parser.add_argument('--cost', type=float, default=0.0, help='seconds of the virtual clock that a callback takes')
    parser.add_argument('--ms', type=float, default=1 / 1024, help='seconds of one millisecond of a scenario')
    parser.add_argument('--no-priorities', action='store_true', help='timers without priorities, as under libuv')
    parser.add_argument('--ordered-groups', action='store_true', help='walk groups in order of admission')
    options = parser.parse_args()
    if options.loop == 'virtual':
        virtual_loop.COST, virtual_loop.PRIORITIES = options.cost, not options.no_priorities
        gevent.config.loop = virtual_loop.VirtualLoop
    options.fork = options.loop == 'libev'

    def run_one(tree: Tree, out: TextIO) -> Run:
        run = Run(tree, options).go()
        run.log.write(out)
        return run
    serve(run_one, options)


if __name__ == '__main__':
    main()
