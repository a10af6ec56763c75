"""What the adapters of runtimes with async functions share: how a body's statements are run.

A runtime's own adapter makes the objects, and has an async method do_WORD for each statement that calls the runtime;
what it has no method for is Unsupported.
"""
import argparse
from typing import Any, Callable, Dict, List, NoReturn, Optional, Set, TextIO, Tuple, Type

from .bodies import Bodies, Names, Returned, Tree
from .protocol import Budget, Err, Fault, Unsupported, Value, serve, serve_options, truth, value_text

VOID = (Budget, Unsupported)
MS = 1 / 1024


class TaskRun(Bodies):
    """One run. `exceptions` has the runtime's exception of each kind of fault, `late_class` that of a Timeout."""

    exceptions: Dict[str, Type[BaseException]] = {}
    late_class: Type[BaseException] = TimeoutError

    def __init__(self, tree: Tree, options: argparse.Namespace) -> None:
        super().__init__(tree, options)
        self.links = 0
        self.void: Optional[str] = None
        self.kinds: Dict[str, Tree] = {o['name']: o for o in tree['objects']}
        self.objects: Dict[str, Any] = {}

    # ------------------------------------------------------------ what a runtime says

    def outcome(self, n: int) -> Optional[Tuple[str, Value]]:
        """How task n ended, `value` or `fault`; None if it has not."""
        raise NotImplementedError

    def steps(self) -> int:
        """A number that grows whenever a task goes on."""
        raise NotImplementedError

    def is_over(self) -> bool:
        """Whether what tasks still do is told no more."""
        raise NotImplementedError

    async def timeout(self, st: Tree, env: Names) -> Returned:
        """A `timeout` block."""
        raise NotImplementedError

    def go(self) -> 'TaskRun':
        """The whole run."""
        raise NotImplementedError

    # ------------------------------------------------------------ faults, queries

    def to_exc(self, f: Any) -> BaseException:
        if f.kind == 'Error':
            return Err(f.n)
        if f.kind not in self.exceptions:
            raise Unsupported('raise ' + f.kind)
        made: BaseException = self.exceptions[f.kind]()
        return made

    def to_fault(self, e: Optional[BaseException]) -> Fault:
        if isinstance(e, Err):
            return Fault('Error', e.n)
        if isinstance(e, self.late_class):
            return Fault('Timeout', getattr(e, 'number', 0))
        for kind, cls in self.exceptions.items():
            if isinstance(e, cls):
                return Fault(kind)
        return Fault(type(e).__name__)

    def query_handle(self, form: str, handle: Any) -> Value:
        o = self.outcome(handle.g)
        if form in ('ready', 'successful'):
            return o is not None and (form == 'ready' or o[0] == 'value')
        return o[1] if o is not None and (o[0] == 'value') == (form == 'value') else None

    # ------------------------------------------------------------ statements

    def began(self, n: int, f: Tree, args: List[Value]) -> Names:
        """Task n begins: its names."""
        self.begun.add(n)
        self.log('start', g=n, f=f['name'])
        return dict(zip(f['params'], args))

    def voided(self, e: BaseException) -> None:
        """The run is void, by one of VOID."""
        self.void = 'no-moves' if isinstance(e, Budget) else 'unsupported'
        if self.void == 'unsupported':
            self.log('unsupported', what=str(e))

    def failed(self, n: int, e: BaseException) -> None:
        """Task n ends by this exception."""
        fault = self.to_fault(e)
        self.outcomes[n] = ('value' if fault.kind == 'GreenletExit' and n != 0 else 'fault', fault)
        self.ended(n)

    def ended(self, n: int) -> None:
        kind, v = self.outcomes[n]
        self.log('end', g=n, out='%s %s' % (kind, value_text(v)))

    async def block(self, statements: List[Tree], env: Names) -> Returned:
        """None, or (value,) at a return."""
        for st in statements:
            r = await self.statement(st, env)
            if r is not None:
                return r
        return None

    async def statement(self, st: Tree, env: Names) -> Returned:
        """Run a statement; what `block` gives."""
        word = st['do']
        if word == 'while':
            return await self.repeated(st, env)
        self.move()
        if word == 'return':
            return (self.ev(st['e'], env),)
        if word == 'if':
            return await self.block(st['body'] if truth(self.ev(st['e'], env)) else st.get('other', []), env)
        if word == 'try':
            return await self.try_(st, env)
        if word == 'timeout':
            return await self.timeout(st, env)
        if not self.runs_alone(st, env):
            await self.called(st, env)
        return None

    async def repeated(self, st: Tree, env: Names) -> Returned:
        """A `while`."""
        while True:
            self.move()
            if not truth(self.ev(st['e'], env)):
                return None
            r = await self.block(st['body'], env)
            if r is not None:
                return r

    async def called(self, st: Tree, env: Names) -> None:
        """A statement that is a call of the runtime. One that was left and came back is a `go`."""
        do = getattr(self, 'do_' + st['do'], None)
        if do is None:
            raise Unsupported(st['do'])
        before = self.steps()
        v: Any = None
        try:
            v = await do(st, env)
        finally:
            if self.steps() != before and not self.is_over():
                self.log('go', g=self.me(), line=st['line'])
        if 'into' in st:
            env[st['into']] = v

    async def try_(self, st: Tree, env: Names) -> Returned:
        pending: Returned = None
        exc: Optional[BaseException] = None
        try:
            pending = await self.block(st['body'], env)
        except VOID:
            raise
        except BaseException as e:
            exc = e
            body = self.handler(st, self.to_fault(e), env)
            if body is not None:
                exc = None
                try:
                    pending = await self.block(body, env)
                except VOID:
                    raise
                except BaseException as e2:
                    exc = e2
        if 'final' in st:
            r = await self.block(st['final'], env)
            if r is not None:
                return r
        if exc is not None:
            raise exc
        return pending

    def obj(self, st: Tree) -> Any:
        """The object of a statement."""
        o = self.objects[st['obj']]
        if o is None:
            raise Unsupported(st['do'])
        return o

    def raises(self, kind: str) -> Callable[[], Any]:
        """What raises the exception of this kind of fault."""
        def late() -> NoReturn:
            raise self.exceptions[kind]
        return late

    async def do_set(self, st: Tree, env: Names) -> Any:
        self.obj(st).set()

    def limit(self, st: Tree) -> Any:
        """Seconds of `within`; None if there is none; 'now' for `now`."""
        w = st.get('wait')
        return None if w is None else 'now' if w[0] == 'now' else w[1] * MS


def serve_runs(run: Type[TaskRun]) -> None:
    """Serve trees, each by one such run."""
    parser = argparse.ArgumentParser()
    serve_options(parser)
    options = parser.parse_args()
    options.fork = False

    def run_one(tree: Tree, out: TextIO) -> TaskRun:
        done = run(tree, options).go()
        done.log.write(out)
        return done
    serve(run_one, options)
