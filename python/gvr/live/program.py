"""Runs a program: its `import gevent` gives the façade, its clock is that of the run, its prints are statements."""
import builtins
import importlib
import os
import random
import sys
import types
from typing import Any, Callable, Dict, List, NamedTuple, Optional, Sequence, Tuple

from . import clock
from .decider import Decider, Options
from .printing import Printer
from .record import Record
from .session import Failure, Session
from .stepped import Stepped
from .tasks import Outcome

PARTS = ('event', 'exceptions', 'greenlet', 'hub', 'local', 'lock', 'monkey', 'pool', 'queue', 'threadpool', 'timeout')
WHY = {'socket': 'sockets', '_socket3': 'sockets', 'ssl': 'sockets', 'server': 'servers', 'pywsgi': 'servers',
       'select': 'sockets', 'selectors': 'sockets', 'subprocess': 'processes', 'os': 'processes',
       'fileobject': 'files', 'signal': 'signals', 'resolver': 'names of hosts', 'baseserver': 'servers',
       'backdoor': 'servers', 'core': 'loops', 'libev': 'loops', 'libuv': 'loops', 'events': 'loops'}


FINDERS: List[Any] = sys.meta_path


class NotSaid:
    """`import gevent.socket` says why there is none."""

    @classmethod
    def find_spec(cls, name: str, path: Any = None, target: Any = None) -> None:
        if name.startswith('gevent.') and name not in sys.modules:
            what = WHY.get(name.split('.')[1], 'what it has')
            raise ImportError('%s: %s are no part of the machine that runs this program' % (name, what))


def alias() -> Dict[str, Any]:
    """`import gevent` and `import greenlet` give the façade from now on. Gives what they gave before."""
    before = {name: module for name, module in sys.modules.items()
              if name in ('gevent', 'greenlet') or name.startswith('gevent.')}
    for name in before:
        del sys.modules[name]
    if NotSaid not in FINDERS:
        FINDERS.insert(0, NotSaid)
    sys.modules['gevent'] = importlib.import_module('gvr.gevent')
    for part in PARTS:
        sys.modules['gevent.' + part] = importlib.import_module('gvr.gevent.' + part)
    sys.modules['greenlet'] = importlib.import_module('gvr.gevent.raw')
    return before


def unalias(before: Dict[str, Any]) -> None:
    """They give what they gave before."""
    for name in [n for n in sys.modules if n in ('gevent', 'greenlet') or n.startswith('gevent.')]:
        del sys.modules[name]
    sys.modules.update(before)
    if NotSaid in FINDERS:
        FINDERS.remove(NotSaid)


class Program(NamedTuple):
    """A program to be run, and how."""
    path: str
    arguments: Sequence[str] = ()
    options: Options = Options()
    seed: int = 0
    prints: bool = True
    make_decider: Optional[Callable[[Record, Options], Decider]] = None      # Stepped if None
    on_failure: Optional[Failure] = None


def run_program(program: Program) -> Tuple[Session, Outcome]:
    """The run, and how its main ended."""
    from ..gevent import monkey
    make = program.make_decider or Stepped
    run = Session(lambda record: make(record, program.options), program.options)
    if program.on_failure is not None:
        run.on_failure = program.on_failure
    with open(program.path, encoding='utf-8') as f:
        code = compile(f.read(), program.path, 'exec')
    module = types.ModuleType('__main__')
    vars(module).update(__file__=program.path, __builtins__=builtins)
    before, printer = alias(), Printer()
    before['__main__'], sys.modules['__main__'] = sys.modules['__main__'], module
    clock.install()
    random.seed(program.seed)
    sys.argv = [program.path, *program.arguments]
    sys.path.insert(0, os.path.dirname(os.path.abspath(program.path)))
    if program.prints:
        setattr(builtins, 'print', printer)
    try:
        return run, run.run(lambda: exec(code, vars(module)))
    finally:
        setattr(builtins, 'print', printer.real)
        sys.path.pop(0)
        monkey.restore()
        unalias(before)


def own_words(words: List[str]) -> List[str]:
    """Those of the line `# run WORDS` with which a program begins."""
    for word in words:
        if word.endswith('.py'):
            with open(word, encoding='utf-8') as f:
                first = f.readline().split()
            return first[2:] if first[:2] == ['#', 'run'] else []
    return []
