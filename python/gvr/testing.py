"""For tests of code that is written for gevent. Each test is a run of gvr: in virtual time, in one order, the same each
time.

    import gvr.testing                        # first: from here on `import gevent` gives the façade
    import gevent

    class Limits(unittest.TestCase):
        @gvr.testing.virtual
        def test_third_call_waits(self):
            ...

A test that fails is told with the last lines of its trace and with who waits where. GVR_KEEP names a folder for its
scenario, its trace and its picture. For pytest there is gvr.pytest_plugin.
"""
import functools
import os
import pathlib
import random
import re
import sys
import unittest
from types import TracebackType
from typing import Any, Callable, List, NamedTuple, Optional, Tuple, TypeVar, Union, overload

from .gevent import monkey
from .live import clock, decider, waits
from .live.command import picture_of
from .live.errors import GreenletExit
from .live.program import alias
from .live.session import Session
from .live.stepped import Stepped
from .live.tasks import Outcome

if "gevent" in sys.modules and not sys.modules["gevent"].__name__.startswith("gvr."):
    raise ImportError("gevent was imported before gvr.testing: import gvr.testing first, or run `pytest --gvr`")
alias()

Test = TypeVar("Test")
Part = Any
Wanted = Union[str, Tuple[Part, ...]]

# By this name unittest leaves the frames of this module out of a traceback.
__unittest = True
LAST_LINES = 20
PACKAGE = str(pathlib.Path(__file__).resolve().parent) + os.sep
_last: Optional[Session] = None
_has_threads = False


class Stopped(AssertionError):
    """The run of a test stopped before the test ended: its budget of turns or moves is spent, or it is past a limit."""


class Options(NamedTuple):
    """How a test is run: the seed of random, how far the clock moves at each look around, and the budgets."""

    seed: int = 0
    tick: int = 0
    turns: int = 1000000
    moves: int = 10000000


class Report(NamedTuple):
    """What is told of a run that failed."""

    moment: int
    lines: List[str]
    waiting: List[str]
    kept: List[str]

    def text(self) -> str:
        parts = [f"moment {self.moment}; the last lines of the trace:", *(f"  {line}" for line in self.lines)]
        parts += ["nobody waits" if not self.waiting else "who waits:", *(f"  {line}" for line in self.waiting)]
        parts += [f"kept: {', '.join(self.kept)}"] if self.kept else []
        return "\n".join(parts)


# Running


@overload
def virtual(test: Test) -> Test: ...


@overload
def virtual(*, seed: int = 0, tick: int = 0, turns: int = 1000000, moves: int = 10000000) -> Callable[[Test], Test]: ...


def virtual(test: Any = None, **options: int) -> Any:
    """The test as a run of its own: a function, a method, or a class, of which it takes the methods that begin with
    `test`. Options are those of `Options`: `@virtual(tick=1)`."""
    chosen = Options(**options)
    if test is None:
        return functools.partial(_virtual, chosen=chosen)
    return _virtual(test, chosen)


def _virtual(test: Any, chosen: Options) -> Any:
    if isinstance(test, type):
        for name, method in list(vars(test).items()):
            if name.startswith("test") and callable(method):
                setattr(test, name, _virtual(method, chosen))
        return test

    @functools.wraps(test)
    def in_virtual_time(*arguments: Any, **named: Any) -> Any:
        return run(functools.partial(test, *arguments, **named), test.__qualname__, chosen)

    return in_virtual_time


def run(main: Callable[[], Any], name: str = "run", options: Options = Options()) -> Any:
    """What `main` gives as main of a run; what it raised is raised, with a report of the run as `gvr_report`. Within a run
    it is called as a part of that."""
    global _last
    if Session.current is not None:
        return main()
    chosen = decider.Options(options.turns, options.moves, options.tick)
    session = _last = Session(lambda record: Stepped(record, chosen), chosen)
    kind, value = in_time_of(session, main, options.seed)
    error: BaseException = Stopped(value) if kind == "stop" else value
    if kind != "value" and not is_skip(error):
        tell(error, Report(session.moment, session.trace[-LAST_LINES:], waits.who_waits(session), keep(session, name)))
    let_go(session)
    if kind == "value":
        return value
    raise error.with_traceback(from_the_test(error.__traceback__))


def in_time_of(session: Session, main: Callable[[], Any], seed: int) -> Outcome:
    """How main ends, with the clock of the session; clock, random and threads are as before afterwards. Where a module
    called `patch_all` when it was imported, threads are the façade's in each run."""
    global _has_threads
    state = random.getstate()
    _has_threads = _has_threads or monkey.is_module_patched("threading")
    if _has_threads:
        monkey.patch_thread()
    clock.install()
    random.seed(seed)
    try:
        return session.run(main)
    finally:
        monkey.restore()
        random.setstate(state)


def let_go(session: Session) -> None:
    """Ends the greenlets that still wait when a run is over, so that nothing of them runs in a later test."""
    Session.current = session
    try:
        for _, task in sorted(session.tasks.items()):
            if task.real is not None and not task.real.dead:
                task.real.throw(GreenletExit)
    finally:
        Session.current = None


def from_the_test(frames: Optional[TracebackType]) -> Optional[TracebackType]:
    """A traceback without the frames of this package that lead to the test."""
    while frames is not None and frames.tb_next is not None and frames.tb_frame.f_code.co_filename.startswith(PACKAGE):
        frames = frames.tb_next
    return frames


def is_skip(error: BaseException) -> bool:
    """Whether it says that a test is left out, for unittest or for pytest."""
    return isinstance(error, unittest.SkipTest) or type(error).__name__ == "Skipped"


def tell(error: BaseException, report: Report) -> None:
    """Lets the report be shown with the error: as its note where Python has notes, else on standard error."""
    setattr(error, "gvr_report", report)
    if "PYTEST_CURRENT_TEST" in os.environ:
        return
    add_note = getattr(error, "add_note", None)
    if add_note is not None:
        add_note(report.text())
    else:
        sys.stderr.write(report.text() + "\n")


# What is kept of a test that failed


def keep(session: Session, name: str) -> List[str]:
    """The files that are kept: the scenario, its trace and its picture, in the folder that GVR_KEEP names."""
    folder = os.environ.get("GVR_KEEP")
    if not folder:
        return []
    at = pathlib.Path(folder) / re.sub(r"[^\w.-]+", "_", name)
    at.parent.mkdir(parents=True, exist_ok=True)
    trace = "".join(line + "\n" for line in session.trace)
    texts = {".gvr": session.scenario(), ".trace": trace, ".svg": drawn(trace)}
    files = [(at.parent / (at.name + kind), text) for kind, text in texts.items() if text]
    for file, text in files:
        file.write_text(text)
    return [str(file) for file, _ in files]


def drawn(trace: str) -> str:
    """The picture of a trace; nothing where the tool that draws it is not there."""
    try:
        return picture_of(trace)
    except OSError:
        return ""


# What a test asks of its trace


def trace() -> List[str]:
    """The lines of the run that is under way, so far; else of the last one."""
    session = Session.current or _last
    if session is None:
        raise AssertionError("there is no trace: no test has run in virtual time")
    return list(session.trace)


def assert_order(*wanted: Wanted) -> None:
    """That the trace so far has these lines in this order, whatever stands between them. A line is told by its first
    words, `"wake g1"`, or in parts, among them greenlets and objects: `("park", worker, "acquire", lock)`."""
    lines, at = trace(), 0
    for number, each in enumerate(wanted):
        words = " ".join(map(word, each)) if isinstance(each, tuple) else each
        found = [place for place, line in enumerate(lines, 1) if f"{line} ".startswith(f"{words} ")]
        behind = [place for place in found if place > at]
        if not behind:
            raise AssertionError(missing(words, found, at, lines))
        at = behind[0]


def word(part: Part) -> str:
    """A part of a line: a greenlet by its number, an object by its name, all else as it is."""
    number = getattr(part, "number", None)
    if number is not None:
        return f"g{number}"
    name = getattr(part, "_name", None)
    return str(part if name is None else name)


def missing(words: str, found: List[int], at: int, lines: List[str]) -> str:
    if not found:
        return f"the trace has no line `{words}`"
    behind = f"line {at}, `{lines[at - 1]}`"
    return f"the trace has no line `{words}` behind {behind}: the last one is line {found[-1]}"
