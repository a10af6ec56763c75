"""Greenlets: spawn, join, get, kill, link, and what is known of one that ended."""
import itertools
from typing import Any, Callable, Dict, Iterable, Iterator, List, Optional, Sequence, Set, Tuple, Type, Union

from ..live.errors import GreenletExit
from ..live.session import Session
from ..live.tasks import Task
from ._base import Deadline, Unsupported, ms, name_of, session, timed
from .raw import exception_of, getcurrent as getcurrent, greenlet

MOST_LIST = 64
Exit = Union[BaseException, Type[BaseException]]
_serials = itertools.count(1)


class Greenlet(greenlet):
    """A greenlet of the run. The machine makes it at the first call that needs it."""

    def __init__(self, run: Optional[Callable[..., Any]] = None, *args: Any, **kwargs: Any) -> None:
        self.number, self.args, self.kwargs = None, args, kwargs
        if run is not None:
            vars(self)['_run'] = run
        self._links: List[Tuple[Callable[[Any], Any], int]] = []
        self._started = False
        self._serial = next(Session.current.serials if Session.current is not None else _serials)

    def __hash__(self) -> int:
        """A set of greenlets has the same order in each run."""
        return self._serial

    def __eq__(self, other: object) -> bool:
        return self is other

    # ---------------------------------------------------------------- begin

    def _life(self) -> Any:
        return self._run(*self.args, **self.kwargs)

    def _run(self, *args: Any, **kwargs: Any) -> Any:
        raise NotImplementedError

    def _make(self, statement: str) -> None:
        function = name_of(self._run) if '_run' in vars(self) else type(self).__name__
        session().make(statement, self._life, function, self)

    def _made(self) -> int:
        """The machine knows it; its number."""
        if self.number is None:
            self._make('new {}')
        assert self.number is not None
        return self.number

    def start(self) -> None:
        if self.number is None:
            self._make('spawn {}')
        elif not self._started:
            session().say('start g%d' % self.number, uses=(self.number,))
        self._started = True

    def start_later(self, seconds: float) -> None:
        if self.number is not None:
            raise Unsupported('start_later of a greenlet that was linked, joined or killed before')
        self._make('spawnlater %d {}' % ms(seconds))
        self._started = True

    @classmethod
    def spawn(cls, *args: Any, **kwargs: Any) -> 'Greenlet':
        g = cls(*args, **kwargs)
        g.start()
        return g

    @classmethod
    def spawn_later(cls, seconds: float, *args: Any, **kwargs: Any) -> 'Greenlet':
        g = cls(*args, **kwargs)
        g.start_later(seconds)
        return g

    # ---------------------------------------------------------------- what is known

    def ready(self) -> bool:
        return self.dead

    def _outcome(self) -> Tuple[str, Any]:
        task = self._task
        return task.outcome if task is not None and task.outcome is not None else ('none', None)

    def successful(self) -> bool:
        kind, value = self._outcome()
        return kind == 'value' or isinstance(value, GreenletExit)

    @property
    def value(self) -> Any:
        return self._outcome()[1] if self.successful() else None

    @property
    def exception(self) -> Optional[BaseException]:
        kind, value = self._outcome()
        return value if kind == 'fault' and not isinstance(value, GreenletExit) else None

    @property
    def exc_info(self) -> Tuple[Any, ...]:
        e = self.exception
        return (type(e), e, e.__traceback__) if e is not None else ()

    @property
    def started(self) -> bool:
        return self._started and not self.ready()

    def __bool__(self) -> bool:
        return self._started and not self.ready()

    @property
    def minimal_ident(self) -> Optional[int]:
        return self.number

    @property
    def name(self) -> str:
        return str(vars(self).get('_named', 'Greenlet-%s' % self.number))

    @name.setter
    def name(self, name: str) -> None:
        vars(self)['_named'] = name

    def __repr__(self) -> str:
        return '<%s g%s>' % (type(self).__name__, self.number) if self.number is not None else \
            '<%s, not made>' % type(self).__name__

    # ---------------------------------------------------------------- waits

    def join(self, timeout: Optional[float] = None) -> None:
        number = self._made()
        session().say('join g%d%s' % (number, timed(True, timeout)), uses=(number,))

    def get(self, block: bool = True, timeout: Optional[float] = None) -> Any:
        number = self._made()
        session().say('get g%d%s' % (number, timed(block, timeout)), True, (number,))
        return self._outcome()[1]

    def kill(self, exception: Exit = GreenletExit, block: bool = True, timeout: Optional[float] = None) -> None:
        number = self._made()
        session().say('kill g%d%s%s' % (number, with_fault(exception), timed(block, timeout)), uses=(number,))

    def throw(self, *args: Any) -> None:
        self.kill(exception_of(*args), block=False)

    # ---------------------------------------------------------------- links

    def _link(self, word: str, callback: Callable[[Any], Any]) -> None:
        number, current = self._made(), session()
        body = current.record.link_function(name_of(callback), number)
        caller = Greenlet(callback, self)
        caller._started = True
        current.by_body[body] = Task(body, caller._life, caller)
        link = current.say('%s g%d %s' % (word, number, body.name), True, (number,))
        self._links.append((callback, link))

    def link(self, callback: Callable[[Any], Any], SpawnedLink: Any = None) -> None:
        self._link('link', callback)

    def link_value(self, callback: Callable[[Any], Any], SpawnedLink: Any = None) -> None:
        self._link('linkvalue', callback)

    def link_exception(self, callback: Callable[[Any], Any], SpawnedLink: Any = None) -> None:
        self._link('linkfault', callback)

    def rawlink(self, callback: Callable[[Any], Any]) -> None:
        """As a link: what it calls runs as a greenlet."""
        self._link('link', callback)

    def unlink(self, callback: Callable[[Any], Any]) -> None:
        for link in self._links:
            if link[0] == callback:
                self._links.remove(link)
                session().say('unlink %d' % link[1])
                return

    def unlink_all(self) -> None:
        for callback, _ in list(self._links):
            self.unlink(callback)

    def has_links(self) -> bool:
        return bool(self._links)


class MainGreenlet(Greenlet):
    """The greenlet that runs the program."""

    def __init__(self) -> None:
        super().__init__()
        self._started = True


def with_fault(exception: Exit) -> str:
    """What a kill says behind the greenlet: nothing for GreenletExit."""
    if isinstance(exception, type):
        exception = exception()
    return '' if isinstance(exception, GreenletExit) else ' with ' + session().words.fault(exception)


def handles(greenlets: Sequence[Greenlet]) -> Tuple[str, List[int]]:
    """`list N g1 g2 ..`, and the numbers in it."""
    numbers = [g._made() for g in greenlets]
    return 'list %d%s' % (len(numbers), ''.join(' g%d' % n for n in numbers)), numbers


# -------------------------------------------------------------------- waits for several

def _ready(greenlets: Iterable[Greenlet]) -> Set[Greenlet]:
    return {g for g in greenlets if g.ready()}


def _in_order(done: Sequence[Greenlet], before: Set[Greenlet]) -> List[Greenlet]:
    """Those that were ready before stand first, as they stood; the others as they ended."""
    def moment(g: Greenlet) -> int:
        task = g._task
        return 0 if g in before or task is None else task.ended_at
    return sorted(done, key=moment)


def _joined(greenlets: Sequence[Greenlet], timeout: Optional[float], count: Optional[int]) -> List[Greenlet]:
    """The statement: those that have ended then, as they stand in the list."""
    text, uses = handles(greenlets)
    enough = '' if count is None else ' count %d' % count
    done: List[Greenlet] = session().say('joinall %s%s%s' % (text, enough, timed(True, timeout)), True, uses)
    return done


def joinall(greenlets: Iterable[Greenlet], timeout: Optional[float] = None, raise_error: bool = False,
            count: Optional[int] = None) -> List[Greenlet]:
    """Waits for all, or for count of them; those that have ended, in the order in which they did."""
    some = list(greenlets)
    if raise_error:
        return list(_raising(iwait(some, timeout, count)))
    before = _ready(some)
    if len(some) <= MOST_LIST:
        return _in_order(_joined(some, timeout, count), before)[:count]
    if count is not None:
        raise Unsupported('joinall with count of more than %d greenlets' % MOST_LIST)
    deadline, done = Deadline(timeout), []       # type: Deadline, List[Greenlet]
    for at in range(0, len(some), MOST_LIST):
        done += _joined(some[at:at + MOST_LIST], deadline.left(), None)
    return _in_order(done, before)


def _raising(done: Iterable[Greenlet]) -> Iterator[Greenlet]:
    for g in done:
        if g.exception is not None:
            raise g.exception
        yield g


def iwait(objects: Iterable[Any], timeout: Optional[float] = None, count: Optional[int] = None) -> Iterator[Any]:
    """One by one as they end."""
    some = list(objects)
    waiters = _waiters(some)
    origin = {w: o for w, o in zip(waiters, some)}
    deadline, given, before = Deadline(timeout), 0, _ready(waiters)
    while waiters and given != count:
        if len(waiters) > MOST_LIST:
            raise Unsupported('iwait of more than %d objects' % MOST_LIST)
        done = _in_order(_joined(waiters, deadline.left(), 1), before)
        if not done:
            return
        for g in done:
            waiters.remove(g)
            given += 1
            yield origin[g]
            if given == count:
                return


def _waiters(objects: List[Any]) -> List[Greenlet]:
    """A greenlet for each: itself, or one that waits for it."""
    return [o if isinstance(o, Greenlet) else Greenlet.spawn(o.wait) for o in objects]


def wait(objects: Optional[Iterable[Any]] = None, timeout: Optional[float] = None,
         count: Optional[int] = None) -> List[Any]:
    """Waits for greenlets, events, results and semaphores; those that are ready, in the order in which they were."""
    if objects is None:
        raise Unsupported('gevent.wait() without objects: join what is to end')
    some = list(objects)
    waiters = _waiters(some)
    origin: Dict[Greenlet, Any] = dict(zip(waiters, some))
    return [origin[g] for g in joinall(waiters, timeout, count=count)]


def killall(greenlets: Iterable[Greenlet], exception: Exit = GreenletExit, block: bool = True,
            timeout: Optional[float] = None) -> None:
    """Kills all, and waits for their ends; raises Timeout where they don't come in time, as gevent does."""
    some = list(greenlets)
    if not some:
        return
    fault = with_fault(exception)
    if len(some) <= MOST_LIST:
        text, uses = handles(some)
        session().say('killall %s%s%s' % (text, fault, timed(block, timeout)), uses=uses)
    else:
        for at in range(0, len(some), MOST_LIST):
            text, uses = handles(some[at:at + MOST_LIST])
            session().say('killall %s%s now' % (text, fault), uses=uses)
        if block:
            joinall(some, timeout)
    if block and timeout is not None and not all(g.ready() for g in some):
        from .timeout import Timeout
        raise Timeout(timeout)
