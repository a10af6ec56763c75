"""Group and Pool."""
from queue import Full as QueueFull
from typing import Any, Callable, Dict, Iterable, Iterator, KeysView, List, Optional, Tuple, Type

from ..live.errors import GreenletExit
from ..live.tasks import Task
from ._base import Deadline, Thing, Unsupported, name_of, session, timed
from .greenlet import MOST_LIST, Exit, Greenlet, getcurrent, joinall, killall, with_fault

Callback = Optional[Callable[[Any], Any]]


class PoolFull(QueueFull):
    """A Pool is full, and one was to be added without waiting."""


class _Mapping:
    """What gevent's groups and thread pools have of maps."""

    def spawn(self, func: Callable[..., Any], *args: Any, **kwargs: Any) -> Greenlet:
        raise NotImplementedError

    def map(self, func: Callable[[Any], Any], iterable: Iterable[Any]) -> List[Any]:
        raise NotImplementedError

    def _apply_immediately(self) -> bool:
        """A member that applies calls at once: it could wait for itself."""
        return False

    def apply(self, func: Callable[..., Any], args: Optional[Tuple[Any, ...]] = None,
              kwds: Optional[Dict[str, Any]] = None) -> Any:
        if self._apply_immediately():
            return func(*(args or ()), **(kwds or {}))
        return self.spawn(func, *(args or ()), **(kwds or {})).get()

    def apply_cb(self, func: Callable[..., Any], args: Optional[Tuple[Any, ...]] = None,
                 kwds: Optional[Dict[str, Any]] = None, callback: Callback = None) -> Any:
        result = self.apply(func, args, kwds)
        if callback is not None:
            Greenlet.spawn(callback, result)
        return result

    def apply_async(self, func: Callable[..., Any], args: Optional[Tuple[Any, ...]] = None,
                    kwds: Optional[Dict[str, Any]] = None, callback: Callback = None) -> Greenlet:
        g = self.spawn(func, *(args or ()), **(kwds or {}))
        if callback is not None:
            called = callback
            g.link_value(lambda done: called(done.value))
        return g

    def map_cb(self, func: Callable[[Any], Any], iterable: Iterable[Any], callback: Callback = None) -> List[Any]:
        result = self.map(func, iterable)
        if callback is not None:
            callback(result)
        return result

    def map_async(self, func: Callable[[Any], Any], iterable: Iterable[Any], callback: Callback = None) -> Greenlet:
        return Greenlet.spawn(self.map_cb, func, iterable, callback)

    def imap(self, func: Callable[..., Any], *iterables: Iterable[Any], **kwargs: Any) -> Iterator[Any]:
        """In order. Not the machine's: a greenlet spawns the members, and each result is got."""
        return self._imap(func, zip(*iterables), True, kwargs.pop('maxsize', None))

    def imap_unordered(self, func: Callable[..., Any], *iterables: Iterable[Any], **kwargs: Any) -> Iterator[Any]:
        return self._imap(func, zip(*iterables), False, kwargs.pop('maxsize', None))

    def _imap(self, func: Callable[..., Any], calls: Iterable[Tuple[Any, ...]], in_order: bool,
              maxsize: Optional[int]) -> Iterator[Any]:
        from .queue import Queue
        done = Queue(maxsize)

        def feed() -> None:
            count = 0
            for args in calls:
                g = self.spawn(func, *args)
                count += 1
                if in_order:
                    done.put(g)
                else:
                    g.link(done.put)
            done.put(_Count(count))
        Greenlet.spawn(feed)
        return _Results(done)


class _Count:
    """How many results there are, at last."""

    def __init__(self, count: int) -> None:
        self.count = count

    def __repr__(self) -> str:
        return 'the count %d' % self.count


class _Results:
    """The results of an imap, one by one."""

    def __init__(self, done: Any) -> None:
        self._done, self._got = done, 0
        self._count: Optional[int] = None

    def __iter__(self) -> '_Results':
        return self

    def __next__(self) -> Any:
        while self._got != self._count:
            g = self._done.get()
            if isinstance(g, _Count):
                self._count = g.count
            else:
                self._got += 1
                return g.get()
        raise StopIteration

    next = __next__


class Group(Thing, _Mapping):
    """Greenlets that were spawned elsewhere and added are no members for the machine: they are joined and killed beside
    these. A Pool, which counts its places, takes none."""
    greenlet_class: Type[Greenlet] = Greenlet
    _kind = 'group'
    size: Optional[int] = None

    def __init__(self, *args: Any) -> None:
        super().__init__()
        greenlets: Iterable[Greenlet] = args[0] if args else ()
        for g in greenlets:
            self.add(g)

    def _begin(self) -> None:
        self._all: Dict[Greenlet, None] = {}
        self._guests: List[Greenlet] = []

    # ---------------------------------------------------------------- members

    def _alive(self) -> List[Greenlet]:
        self._name
        for g in [g for g in self._all if g.ready()]:
            del self._all[g]
        return list(self._all)

    def start(self, greenlet: Greenlet, *args: Any, **kwargs: Any) -> None:
        if greenlet.number is not None:
            self.add(greenlet)
            greenlet.start()
            return
        greenlet._make('gspawn %s {}' % self._name)
        greenlet._started = True
        self._all[greenlet] = None

    def add(self, greenlet: Greenlet) -> None:
        alive = self._alive()
        if greenlet.number is None:
            self.start(greenlet)
        elif self.size is not None:
            raise Unsupported('Pool.add of a greenlet that was spawned outside of it: the pool spawns it itself')
        elif greenlet not in alive and not greenlet.ready():
            self._guests.append(greenlet)
            self._all[greenlet] = None

    def discard(self, greenlet: Greenlet) -> None:
        alive = self._alive()
        if greenlet in self._guests:
            self._guests.remove(greenlet)
            self._all.pop(greenlet, None)
        elif greenlet in alive:
            raise Unsupported('Group.discard of a member that has not ended')

    def spawn(self, *args: Any, **kwargs: Any) -> Greenlet:
        g = self.greenlet_class(*args, **kwargs)
        self.start(g)
        return g

    @property
    def greenlets(self) -> KeysView[Greenlet]:
        return dict.fromkeys(self._alive()).keys()

    def __len__(self) -> int:
        members = int(self._ask('members'))
        return members + sum(not g.ready() for g in self._guests)

    def __bool__(self) -> bool:
        return True

    def __iter__(self) -> Iterator[Greenlet]:
        return iter(self._alive())

    def __contains__(self, greenlet: Greenlet) -> bool:
        self._name
        return greenlet in self._all and not greenlet.ready()

    def full(self) -> bool:
        return False

    def wait_available(self, timeout: Optional[float] = None) -> Optional[int]:
        return None

    # ---------------------------------------------------------------- waits

    def join(self, timeout: Optional[float] = None, raise_error: bool = False) -> bool:
        """Waits until it is empty; whether it is."""
        members, deadline = self._alive(), Deadline(timeout)
        self._say('gjoin', timed(True, timeout))
        while any(not g.ready() for g in self._guests) and not deadline.passed():
            joinall(self._alive(), deadline.left())
        for g in members if raise_error else ():
            if g.exception is not None:
                raise g.exception
        return timeout is None or len(self) == 0

    def kill(self, exception: Exit = GreenletExit, block: bool = True, timeout: Optional[float] = None) -> None:
        """Kills all, and waits, at most for the timeout."""
        if timeout is None and not self._guests:
            self._say('gkill', with_fault(exception) + ('' if block else ' now'))
            return
        members = self._alive()
        killall(members, exception, block=False)
        if block:
            joinall(members, timeout)

    def killone(self, greenlet: Greenlet, exception: Exit = GreenletExit, block: bool = True,
                timeout: Optional[float] = None) -> None:
        """Kills one, if it is a member."""
        if greenlet in self:
            greenlet.kill(exception, block, timeout)

    # ---------------------------------------------------------------- maps

    def _apply_immediately(self) -> bool:
        return getcurrent() in self

    def map(self, func: Callable[[Any], Any], iterable: Iterable[Any]) -> List[Any]:
        items = list(iterable)
        if len(items) > MOST_LIST:
            members = [self.spawn(func, x) for x in items]
            joinall(members)
            return [g.get() for g in members]
        current = session()
        function = current.record.map_function(name_of(func), len(items))
        made = []
        for body, item in zip(function.choices.values(), items):
            g = Greenlet(func, item)
            g._started = True
            made.append(g)
            current.by_body[body] = Task(body, g._life, g)
        self._name
        self._all.update(dict.fromkeys(made))
        numbers = ''.join(' %d' % n for n in range(len(items)))
        try:
            found: List[Any] = current.say('map %s %s list %d%s' % (self._name, function.name, len(items), numbers),
                                           True)
            return found
        finally:
            for g in made:
                if g.number is None:
                    self._all.pop(g, None)


class Pool(Group):
    """A Group with places."""

    def __init__(self, size: Optional[int] = None, greenlet_class: Optional[Type[Greenlet]] = None) -> None:
        if size is not None and size < 0:
            raise ValueError('size must not be negative: %r' % (size, ))
        if size == 0:
            raise Unsupported('Pool(0): a pool of the machine has a place at least')
        self.size = size
        self._kind = 'group' if size is None else 'pool'
        super().__init__()
        if greenlet_class is not None:
            self.greenlet_class = greenlet_class

    def _rest(self) -> str:
        return '' if self.size is None else str(self.size)

    def add(self, greenlet: Greenlet, blocking: bool = True, timeout: Optional[float] = None) -> None:
        if blocking and timeout is None:
            super().add(greenlet)
        elif self.wait_available(timeout if blocking else 0) == 0:
            raise PoolFull(greenlet)
        else:
            super().add(greenlet)

    def free_count(self) -> int:
        return 1 if self.size is None else max(0, self.size - len(self))

    def full(self) -> bool:
        return self.free_count() <= 0

    def wait_available(self, timeout: Optional[float] = None) -> int:
        """Waits until a member has ended, where it is full; how many places are free."""
        deadline = Deadline(timeout)
        while self.free_count() == 0 and not deadline.passed():
            members = self._alive()
            if len(members) > MOST_LIST:
                raise Unsupported('wait_available of a full Pool of more than %d: spawn waits for a place' % MOST_LIST)
            joinall(members, deadline.left(), count=1)
        return self.free_count()
