"""What the parts of the façade share: times, names, objects."""
import linecache
import re
from types import CodeType
from typing import Any, Callable, Dict, Optional, Tuple

from ..live.errors import Unsupported as Unsupported
from ..live.places import program_frame
from ..live.session import Session, session as session

MOST_MS = 1000000000
NAMES = re.compile(r'\s*((?:[\w.]+\s*,\s*)*[\w.]+)\s*(?::[^=]*)?=[^=]')
_made_outside: Dict[Tuple[CodeType, int], int] = {}


def ms(seconds: float) -> int:
    """Whole milliseconds, up to the next one."""
    count = max(0, -int(-(seconds * 1000 - 1e-6) // 1))
    if count > MOST_MS:
        raise Unsupported('a time of more than 1000000 seconds')
    return count


def timed(block: bool, timeout: Optional[float]) -> str:
    """What a statement says behind it: nothing, `within MS` or `now`."""
    if not block:
        return ' now'
    return '' if timeout is None else ' within %d' % ms(timeout)


class Deadline:
    """A timeout over several waits."""

    def __init__(self, timeout: Optional[float]) -> None:
        self.until = None if timeout is None else session().moment + ms(timeout)

    def left(self) -> Optional[float]:
        """The seconds that are left, None for ever."""
        return None if self.until is None else max(0, self.until - session().moment) / 1000

    def passed(self) -> bool:
        return self.until is not None and session().moment >= self.until


def hint(fallback: str) -> str:
    """The name that the program's line gives to what it makes: `tasks = Queue()`, `self.tasks = ..`,
    `a, b = Event(), Event()`."""
    frame = program_frame()
    if frame is None:
        return fallback
    match = NAMES.match(linecache.getline(frame.f_code.co_filename, frame.f_lineno))
    if not match:
        return fallback
    names = [n.strip().split('.')[-1] for n in match.group(1).split(',')]
    made = Session.current.made_at if Session.current is not None else _made_outside
    at = (frame.f_code, frame.f_lineno)
    made[at] = made.get(at, -1) + 1
    return names[made[at] % len(names)]


def name_of(function: Callable[..., Any]) -> str:
    return str(getattr(function, '__name__', type(function).__name__)).strip('<>')


class Thing:
    """An object of the machine. One that is made in a run is declared there at once; one that was made before, a global
    of the program that is tested, in each run by the first call that needs it."""
    _kind = ''
    _session: Optional[Session] = None
    _declared = ''

    def __init__(self, fallback: str = '') -> None:
        self._hint = hint(fallback or type(self).__name__.lower())
        if Session.current is not None:
            self._declare(Session.current)

    def _rest(self) -> str:
        """What its declaration says behind the name."""
        return ''

    def _begin(self) -> None:
        """What the façade keeps of it, as it is at the beginning of a run."""

    def _declare(self, current: Session) -> None:
        self._session = current
        self._declared = current.declare(self._kind, self._hint, self._rest())
        self._begin()

    @property
    def _name(self) -> str:
        current = session()
        if self._session is not current:
            self._declare(current)
        return self._declared

    def _say(self, word: str, rest: str = '', gives: bool = False) -> Any:
        """A statement on it alone."""
        return session().say('%s %s%s' % (word, self._name, rest), gives)

    def _ask(self, word: str) -> Any:
        """A number that the machine knows of it."""
        return session().say('let v %s %s' % (word, self._name), True)

    def _say_value(self, word: str, value: Any, rest: str = '') -> None:
        """A statement with a value."""
        current = session()
        text, uses = current.words.encode(value)
        current.say('%s %s %s%s' % (word, self._name, text, rest), uses=uses)
