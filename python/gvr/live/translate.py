"""Values and exceptions of the program, and the words of the machine that stand for them."""
import queue
from typing import Any, Dict, NamedTuple, Optional, Sequence, Tuple

from .errors import GreenletExit, InvalidSwitchError, LoopExit
from .record import Body, Statement
from .tasks import Handle, Task, Timer
from .values import MOST_INT, PLAIN, Codes, split_list

UNSPOKEN = ('Timeout', 'LoopExit', 'ShutDown', 'InvalidSwitch')      # kinds that no expression says
KINDS: Dict[str, type] = {
    'ValueError': ValueError, 'RuntimeError': RuntimeError, 'TypeError': TypeError, 'OverflowError': OverflowError,
    'ZeroDivisionError': ZeroDivisionError, 'GreenletExit': GreenletExit, 'LoopExit': LoopExit,
    'Empty': queue.Empty, 'Full': queue.Full, 'InvalidSwitch': InvalidSwitchError,
    'ShutDown': getattr(queue, 'ShutDown', queue.Full)}
MESSAGES = {
    ('LoopExit', ''): 'This operation would block forever',
    ('RuntimeError', 'release'): 'cannot release un-acquired lock',
    ('ValueError', 'release'): 'Semaphore released too many times',
    ('ValueError', 'qdone'): 'task_done() called too many times',
    ('ValueError', 'setparent'): 'cyclic parent chain',
    ('InvalidSwitch', 'switch'): 'cannot switch to a greenlet of another host',
    ('InvalidSwitch', 'throw'): 'cannot switch to a greenlet of another host'}


class Known(NamedTuple):
    """An exception that was made from a fault of the machine."""
    exception: BaseException
    text: str
    statement: Optional[Statement]
    body: Optional[Body]

    @property
    def is_unspoken(self) -> bool:
        return self.text.startswith(UNSPOKEN)


class Translator:
    """The table, the timeouts that were opened, and the exceptions that came from the machine."""

    def __init__(self, tasks: Dict[int, Task]) -> None:
        self.codes, self.tasks = Codes(), tasks
        self.timers: Dict[int, Timer] = {}
        self.timer_count = 0
        self._known: Dict[int, Known] = {}

    def encode(self, value: Any) -> Tuple[str, Sequence[int]]:
        """The word for a value, and the numbers of the greenlets that it names."""
        if value is None or value is True or value is False:
            return str(value).lower(), ()
        if type(value) is int and 0 <= value <= MOST_INT:
            return str(value), ()
        if isinstance(value, Handle) and value.number is not None:
            return 'g%d' % value.number, (value.number,)
        return '-%d' % self.codes.number(value), ()

    def decode(self, text: str) -> Any:
        if text in PLAIN:
            return PLAIN[text]
        first = text[0]
        if first == '-':
            return self.codes.entries[int(text[1:])]
        if first.isdigit():
            return int(text)
        if first == 'g':
            return self.tasks[int(text[1:])].handle
        if first == '[':
            return [self.decode(t) for t in split_list(text)]
        return self.exception(text, None, None)

    def known(self, exception: BaseException) -> Optional[Known]:
        found = self._known.get(id(exception))
        return found if found is not None and found.exception is exception else None

    def fault(self, exception: BaseException) -> str:
        """The expression that stands for an exception."""
        known = self.known(exception)
        if known is not None and not known.is_unspoken:
            return known.text
        if isinstance(exception, GreenletExit):
            return 'GreenletExit'
        return 'Error %d' % self.codes.number(exception)

    def exception(self, text: str, statement: Optional[Statement], body: Optional[Body]) -> BaseException:
        """The exception that a fault of the machine is."""
        made: BaseException
        if text.startswith('Error('):
            kept: BaseException = self.codes.entries[int(text[6:-1])]
            return kept
        if text.startswith('Timeout('):
            made = self.timer(int(text[8:-1])).thrown()
        else:
            kind = KINDS[text]
            word = statement.text.split(' ', 1)[0] if statement is not None else ''
            message = MESSAGES.get((text, word)) or MESSAGES.get((text, ''))
            made = kind(message) if message else kind()
        if not isinstance(made, GreenletExit) or statement is not None:
            self._known[id(made)] = Known(made, text, statement, body)
        found: BaseException = made
        return found

    def opened(self, timer: Timer) -> None:
        """The machine draws the next number for a Timeout of the program."""
        self.timer_count += 1
        timer.number = self.timer_count
        self.timers[self.timer_count] = timer

    def timer(self, number: int) -> Timer:
        """The Timeout with a number; one that a `get` drew is made here."""
        if number not in self.timers:
            from ..gevent.timeout import Timeout
            self.timer_count = max(self.timer_count, number)
            timer = self.timers[number] = Timeout()
            timer.number = number
        return self.timers[number]
