"""print as a statement: what is printed stands in the table, its number in the trace."""
import builtins
import io
import re
from typing import Any, Callable

import greenlet as real

from .session import Session

PLAIN = re.compile(r'(0|[1-9][0-9]{0,11})\Z')


class Printer:
    """print of a program. It writes as Python's does, and says so to the run."""

    def __init__(self) -> None:
        self.real: Callable[..., None] = builtins.print

    def __call__(self, *args: Any, sep: Any = ' ', end: Any = '\n', file: Any = None, flush: bool = False) -> None:
        if file is None:
            self._say(args, ' ' if sep is None else sep)
        self.real(*args, sep=sep, end=end, file=file, flush=flush)

    def _say(self, args: Any, sep: str) -> None:
        current = Session.current
        task = current.by_real.get(real.getcurrent()) if current is not None else None
        if current is None or task is None or current.stopped is not None or task.body.ended:
            return
        buffer = io.StringIO()
        self.real(*args, sep=sep, end='', file=buffer)
        text = buffer.getvalue()
        value = int(text) if PLAIN.match(text) else text
        current.say('print ' + current.words.encode(value)[0])
