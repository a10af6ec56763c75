"""A greenlet of a run as the loop has it, and the handle by which the program has it."""
import contextvars
from typing import Any, Callable, List, Optional, Tuple

import greenlet as real

from .record import Body

Outcome = Tuple[str, Any]                        # ('value', v), ('fault', exception) or ('stop', cause)


class Handle:
    """What the program holds of a greenlet. number is the machine's, None until it has made it."""
    number: Optional[int] = None


class Timer:
    """What the program holds of a Timeout."""
    number: Optional[int] = None
    task: Optional['Task'] = None

    def thrown(self) -> BaseException:
        """What is raised when it comes."""
        raise NotImplementedError


class Task:
    """One greenlet: what it recorded, the function that it runs, its handle, its Python greenlet."""

    def __init__(self, body: Body, function: Optional[Callable[..., Any]], handle: Optional[Handle]) -> None:
        self.body, self.function, self.handle = body, function, handle
        self.real: Optional[real.greenlet] = None
        self.outcome: Optional[Outcome] = None
        self.ended_at = 0                        # which line of the trace says so
        self.timeouts: List[Timer] = []          # those under way, from outside in
        self.context = contextvars.copy_context()
        self.begins_with: Any = None             # the value of the switch that begins a raw greenlet
