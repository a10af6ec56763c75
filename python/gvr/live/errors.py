"""What a run raises: gevent's own exceptions that the machine throws, and what the package has besides."""
import greenlet as real

GreenletExit = real.GreenletExit                 # gevent's is greenlet's


class LoopExit(Exception):
    """This operation would block forever"""
    __module__ = 'gevent.exceptions'             # as a traceback names it


class InvalidSwitchError(AssertionError):
    """A switch to a greenlet of another host."""
    __module__ = 'gevent.exceptions'


class Unsupported(NotImplementedError):
    """The program asks for what no statement of the machine says."""


class Refused(Exception):
    """The record of a run is no scenario: it is past a limit of the language. line is the record's, from 1."""

    def __init__(self, line: int, reason: str) -> None:
        super().__init__('line %d: %s' % (line, reason))
        self.line, self.reason = line, reason


class NotCertified(Exception):
    """The record of a run has another trace than the run had, or its statements gave something else."""


class RunStopped(BaseException):
    """The run has stopped before its main ended: by a budget or a limit."""
