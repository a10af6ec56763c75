"""What the adapters in Python share: values, faults, expressions, the record of events, and the loop over trees.

An adapter reads trees as JSON lines on standard input and writes events as JSON lines (docs/BESIDE.md). Values are those
of the model: None, bool, int, Fault, G, J and flat tuples; value_text is the model's spelling.
"""
import argparse
import gc
import json
import os
import queue
import signal
import sys
from typing import Any, Callable, Dict, List, Mapping, Protocol, TextIO, Type

from ...model import G, J, Fault, Raised, Value, job_outcome, kind_of, same, value_text
from ...model.expressions import INTEGERS, OUTCOMES, Expressions
from ...model.values import catches

__all__ = ['Budget', 'Err', 'Evaluator', 'Fault', 'G', 'InvalidSwitch', 'J', 'Log', 'PLAIN', 'Unsupported', 'Value', 'catches',
           'job_outcome', 'kind_of', 'serve', 'serve_options', 'truth', 'value_text']

MOST_RUNS = 400              # then the process ends, and the kit starts another
LEFT: List[object] = []      # what runs left behind: parked greenlets would be thrown into if they were collected


class Err(Exception):
    """The scenario's Error N."""

    def __init__(self, n: int) -> None:
        super().__init__(n)
        self.n = n


class InvalidSwitch(Exception):
    """A switch to a greenlet of another host."""


class Unsupported(BaseException):
    """The runtime has no counterpart; the run is void."""


class Budget(BaseException):
    """The run is out of its moves."""


PLAIN: Dict[str, Type[BaseException]] = {
    'Empty': queue.Empty, 'Full': queue.Full, 'ValueError': ValueError, 'RuntimeError': RuntimeError, 'TypeError': TypeError,
    'OverflowError': OverflowError, 'ZeroDivisionError': ZeroDivisionError, 'InvalidSwitch': InvalidSwitch}


class Log:
    """The events of one run."""

    def __init__(self) -> None:
        self.events: List[Dict[str, Any]] = []

    def __call__(self, ev: str, **fields: Any) -> None:
        fields['ev'] = ev
        self.events.append(fields)

    def write(self, out: TextIO) -> None:
        out.write(''.join(json.dumps(event, separators=(',', ':')) + '\n' for event in self.events))


class Runtime(Protocol):
    """What only the runtime knows."""

    def query_handle(self, form: str, handle: Any) -> Value:
        """ready, successful, value or exception of a greenlet or a job."""

    def query_object(self, form: str, name: str) -> Value:
        """isset, counter, qsize, unfinished or members of an object."""


def truth(value: Value) -> bool:
    """The value, which has to be a truth value."""
    if not isinstance(value, bool):
        raise TypeError
    return value


class Evaluator:
    """Expressions over the local names of one body."""

    def __init__(self, runtime: Runtime) -> None:
        self.runtime = runtime

    def __call__(self, e: List[Any], names: Mapping[str, Value], me: int) -> Value:
        """The value of an expression in greenlet `me`; what the model raises as a fault is raised as its exception."""
        form = e[0]
        if form in ('int', 'name', 'fault', 'none', 'true', 'false', 'self'):
            return leaf(e, names, me)
        if form in ('and', 'or'):
            first = truth(self(e[1], names, me))
            return first if first == (form == 'or') else truth(self(e[2], names, me))
        if form in ('isset', 'counter', 'qsize', 'unfinished', 'members'):
            return self.runtime.query_object(form, e[1])
        operands = e[1] if form == 'list' else e[1:]
        return self.operated(form, tuple([self(x, names, me) for x in operands]))

    def operated(self, form: str, values: 'tuple[Value, ...]') -> Value:
        if form in OUTCOMES:
            if not isinstance(values[0], (G, J)):
                raise TypeError
            return self.runtime.query_handle(form, values[0])
        if form in ('==', '!='):
            return same(values[0], values[1]) == (form == '==')
        if form == 'not':
            return not truth(values[0])
        try:
            if form in INTEGERS:
                return Expressions.counted(form, values[0], values[1])
            return Expressions.listed(form, values)
        except Raised as raised:
            raise PLAIN[raised.fault.kind] from None


def leaf(e: List[Any], names: Mapping[str, Value], me: int) -> Value:
    """An expression without operands."""
    form = e[0]
    if form == 'int':
        return int(e[1])
    if form == 'name':
        return names.get(e[1])
    if form == 'fault':
        return Fault(e[1], e[2])
    return G(me) if form == 'self' else {'none': None, 'true': True, 'false': False}[form]


class Served(Protocol):
    """The options of every adapter."""

    fork: bool
    cpu: int


def serve_options(parser: argparse.ArgumentParser) -> None:
    """The options that every adapter has."""
    parser.add_argument('--moves', type=int, default=20000, help='at most so many moves in a run')
    parser.add_argument('--cpu', type=int, default=5, help='at most so many seconds of computing in a run')


def forked(run_one: Callable[[Any, TextIO], object], tree: Any, seconds: int) -> None:
    """One run in a process of its own."""
    out = sys.stdout
    out.flush()
    pid = os.fork()
    if pid == 0:
        code = 1
        try:
            signal.alarm(seconds)
            LEFT.append(run_one(tree, out))
            code = 0
        finally:
            out.flush()
            os._exit(code)
    _, status = os.waitpid(pid, 0)
    if status:
        out.write(json.dumps({'ev': 'died', 'status': status}) + '\n')


def serve(run_one: Callable[[Any, TextIO], object], options: Served) -> None:
    """Read trees from standard input, a line each, and run them one after another in this process; those with native
    threads, and all of them with options.fork, in a fork of their own. run_one writes the events and gives what has to
    be kept alive."""
    out = sys.stdout
    gc.disable()
    for runs, line in enumerate(iter(sys.stdin.readline, ''), 1):
        tree = json.loads(line)
        if options.fork or any(o['kind'] == 'native' for o in tree['objects']):
            forked(run_one, tree, options.cpu * 3)
        else:
            signal.setitimer(signal.ITIMER_VIRTUAL, options.cpu)          # its signal ends the process
            LEFT.append(run_one(tree, out))
            signal.setitimer(signal.ITIMER_VIRTUAL, 0)
        is_last = runs == MOST_RUNS
        out.write('{"ev":"over","last":true}\n' if is_last else '{"ev":"over"}\n')
        out.flush()
        if is_last:
            break
    out.flush()
    os._exit(0)
