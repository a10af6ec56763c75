"""The two sides: gvr by its model or its program, and a runtime behind its adapter."""
import importlib.util
import json
import os
import shlex
import subprocess
import sys
import tempfile
import threading
from functools import lru_cache
from typing import IO, FrozenSet, Iterable, List, NamedTuple, Optional, Sequence, Tuple

from ..model import IndexedMachine, Line, Refused, Scenario, ScriptWorld, read
from .events import Event, Run, from_trace
from .rules import machine_with
from .tree import tree_of

PACKAGES = os.path.dirname(os.path.dirname(os.path.dirname(os.path.abspath(__file__))))
ADAPTERS = {'gevent': 'gevent', 'asyncio': 'asyncio', 'trio': 'trio'}       # name: the module that it needs
NO_RULES: FrozenSet[str] = frozenset()
PATIENCE = 60.0                   # seconds of true time for an answer
TOGETHER = 30000                  # bytes of trees that are sent together: less than a pipe holds


class Trouble(Exception):
    """What the command tells on standard error before it ends."""


@lru_cache(maxsize=1024)                  # a hunt asks when it makes a scenario, and again when it runs it
def checked(text: str) -> Optional[Scenario]:
    """The checked scenario, or None if it is refused."""
    try:
        return read(text.encode())
    except Refused:
        return None


class Limits(NamedTuple):
    """How far gvr runs, and how its clock moves."""

    turns: int = 20000
    moves: int = 20000
    tick: int = 0

    def words(self) -> List[str]:
        """The options of `gvr run`."""
        words = ['--turns', str(self.turns), '--moves', str(self.moves)]
        return words + (['--tick', str(self.tick)] if self.tick else [])


def limits_of(text: str, given: Limits = Limits()) -> Limits:
    """The limits that the scenario's first line, `# run WORDS`, names; for others those that are given."""
    first = text.split('\n', 1)[0]
    if not first.startswith('# run '):
        return given
    words = shlex.split(first[len('# run '):])
    named = dict(zip(words, words[1:]))
    turns, moves, tick = (named.get(word, '') for word in ('--turns', '--moves', '--tick'))
    return Limits(int(turns) if turns.isdigit() else given.turns, int(moves) if moves.isdigit() else given.moves,
                  int(tick) if tick.isdigit() else given.tick)


class Gvr:
    """gvr: the model in this process, with any rules turned, or the program at a path, without rules."""

    def __init__(self, limits: Limits = Limits(), program: Optional[str] = None) -> None:
        self.limits, self.program = limits, program

    def trace(self, text: str, scenario: Optional[Scenario] = None, rules: FrozenSet[str] = NO_RULES) -> List[Line]:
        """The trace's lines."""
        limits = limits_of(text, self.limits)
        if self.program and not rules:
            return self.by_program(text, limits)
        lines: List[Line] = []
        world = ScriptWorld(limits.tick)
        world.begin(1)
        machine = machine_with(rules) if rules else IndexedMachine
        machine(scenario or read(text.encode()), limits.turns, limits.moves, world, lines.append).go()
        return lines

    def by_program(self, text: str, limits: Limits) -> List[Line]:
        command = [str(self.program), 'run', *limits.words()]
        try:
            ended = subprocess.run(command, input=text, text=True, stdout=subprocess.PIPE, stderr=subprocess.DEVNULL)
        except OSError as error:
            raise Trouble('the program %s does not start: %s' % (self.program, error)) from None
        return [Line(line) for line in ended.stdout.splitlines()]

    def run(self, text: str, scenario: Optional[Scenario] = None, rules: FrozenSet[str] = NO_RULES) -> Run:
        """The run as events."""
        return from_trace(self.trace(text, scenario, rules))


def has_module(python: str, module: str) -> bool:
    if python == sys.executable:
        return importlib.util.find_spec(module) is not None
    asked = [python, '-c', 'import importlib.util as u, sys; sys.exit(u.find_spec(sys.argv[1]) is None)', module]
    try:
        return subprocess.run(asked, cwd='/', stderr=subprocess.DEVNULL).returncode == 0
    except OSError:
        return False


def interpreter(module: str) -> Optional[str]:
    """The Python that has this module: the one that GVR_PYTHON names, this one, or the first of python3 on the path
    and /usr/bin/python3; None if none has it."""
    named = os.environ.get('GVR_PYTHON')
    candidates = [named] if named else [sys.executable, 'python3', '/usr/bin/python3']
    return next((python for python in candidates if has_module(python, module)), None)


def adapter_words(name: str, options: Sequence[str] = ()) -> List[str]:
    """The command of an adapter: one that stands here by its name, or the words of any other program."""
    if name not in ADAPTERS:
        return shlex.split(name) + list(options)
    python = interpreter(ADAPTERS[name])
    if python is None:
        raise Trouble('the adapter %s needs a Python that has %s, and none was found; GVR_PYTHON may name it'
                      % (name, ADAPTERS[name]))
    return [python, '-m', 'gvr.beside.adapters.' + name, *options]


class Adapter:
    """A program that reads trees and writes events: it is started when it is first wanted, and anew if it ends."""

    def __init__(self, words: Sequence[str], patience: float = PATIENCE) -> None:
        self.words, self.patience = list(words), patience
        self.process: Optional['subprocess.Popen[str]'] = None
        self.complaints: Optional[IO[str]] = None
        self.has_answered = False
        self.deaths: List[str] = []                       # what each that died said last

    def start(self) -> 'subprocess.Popen[str]':
        path = os.pathsep.join(x for x in (PACKAGES, os.environ.get('PYTHONPATH', '')) if x)
        self.complaints = tempfile.TemporaryFile('w+')
        try:
            self.process = subprocess.Popen(self.words, stdin=subprocess.PIPE, stdout=subprocess.PIPE, text=True,
                                            stderr=self.complaints, env=dict(os.environ, PYTHONPATH=path))
        except OSError as error:
            self.complaints.close()
            raise Trouble('the adapter does not start: %s' % error) from None
        return self.process

    def run(self, text: str, scenario: Optional[Scenario] = None) -> Run:
        """The run as events; the last is `died` if the adapter ended under way."""
        return self.run_all([scenario or read(text.encode())])[0]

    def run_all(self, scenarios: Sequence[Scenario]) -> List[Run]:
        """The runs of these scenarios. Some are sent together; those that an adapter which ends leaves are sent anew."""
        trees = [json.dumps(tree_of(scenario), separators=(',', ':')) + '\n' for scenario in scenarios]
        runs: List[Run] = []
        while len(runs) < len(trees):
            count, size = 1, len(trees[len(runs)])
            while len(runs) + count < len(trees) and size + len(trees[len(runs) + count]) < TOGETHER:
                size += len(trees[len(runs) + count])
                count += 1
            runs += self.answers(trees[len(runs):len(runs) + count])
        return runs

    def answers(self, trees: List[str]) -> List[Run]:
        """The runs of the first of these trees: all, or those up to the one at which the adapter ended."""
        process = self.process or self.start()
        timer = threading.Timer(self.patience, process.kill)
        timer.start()
        try:
            assert process.stdin is not None
            process.stdin.write(''.join(trees))
            process.stdin.flush()
            return self.heard(process, len(trees))
        except BrokenPipeError:
            return [[self.died()]]
        finally:
            timer.cancel()

    def heard(self, process: 'subprocess.Popen[str]', count: int) -> List[Run]:
        assert process.stdout is not None
        runs: List[Run] = []
        events: Run = []
        for line in process.stdout:
            event = self.event_of(line)
            if event['ev'] != 'over':
                events.append(event)
                continue
            self.has_answered = True
            runs.append(events)
            events = []
            if event.get('last'):                         # it wants to be started anew
                self.close()
                return runs
            if len(runs) == count:
                return runs
        return runs + [events + [self.died()]]

    def event_of(self, line: str) -> Event:
        try:
            event = json.loads(line)
        except ValueError:
            event = None
        if not isinstance(event, dict) or 'ev' not in event:
            self.close()
            raise Trouble('the adapter wrote a line that is no event: %r' % line[:200])
        return event

    def died(self) -> Event:
        status, said = self.close()
        if not self.has_answered:
            raise Trouble('the adapter ended with status %d before it answered: %s\n%s'
                          % (status, ' '.join(self.words), said))
        self.deaths.append('status %d; it said last: %s' % (status, said.split('\n')[-1] if said else 'nothing'))
        return {'ev': 'died', 'status': status}

    def close(self) -> Tuple[int, str]:
        """End it; its status, and the last that it said on standard error."""
        if self.process is None:
            return 0, ''
        process, self.process = self.process, None
        assert process.stdin is not None and process.stdout is not None and self.complaints is not None
        for stream in (process.stdin, process.stdout):
            try:
                stream.close()
            except BrokenPipeError:
                pass
        try:
            status = process.wait(5)
        except subprocess.TimeoutExpired:
            process.kill()
            status = process.wait()
        self.complaints.seek(0)
        said = self.complaints.read()[-2000:].strip()
        self.complaints.close()
        return status, said


def adapter(name: str, *options: str) -> Adapter:
    """The adapter of this name, with these options."""
    return Adapter(adapter_words(name, options))


class Sides(NamedTuple):
    """A runtime beside gvr, and the rules that are declared as intended."""

    theirs: Adapter
    gvr: Gvr
    intended: FrozenSet[str] = NO_RULES

    def model(self, text: str, scenario: Optional[Scenario], rules: Iterable[str] = ()) -> Run:
        return self.gvr.run(text, scenario, self.intended | frozenset(rules))
