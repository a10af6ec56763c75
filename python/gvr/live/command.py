"""The command: ./gvr live [options] PROGRAM [argument..]"""
import os
import subprocess
import sys
from typing import Callable, Dict, List, NamedTuple, Optional, Sequence, Type

from . import places, waits
from .by_model import by_model
from .certificate import CERTIFIED, by_program, certify, find_program, limit, take_over
from .decider import Decider, Options
from .errors import LoopExit, NotCertified, Refused
from .program import Program, own_words, run_program
from .record import Record
from .session import Session
from .stepped import Driven, Stepped
from .tasks import Outcome

USAGE = """usage: ./gvr live [options] PROGRAM.py [argument..]
Runs PROGRAM, written for gevent, with gvr deciding every order, in virtual time.

  --record NAME        writes the scenario of the run to NAME.gvr and its trace to NAME.trace
  --trace              writes the trace to standard error
  --picture NAME.svg   draws the trace
  --turns N, --moves N, --tick N   as `gvr run` has them
  --seed N             seeds random (0 if it is left out)
  --no-prints          what the program prints is not in the trace
  --no-certificate     the proved program does not run the record at the end

Where the program's first line is `# run OPTIONS`, these stand before the others. The last line on standard error says
`certified by the proved program`, or why not. Status: the program's; 6 if a budget is spent, 8 past a limit of the
machine, 9 if the proved program says otherwise than the run.
"""
NOT_BUILT = 'a model in Python decided, which nothing proves, and the proved program is not built (./build makes it)'
FLAGS = ('--trace', '--no-prints', '--no-certificate')
NAMES = ('--record', '--picture', '--rules')       # --rules is for ./gvr beside: rules of gvr.beside that are turned
NUMBERS = ('--turns', '--moves', '--tick', '--seed')


class Usage(Exception):
    """The words are no call of the command."""


class Call(NamedTuple):
    """What the words of a call say."""
    program: Program
    trace: bool
    record: Optional[str]
    picture: Optional[str]
    certificate: bool

    def shows_trace(self) -> bool:
        """Whether anybody sees the trace, whose last line has the counts of the record."""
        return self.trace or self.record is not None or self.picture is not None


def call_of(words: Sequence[str]) -> Call:
    """Reads the words of a call; raises Usage."""
    rest, flags = list(words), set()
    values: Dict[str, str] = {}
    while rest and rest[0].startswith('--'):
        word = rest.pop(0)
        if word in FLAGS:
            flags.add(word)
        elif word in NAMES + NUMBERS and rest:
            values[word] = rest.pop(0)
        else:
            raise Usage('%s: no option, or nothing behind it' % word)
    if not rest:
        raise Usage('no program')
    for word in NUMBERS:
        if not values.get(word, '0').isdigit():
            raise Usage('%s: %s is no number' % (word, values[word]))
    numbers = {word[2:]: int(values[word]) for word in NUMBERS if word in values}
    seed = numbers.pop('seed', 0)
    program = Program(rest[0], rest[1:], Options(**numbers), seed, '--no-prints' not in flags,
                      turned(values['--rules']) if '--rules' in values else None)
    return Call(program, '--trace' in flags, values.get('--record'), values.get('--picture'),
                '--no-certificate' not in flags)


def turned(rules: str) -> Callable[[Record, Options], Decider]:
    """A decider by a machine in which these rules of gvr.beside are turned."""
    from ..beside.rules import machine_with
    machine: Type[Driven] = type('Turned', (Driven, machine_with(frozenset(rules.split(',')))), {})
    return lambda record, options: Stepped(record, options, machine)


def main(words: Sequence[str]) -> int:
    """Runs the command; its status."""
    if list(words[:1]) in (['--help'], ['-h']):
        sys.stdout.write(USAGE)
        return 0
    try:
        call = call_of([*own_words(list(words)), *words])
    except (Usage, OSError) as e:
        sys.stderr.write('gvr live: %s\n%s' % (e, USAGE))
        return 2
    session, outcome = run_program(call.program)
    sys.stdout.flush()
    status = tell_outcome(session, outcome)
    verdict, status = certificate(call, session, status)
    write_files(call, session)
    sys.stderr.write(verdict + '\n')
    return status


def tell_outcome(session: Session, outcome: Outcome) -> int:
    """Says how main ended, where not by a value; the status."""
    kind, value = outcome
    if kind == 'value':
        return 0
    if kind == 'stop':
        budget = str(value).startswith(('stop no-turns', 'stop no-moves'))
        sys.stderr.write('gvr live: %s\n' % value)
        tell(waits.who_spun(session) if budget else waits.at_limit(session))
        return 6 if budget else 8
    if isinstance(value, SystemExit):
        if value.code is None or isinstance(value.code, int):
            return value.code or 0
        sys.stderr.write('%s\n' % value.code)
        return 1
    places.print_traceback(value)
    if isinstance(value, LoopExit):
        sys.stderr.write('nobody can go on:\n')
        tell(waits.who_waits(session))
    else:
        tell(waits.about_fault(session, value))
    return 1


def tell(lines: List[str]) -> None:
    sys.stderr.write(''.join('  %s\n' % line for line in lines))


def certificate(call: Call, session: Session, status: int) -> 'tuple[str, int]':
    """The last line on standard error, and the status."""
    program = find_program() if call.certificate else None
    try:
        if program is None:
            if call.shows_trace():
                take_over(session, by_model(session.options))
            return 'not certified: ' + (NOT_BUILT if call.certificate else '--no-certificate'), status
        certify(session, by_program(program, session.options.words()))
    except Refused as e:
        return 'not certified: ' + limit(session.spelt(), e), status
    except (NotCertified, OSError) as e:
        return 'not certified: %s' % e, 9
    return CERTIFIED, status


def write_files(call: Call, session: Session) -> None:
    """The record, the trace and the picture, as they are wanted."""
    trace = '\n'.join(session.trace) + '\n'
    if call.record is not None:
        for name, text in ((call.record + '.gvr', session.scenario()), (call.record + '.trace', trace)):
            with open(name, 'w', encoding='ascii') as f:
                f.write(text)
    if call.trace:
        sys.stderr.write(trace)
    if call.picture is not None:
        with open(call.picture, 'w', encoding='utf-8') as f:
            f.write(picture_of(trace))


def picture_of(trace: str) -> str:
    """The trace, drawn by tools/trace_picture of the checkout."""
    root = os.path.abspath(os.path.join(os.path.dirname(__file__), *[os.pardir] * 3))
    tool = os.path.join(root, 'tools', 'trace_picture')
    done = subprocess.run([sys.executable, tool], input=trace, stdout=subprocess.PIPE, stderr=subprocess.PIPE,
                          universal_newlines=True)
    if done.returncode != 0:
        raise OSError('%s: %s' % (tool, done.stderr.strip()))
    return done.stdout


def start() -> None:
    """The command, in a process in which sets of strings have the same order each time."""
    if 'PYTHONHASHSEED' not in os.environ:
        os.execve(sys.executable, [sys.executable, '-m', 'gvr.live', *sys.argv[1:]],
                  dict(os.environ, PYTHONHASHSEED='0'))
    status = main(sys.argv[1:])
    sys.stdout.flush()
    sys.stderr.flush()
    os._exit(status)                             # greenlets that wait are left where they are
