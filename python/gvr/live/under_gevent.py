"""A Python program under real gevent and under gvr: ./gvr beside PROGRAM.py [argument..]

  --runs N     under gevent N times (3 if it is left out)
  --scale K    each of gevent's timers takes K times as long, so that what is computed on the way counts for little

Shows whether both print the same: always, in some runs (a race: it goes by the real time), or in none; then the first
line that differs, gvr's trace before it, and the rules by which gevent decides otherwise, where some explain it.
Status 0 if the output and the status were the same in every run, 1 if in some, 9 if in none.
"""
import json
import os
import subprocess
import sys
import tempfile
from collections import Counter
from typing import Dict, List, NamedTuple, Optional, Sequence, Tuple

LIMIT = 60                                       # seconds that gevent has for a run
Output = Tuple[Tuple[str, ...], Optional[int]]   # the lines, and the status; None where the time was not enough


class Asked(NamedTuple):
    """What the words of a call say."""
    command: Sequence[str]                       # the program and its arguments
    runs: int = 3
    scale: float = 1


class Ran(NamedTuple):
    """A run under gvr."""
    output: Output
    trace: List[str]


def environment(**more: str) -> Dict[str, str]:
    """That of this process, with this package to be found, and with one order of sets of strings."""
    root = os.path.abspath(os.path.join(os.path.dirname(__file__), os.pardir, os.pardir))
    before = os.environ.get('PYTHONPATH')
    return {**os.environ, 'PYTHONPATH': root + (os.pathsep + before if before else ''), 'PYTHONHASHSEED': '0', **more}


def call(words: Sequence[str], env: Dict[str, str], limit: Optional[float] = None) -> Output:
    """The output of a command."""
    process = subprocess.Popen(list(words), stdout=subprocess.PIPE, stderr=subprocess.DEVNULL, env=env)
    try:
        said, _ = process.communicate(timeout=limit)
        status: Optional[int] = process.returncode
    except subprocess.TimeoutExpired:
        process.kill()
        said, _ = process.communicate()
        status = None
    return tuple(said.decode('utf-8', 'replace').splitlines()), status


def under_gvr(command: Sequence[str]) -> Ran:
    """The program under gvr."""
    with tempfile.TemporaryDirectory() as folder:
        name = os.path.join(folder, 'run')
        words = [sys.executable, '-m', 'gvr.live', '--no-certificate', '--record', name, *command]
        output = call(words, environment())
        trace: List[str] = []
        if os.path.exists(name + '.trace'):
            with open(name + '.trace', encoding='ascii') as f:
                trace = f.read().splitlines()
    return Ran(output, trace)


def under_gevent(command: Sequence[str], scale: float = 1) -> Output:
    """The program under real gevent."""
    more = {} if scale == 1 else {'GEVENT_LOOP': 'gvr.live.scaled.Loop', 'GVR_SCALE': str(scale)}
    return call([sys.executable, *command], environment(**more), LIMIT)


def first_difference(ours: Sequence[str], theirs: Sequence[str]) -> Optional[int]:
    """The place of the first line in which two outputs differ."""
    for place in range(max(len(ours), len(theirs))):
        if tuple(ours[place:place + 1]) != tuple(theirs[place:place + 1]):
            return place
    return None


def rules_that_explain(command: Sequence[str], theirs: Output) -> Optional[Sequence[str]]:
    """The smallest set of rules under which gvr's machine lets the program print what gevent let it print; None if
    there is none."""
    asked = json.dumps({'command': list(command), 'lines': list(theirs[0]), 'status': theirs[1]})
    done = subprocess.run([sys.executable, '-m', 'gvr.live.explained'], input=asked, stdout=subprocess.PIPE,
                          env=environment(), universal_newlines=True, check=True)
    found: Optional[Sequence[str]] = json.loads(done.stdout)
    return found


def lines_of_difference(ran: Ran, theirs: Output) -> List[str]:
    """The first line that differs, with those before it, and with the trace."""
    ours, status = ran.output
    place = first_difference(ours, theirs[0])
    lines = []
    if place is not None:
        lines += ['    both    ' + line for line in ours[max(0, place - 2):place]]
        lines.append('    gvr     ' + (ours[place] if place < len(ours) else '(no more)'))
        lines.append('    gevent  ' + (theirs[0][place] if place < len(theirs[0]) else '(no more)'))
        lines += trace_before(ran.trace, place)
    if status != theirs[1]:
        told = 'more than %d seconds' % LIMIT if theirs[1] is None else str(theirs[1])
        lines.append('    status  %s under gvr, %s under gevent' % (status, told))
    return lines


def trace_before(trace: List[str], place: int) -> List[str]:
    """The lines of the trace up to the print that stands at this place of the output, if it is a line each."""
    prints = [at for at, line in enumerate(trace) if line.startswith('print ')]
    end = prints[place] + 1 if place < len(prints) else len(trace)
    return ['  the trace of gvr before it:'] + ['    ' + line for line in trace[max(0, end - 8):end]]


def report(asked: Asked) -> int:
    """Runs both, says what came of it; the status."""
    ran = under_gvr(asked.command)
    seen = Counter(under_gevent(asked.command, asked.scale) for _ in range(asked.runs))
    same = seen[ran.output]
    kind = 'the same' if same == asked.runs else 'differs in some runs: a race' if same else 'differs'
    print('%s: %d of %d runs of gevent print what the run of gvr prints' % (kind, same, asked.runs))
    for theirs, count in seen.most_common():
        if theirs == ran.output:
            continue
        print('\n%d of %d:' % (count, asked.runs))
        print('\n'.join(lines_of_difference(ran, theirs)))
        print('\n'.join(explanation(asked, theirs, bool(same))))
    return 0 if same == asked.runs else 1 if same else 9


def explanation(asked: Asked, theirs: Output, is_race: bool) -> List[str]:
    """The rules by which gevent decides otherwise, each with what it says."""
    from ..beside.rules import meaning
    rules = rules_that_explain(asked.command, theirs)
    if rules is None:
        why = 'the order went by the real time' if is_race else 'it may go by the real time: try --scale 4'
        return ['  no rule explains it; ' + why]
    return ['  rule %s: %s (docs/FROM_GEVENT.md)' % (rule, meaning(rule)) for rule in rules]


def asked_of(words: Sequence[str]) -> Asked:
    """Reads the words of a call; raises ValueError."""
    rest, runs, scale = list(words), 3, 1.0
    while rest and rest[0].startswith('--'):
        word = rest.pop(0)
        if word not in ('--runs', '--scale') or not rest:
            raise ValueError('%s: no option, or nothing behind it' % word)
        value = float(rest.pop(0))
        runs, scale = (int(value), scale) if word == '--runs' else (runs, value)
    if not rest or runs < 1:
        raise ValueError('no program' if not rest else 'no runs')
    return Asked(rest, runs, scale)


def main(words: Sequence[str]) -> int:
    """The command."""
    if list(words[:1]) in (['--help'], ['-h']):
        sys.stdout.write(__doc__ or '')
        return 0
    try:
        asked = asked_of(words)
    except ValueError as e:
        sys.stderr.write('gvr beside: %s\n%s' % (e, __doc__))
        return 2
    if call([sys.executable, '-c', 'import gevent'], environment())[1] != 0:
        sys.stderr.write('gvr beside: gevent is not installed: apt-get install python3-gevent\n')
        return 2
    return report(asked)


if __name__ == '__main__':
    sys.exit(main(sys.argv[1:]))
