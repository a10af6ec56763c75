"""The command `gvr beside`: words in, a report on standard output, a status."""
import argparse
import collections
import importlib
import json
import os
import sys
from typing import Any, Callable, Counter, Dict, FrozenSet, List, Optional, Sequence, Tuple

from .as_python import NotWritten, program
from .compare import Part, Task, Verdict, close_sides, sides_of, verdicts
from .events import LEVELS, Difference, Event, is_compared, outcome, views, void
from .generate import PROFILES, WIDE
from .hunt import Found, Hunt, Progress, cluster, parts, processes, tell_error, write
from .rules import add_rules, explain, meaning, names, sets
from .sides import ADAPTERS, Limits, Trouble, adapter_words, checked
from .tree import tree

USAGE = """A runtime beside gvr: the same scenario by gvr's model and by a real runtime, compared event by event.

    gvr beside FILE             both sides of one scenario, the first difference, and the rules that explain it
    gvr beside check FILE..     a line for each scenario; status 1 if one differs that --intended does not declare
    gvr beside hunt --from A --to B
                                generated scenarios: counts and classes; with --out DIR the smallest case of each class
    gvr beside tree FILE        the checked tree as JSON: what an adapter gets
    gvr beside python FILE      the scenario as a plain gevent program, for a report or a new pair
    gvr beside rules            the rules of the adapter, and what each says
    gvr beside FILE.py          a program for gevent: by real gevent and by gvr (docs/LIVE.md)
"""
WORDS = ('show', 'check', 'hunt', 'tree', 'python', 'rules')


def parser() -> argparse.ArgumentParser:
    """What can stand behind `gvr beside`."""
    p = argparse.ArgumentParser(prog='gvr beside', description=USAGE, formatter_class=argparse.RawDescriptionHelpFormatter)
    p.add_argument('what', choices=WORDS, help=argparse.SUPPRESS)
    p.add_argument('files', nargs='*', metavar='FILE')
    p.add_argument('--adapter', default='gevent', metavar='NAME',
                   help='gevent (the default), asyncio, trio, or "COMMAND WORDS": docs/BESIDE.md')
    p.add_argument('--options', default='', metavar='WORDS', help='options for the adapter, as "--loop libev --ms 0.02"')
    p.add_argument('--intended', default='', metavar='RULES',
                   help='rules, or the name of an adapter for all of its: what they explain is no difference')
    p.add_argument('--rules', metavar='RULES', help="rules that may explain a difference (the adapter's)")
    p.add_argument('--more-rules', default='', metavar='MODULES',
                   help='modules with rules of your own, each in a list RULES: docs/BESIDE.md')
    p.add_argument('--gvr', metavar='PATH', help='the gvr program in place of the model; no rules then')
    p.add_argument('--turns', type=int, default=Limits().turns)
    p.add_argument('--moves', type=int, default=Limits().moves)
    p.add_argument('--tick', type=int, default=0)
    hunting = p.add_argument_group('hunt')
    hunting.add_argument('--profile', choices=PROFILES, default='collide')
    hunting.add_argument('--themes', default='', metavar='THEMES', help='what the scenarios are about: sem, queue kinds, ..')
    hunting.add_argument('--zero', action='store_true', help='waits of 0 ms too')
    hunting.add_argument('--from', dest='low', type=int, default=0, metavar='SEED')
    hunting.add_argument('--to', dest='high', type=int, default=200, metavar='SEED')
    hunting.add_argument('--out', metavar='DIR', help='a folder for the smallest cases and the counts (hunt.json)')
    hunting.add_argument('--most-rules', type=int, default=1, help='classes of at most so many rules are minimised')
    hunting.add_argument('--processes', type=int, default=os.cpu_count() or 1, metavar='N')
    hunting.add_argument('--on', metavar='ADDRESS', help='a dask cluster in place of processes here; its workers need python/ on their path')
    return p


def read(path: str) -> str:
    """The text of a file."""
    try:
        with open(path, encoding='utf-8') as file:
            return file.read()
    except (OSError, UnicodeDecodeError) as error:
        raise Trouble('%s cannot be read: %s' % (path, error)) from None


def rules_named(given: str) -> Tuple[str, ...]:
    """The rules that a word of the command names: `gevent`, or `overtake,zero_last`."""
    if given in sets():
        return sets()[given]
    named = tuple(word for word in given.split(',') if word)
    for word in named:
        if word not in names():
            raise Trouble('there is no rule %s; `gvr beside rules` has them' % word)
    return named


def task_of(given: argparse.Namespace) -> Task:
    options = given.options.split()
    rules = given.rules if given.rules is not None else given.adapter if given.adapter in sets() else 'gevent'
    limits = Limits(given.turns, given.moves, given.tick)
    words = tuple(adapter_words(given.adapter, options))
    modules = tuple(word for word in given.more_rules.split(',') if word)
    try:
        more = tuple(name for module in modules for name in add_rules(module))
    except (ImportError, AttributeError) as error:
        raise Trouble('--more-rules: %s' % error) from None
    intended = frozenset(rules_named(given.intended))
    return Task(words, rules_named(rules) + more, intended, limits, given.gvr, modules)


def one_file(given: argparse.Namespace) -> str:
    if len(given.files) != 1:
        raise Trouble('%s takes one FILE' % given.what)
    return str(given.files[0])


# ------------------------------------------------------------ show


def columns(difference: Difference, name: str) -> List[str]:
    """Both sides, a line for each event, `>` where they differ, with the scenario's line."""
    left, right = views(difference.theirs).c, views(difference.model).c
    lines = [event.get('line') for event in difference.theirs if is_compared(event)]
    width = max([len(x) for x in left] + [len(name), 10])
    out = ['%-*s   %s' % (width, name, 'gvr')]
    for i in range(max(len(left), len(right))):
        a, b = left[i] if i < len(left) else '', right[i] if i < len(right) else ''
        line = lines[i] if i < len(lines) and a != b else None
        out.append(('%-*s %s%s%s' % (width, a, '  ' if a == b else '> ', b,
                                     '   (line %d)' % line if line else '')).rstrip())
    return out


def line_of(events: List[Event], at: int) -> Optional[int]:
    """The line of the scenario at which the event of this number stands, or the last before it of the same greenlet."""
    compared = [event for event in events if is_compared(event)]
    if at >= len(compared):
        return None
    greenlet = compared[at].get('g')
    for event in reversed(compared[:at + 1]):
        if event.get('g') == greenlet and event.get('line'):
            return int(event['line'])
    return None


def told_difference(difference: Difference, name: str, text: str) -> List[str]:
    """The first difference, with the lines at which both stand, and the levels."""
    out = ['first difference: %s has `%s`, gvr has `%s`' % (name, difference.their_event, difference.model_event)]
    for who, events in ((name, difference.theirs), ('gvr', difference.model)):
        at = line_of(events, difference.first)
        if at is not None:
            out.append('  %s at line %d: %s' % (who, at, text.split('\n')[at - 1].strip()))
    return out + ['differs in: ' + ', '.join(LEVELS[level] for level in difference.levels)]


def show(given: argparse.Namespace) -> int:
    """Both sides of one scenario."""
    path = one_file(given)
    text, task = read(path), task_of(given)
    scenario = checked(text)
    if scenario is None:
        raise Trouble('%s is refused: `gvr run %s` says why' % (path, path))
    sides = sides_of(task)
    theirs, model = sides.theirs.run(text, scenario), sides.model(text, scenario)
    difference = Difference(theirs, model)
    name = given.adapter if given.adapter in ADAPTERS else 'runtime'
    print('\n'.join(columns(difference, name)))
    print('\n%s: %s\ngvr: %s' % (name, outcome(theirs), outcome(model)))
    nothing = void(theirs) or void(model)
    if nothing:
        print('no comparison: ' + why_void(nothing, theirs, sides.theirs.deaths))
        return 0 if nothing != 'died' else 1
    if not difference:
        print('the same')
        return 0
    print('\n'.join(told_difference(difference, name, text)))

    def agrees(rules: FrozenSet[str]) -> bool:
        return not Difference(theirs, sides.model(text, scenario, rules))
    print('\n'.join(told_rules(None if given.gvr else explain(agrees, task.rules), bool(given.gvr))))
    return 1


def told_rules(rules: Optional[Sequence[str]], by_program: bool) -> List[str]:
    if by_program:
        return ['rules explain a difference only without --gvr']
    if rules is None:
        return ['no rule explains it']
    return ['rule %s: %s' % (rule, meaning(rule)) for rule in rules]


def why_void(nothing: str, theirs: List[Event], deaths: Sequence[str]) -> str:
    if nothing == 'unsupported':
        return 'the runtime has no counterpart of ' + ', '.join(sorted({str(e['what']) for e in theirs
                                                                        if e['ev'] == 'unsupported'}))
    if nothing == 'died':
        return 'the adapter died: ' + '; '.join(deaths)
    return 'a run is out of its budget: ' + nothing


def under_gevent(words: Sequence[str]) -> int:
    """A Python program, with the words beside it, is gvr.live's."""
    try:
        comparing: Any = importlib.import_module('gvr.live.under_gevent')
    except ImportError as error:
        raise Trouble('a Python program needs gvr.live: %s' % error) from None
    return int(comparing.main(words))


# ------------------------------------------------------------ check, hunt, and the small ones


def said_of(found: Verdict) -> str:
    """What `check` says of a scenario."""
    if found.kind != 'different':
        return found.kind
    return 'differs in %s: %s' % (LEVELS[found.level], 'no rule explains it' if found.rules is None else ' '.join(found.rules))


def check(given: argparse.Namespace) -> int:
    """A line for each scenario; 1 if one differs, is refused, or ends the adapter."""
    task = task_of(given)
    sides = sides_of(task)
    counts: Counter[str] = collections.Counter()
    for path in given.files:
        deaths = len(sides.theirs.deaths)
        found = verdicts(task, sides, [(path, read(path))])[0]
        for death in sides.theirs.deaths[deaths:]:
            tell_error('%s: the adapter died and was started anew: %s' % (path, death))
        counts[found.kind] += 1
        print('%-44s %s' % (os.path.basename(path), said_of(found)), flush=True)
    print(', '.join('%d %s' % (count, kind) for kind, count in sorted(counts.items())))
    return 1 if any(counts[kind] for kind in ('different', 'refused', 'void: died')) else 0


def told_found(found: Found) -> List[str]:
    """A hunt's counts and classes."""
    counts = found.as_json()['counts']
    out = ['%d scenarios: %s' % (len(found.names), ', '.join('%d %s' % (n, kind) for kind, n in counts.items()))]
    for rules, count in found.most_common():
        levels = ', '.join('%s %d' % (LEVELS[level], n) for level, n in sorted(found.levels[rules].items()))
        out.append('%6d  %-50s %s' % (count, ' '.join(rules) or '(intended)', levels))
    out.append('%6d  no rule explains it' % len(found.unexplained))
    return out + ['        ' + x.name for x in sorted(found.unexplained)[:40]]


def hunt(given: argparse.Namespace) -> int:
    """Generated scenarios."""
    task = task_of(given)
    if given.low >= given.high:
        raise Trouble('--from has to be less than --to')
    themes = tuple(word for word in given.themes.split(',') if word)
    unknown = [theme for theme in themes if theme not in WIDE]
    if unknown:
        raise Trouble('there is no theme %s; there are %s' % (unknown[0], ', '.join(WIDE)))
    make, workers = cluster(given.on) if given.on else (processes(given.processes), given.processes)
    hunting = Hunt(task, make, workers, tell_error)
    progress = Progress(given.high - given.low, sys.stderr)
    try:
        found = hunting.run(parts(Part(given.profile, given.zero, given.low, given.high, themes)), progress)
        progress.over()
        print('\n'.join(told_found(found)))
        print('in %.0f s, %.0f a second, by %d at a time' % (progress.passed(), progress.rate(found), workers), flush=True)
        if given.out:
            write(given.out, found, {})
            write(given.out, found, hunting.cases(given.most_rules))
    finally:
        hunting.close()
    return 0


def show_tree(given: argparse.Namespace) -> int:
    print(json.dumps(tree(scenario_text(one_file(given)))))
    return 0


def show_python(given: argparse.Namespace) -> int:
    path = one_file(given)
    title = os.path.splitext(os.path.basename(path))[0]
    try:
        print(program(scenario_text(path), title), end='')
    except NotWritten as error:
        raise Trouble('%s cannot be written as a gevent program: %s' % (path, error)) from None
    return 0


def scenario_text(path: str) -> str:
    """The text of a scenario that is not refused."""
    text = read(path)
    if checked(text) is None:
        raise Trouble('%s is refused: `gvr run %s` says why' % (path, path))
    return text


def show_rules(given: argparse.Namespace) -> int:
    for rule in rules_named(given.rules or (given.adapter if given.adapter in sets() else 'gevent')):
        print('%-20s %s' % (rule, meaning(rule)))
    return 0


DOES: Dict[str, Callable[[argparse.Namespace], int]] = {
    'show': show, 'check': check, 'hunt': hunt, 'tree': show_tree, 'python': show_python, 'rules': show_rules}


def main(words: Optional[Sequence[str]] = None) -> int:
    """The command; its status: 0 the same, 1 a difference, 2 a word that is wrong, 3 a trouble that is told."""
    given_words = list(sys.argv[1:] if words is None else words)
    is_show = bool(given_words) and given_words[0] not in (*WORDS, '-h', '--help')
    try:
        if is_show and any(word.endswith('.py') and before != '--adapter' for before, word in zip([''] + given_words, given_words)):
            return under_gevent(given_words)
        given = parser().parse_intermixed_args((['show'] if is_show else []) + given_words or ['--help'])
        return DOES[given.what](given)
    except Trouble as trouble:
        tell_error(str(trouble))
        return 3
    except KeyboardInterrupt:
        return 130
    finally:
        close_sides()
