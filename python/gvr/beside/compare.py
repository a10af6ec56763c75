"""What is done with one scenario, in whichever process: compare, explain, minimise. All of it can be pickled."""
import threading
from typing import Any, Dict, FrozenSet, List, NamedTuple, Optional, Sequence, Tuple

from ..model import Scenario
from . import generate
from .events import Difference, Run, outcome, void
from .minimise import size, smallest
from .rules import add_rules, explain, meaning
from .sides import Adapter, Gvr, Limits, Sides, checked

Class = Tuple[str, ...]

TRIES = 3                         # so many of a class's candidates are minimised
MOST = 400                        # so many texts are tried for each


class Task(NamedTuple):
    """Which runtime stands beside which gvr, what is intended, and which rules may explain."""

    words: Tuple[str, ...]
    rules: Tuple[str, ...]
    intended: FrozenSet[str] = frozenset()
    limits: Limits = Limits()
    program: Optional[str] = None
    modules: Tuple[str, ...] = ()             # that have rules of an author's own


class Part(NamedTuple):
    """Some seeds of a profile."""

    profile: str
    zero: bool
    low: int
    high: int
    themes: Tuple[str, ...] = ()

    def scenarios(self) -> List[Tuple[str, str]]:
        """(name, text) of each seed that makes a scenario."""
        made = [(seed, generate.text(seed, self.profile, self.zero, self.themes)) for seed in range(self.low, self.high)]
        kind = '-'.join([self.profile, *self.themes] + (['zero'] if self.zero else []))
        return [('%s/%d' % (kind, seed), text) for seed, text in made if text is not None]


class Verdict(NamedTuple):
    """What was found of one scenario: `same`, `different`, or why it is void."""

    name: str
    kind: str
    level: str = ''                           # the first at which it differs
    rules: Optional[Class] = None             # of one that differs: what explains it; None if nothing does
    text: str = ''                            # of one that differs

    def is_unexplained(self) -> bool:
        return self.kind == 'different' and self.rules is None


class Answer(NamedTuple):
    """The verdicts of a part, and what adapters that died under way said."""

    part: Part
    verdicts: List[Verdict]
    deaths: List[str]


class Local(threading.local):
    """The sides that this thread has already: an adapter serves many scenarios."""

    def __init__(self) -> None:
        self.sides: Dict[Task, Sides] = {}


LOCAL = Local()


def sides_of(task: Task) -> Sides:
    """The two sides of a task, made when this thread first wants them."""
    if task not in LOCAL.sides:
        for module in task.modules:
            add_rules(module)
        LOCAL.sides[task] = Sides(Adapter(task.words), Gvr(task.limits, task.program), task.intended)
    return LOCAL.sides[task]


def close_sides() -> None:
    """End the adapters of this thread."""
    for sides in LOCAL.sides.values():
        sides.theirs.close()
    LOCAL.sides.clear()


def verdicts(task: Task, sides: Sides, named: Sequence[Tuple[str, str]]) -> List[Verdict]:
    """What comes of each scenario, (name, text)."""
    read = [(name, text, checked(text)) for name, text in named]
    models = [[] if scenario is None else sides.model(text, scenario) for _, text, scenario in read]
    wanted = [i for i, (_, _, scenario) in enumerate(read) if scenario is not None and not void(models[i])]
    theirs = dict(zip(wanted, sides.theirs.run_all([each for i, (_, _, each) in enumerate(read) if i in set(wanted) and each])))
    found = []
    for i, (name, text, scenario) in enumerate(read):
        if scenario is None:
            found.append(Verdict(name, 'refused'))
        elif i not in theirs or void(theirs[i]):
            found.append(Verdict(name, 'void: %s' % void(theirs.get(i, models[i]))))
        else:
            found.append(compared(task, sides, Both(name, text, scenario, theirs[i], models[i])))
    return found


class Both(NamedTuple):
    """A scenario with both its runs."""

    name: str
    text: str
    scenario: Scenario
    theirs: Run
    model: Run


def compared(task: Task, sides: Sides, both: Both) -> Verdict:
    """Compare both runs, and explain their difference."""
    difference = Difference(both.theirs, both.model)
    if not difference:
        return Verdict(both.name, 'same')

    def agrees(rules: FrozenSet[str]) -> bool:
        return not Difference(both.theirs, sides.model(both.text, both.scenario, rules))
    rules = None if task.program else explain(agrees, task.rules)
    return Verdict(both.name, 'different', difference.levels[0], rules, both.text)


def compare(task: Task, part: Part) -> Answer:
    """The verdicts of a part's scenarios."""
    sides = sides_of(task)
    before = len(sides.theirs.deaths)
    found = verdicts(task, sides, part.scenarios())
    return Answer(part, found, sides.theirs.deaths[before:])


def differs(sides: Sides, text: str, rules: Sequence[str]) -> Optional[Difference]:
    """How the runtime differs from the model under these rules; None if one of the runs is void."""
    scenario = checked(text)
    if scenario is None:
        return None
    model = sides.model(text, scenario, rules)
    theirs = [] if void(model) else sides.theirs.run(text, scenario)
    return None if void(model) or void(theirs) else Difference(theirs, model)


def stays_in(sides: Sides, text: str, rules: Class, level: str) -> bool:
    """Whether a scenario differs at this level, and under these rules does not."""
    plain = differs(sides, text, ())
    if not plain or level not in plain.levels:
        return False
    ruled = differs(sides, text, rules)
    return ruled is not None and not ruled


def smallest_of_class(task: Task, rules: Class, candidates: Sequence[Verdict]) -> Tuple[Class, Optional[str]]:
    """The smallest scenario of a class that the first candidates lead to: the file that is kept of it, or None."""
    sides = sides_of(task)
    best: Optional[Tuple[Any, str]] = None
    for candidate in candidates[:TRIES]:
        if not stays_in(sides, candidate.text, rules, candidate.level):
            continue                                          # a runtime that varies from run to run
        text = smallest(candidate.text, lambda t: stays_in(sides, t, rules, candidate.level), MOST)
        rank = (candidate.level, size(text.split('\n')))
        if best is None or rank < best[0]:
            best = (rank, text)
    return rules, None if best is None else case(sides, rules, best[1])


def smallest_unexplained(task: Task, found: Verdict) -> Tuple[str, Optional[str]]:
    """The smallest scenario that still differs under all rules, from one that no rule explains."""
    sides = sides_of(task)

    def stays(text: str) -> bool:
        return bool(differs(sides, text, ())) and bool(differs(sides, text, task.rules))
    if not stays(found.text):
        return found.name, None
    return found.name, case(sides, (), smallest(found.text, stays, MOST))


def case(sides: Sides, rules: Class, text: str) -> str:
    """A case as a file: the scenario, with what both sides say of it as comments."""
    scenario = checked(text)
    theirs, model = sides.theirs.run(text, scenario), sides.model(text, scenario)
    difference = Difference(theirs, model)
    head = ['# %s: %s' % (rule, meaning(rule)) for rule in rules] or ['# no rule explains this']
    head += ['# runtime: ' + outcome(theirs), '# gvr:     ' + outcome(model)]
    if difference:
        head.append('# first difference, event %d: %s | gvr: %s'
                    % (difference.first, difference.their_event, difference.model_event))
    return '\n'.join(head) + '\n' + text
