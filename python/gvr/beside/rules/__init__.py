"""Rules: a difference is explained by the decisions of gvr that have to be turned for both sides to agree.

`sets()` has the rules of each runtime by name, `machine_with(rules)` makes a machine with some of them turned, and
explain(agrees, rules) finds the smallest set under which a difference is gone: that set is the difference's class; None
means that it is not understood yet.
"""
import importlib
from functools import lru_cache
from itertools import combinations
from typing import Callable, Dict, FrozenSet, Optional, Sequence, Tuple, Type

from . import asyncio, cancels, gevent, gevent_crews, go, trio
from .rule import Rule, Ruled

__all__ = ['Rule', 'Ruled', 'add_rules', 'explain', 'machine_with', 'meaning', 'names', 'rule', 'sets']

# In this order they are tried: of rules that stand for each other the one later in the list is kept.
GEVENT: Tuple[Type[Rule], ...] = (
    gevent.Overtake, gevent.SetServesLater, gevent.WaitYields, gevent.StaleWake, gevent.KillerFirst, gevent.SharedNotify,
    gevent.ZeroLast, gevent.ValueStays, gevent_crews.EndingOrder, gevent_crews.MapByHelper, gevent_crews.MapRaisesEarly,
    gevent_crews.OneJobMore, gevent_crews.JobLast, gevent.LostWake, gevent.LateReads, gevent_crews.JoinBeforePlace,
    gevent.QueueAlternates, gevent.MainExit, gevent.SleepFirst, gevent_crews.JoinallYields, gevent_crews.CountStops,
    gevent_crews.EndsTold, gevent_crews.LeaveByLink, gevent_crews.GkillNewcomers, gevent.KillallLate, gevent.CgetYields,
    gevent.KillerJoinsLate, gevent.NextRound, gevent.LostSet,
    gevent_crews.LooksLast, gevent_crews.KilledOnce, gevent_crews.GkillInTurn)
ASYNCIO: Tuple[Type[Rule], ...] = (gevent.StaleWake, gevent.LateReads, gevent.MainExit, *cancels.RULES, *asyncio.RULES)
TRIO: Tuple[Type[Rule], ...] = (gevent.MainExit, *cancels.RULES, *trio.RULES)
RUNTIMES: Dict[str, Tuple[Type[Rule], ...]] = {'gevent': GEVENT, 'asyncio': ASYNCIO, 'trio': TRIO,
                                             'go': tuple(go.RULES)}
RULES: Dict[str, Type[Rule]] = {each.name: each for rules in RUNTIMES.values() for each in rules}


def add_rules(module: str) -> Tuple[str, ...]:
    """Rules of an author's own: the module has them in a list RULES. Gives their names."""
    added: Sequence[Type[Rule]] = importlib.import_module(module).RULES
    RULES.update({each.name: each for each in added})
    return tuple(each.name for each in added)


def sets() -> Dict[str, Tuple[str, ...]]:
    """The names of each runtime's rules."""
    return {runtime: tuple(each.name for each in rules) for runtime, rules in RUNTIMES.items()}


def names() -> Tuple[str, ...]:
    """The names of all rules."""
    return tuple(RULES)


def rule(name: str) -> Type[Rule]:
    """The rule of this name."""
    return RULES[name]


def meaning(name: str) -> str:
    """What a rule says, in a line."""
    return RULES[name].says


@lru_cache(maxsize=4096)
def machine_with(rules: FrozenSet[str]) -> Type[Ruled]:
    """The class of a machine with these rules turned. Later rules of a list stand before earlier ones."""
    chosen = [each for each in RULES.values() if each.name in rules]
    return type('Machine', (*reversed(chosen), Ruled), {})


def explain(agrees: Callable[[FrozenSet[str]], bool], rules: Optional[Sequence[str]] = None,
            most: int = 2) -> Optional[Tuple[str, ...]]:
    """The smallest set of rules for which agrees(set) holds, or None. First all of them; if they do not do, some few:
    rules can stand in each other's way."""
    tried = sets()['gevent'] if rules is None else tuple(rules)
    if agrees(frozenset(tried)):
        needed = without(agrees, frozenset(tried), tried)
        return tuple(each for each in tried if each in needed)
    for count in range(1, most + 1):
        for some in combinations(tried, count):
            if agrees(frozenset(some)):
                return some
    return None


def without(agrees: Callable[[FrozenSet[str]], bool], kept: FrozenSet[str], some: Sequence[str]) -> FrozenSet[str]:
    """What is left of `kept` if those of `some` are left out that are not needed: all at once if none is, else those of
    its first half, then of its second."""
    less = kept - frozenset(some)
    if agrees(less):
        return less
    if len(some) == 1:
        return kept
    half = len(some) // 2
    return without(agrees, without(agrees, kept, some[:half]), some[half:])
