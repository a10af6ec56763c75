"""A record that is too long for the language is folded: statements that come again and again stand in a `while`.

    qput q 0                     let again 0
    print 5                      while < again 3
    qput q 1                       qput q + 0 again
    print 5                        print 5
    qput q 2                       let again + again 1
    print 5                      end

The trace is the same; the loop has some moves more.
"""
import re
from typing import List, NamedTuple, Optional, Sequence, Tuple

from .record import Place

NUMBER = re.compile(r'(0|-?[1-9][0-9]*)\Z')
# Where the value stands that may go up or down from turn to turn.
VALUE_AT = {'print': 1, 'qput': 2, 'rset': 2, 'cput': 2}
MOST_PERIOD, LEAST_TURNS = 12, 4
COUNTER = 'again'


class Group(NamedTuple):
    """The lines of one statement. shape is the same for those that differ in their value alone."""
    lines: Sequence[str]
    place: Place
    shape: str
    value: int


class Loop(NamedTuple):
    """The groups of one turn, how often they come, and by how much each value grows."""
    groups: Sequence[Group]
    turns: int
    steps: Sequence[int]


def group(lines: Sequence[str], place: Place) -> Group:
    text = '\n'.join(lines)
    if len(lines) == 1:
        words = text.split()
        at = VALUE_AT.get(words[0])
        if at is not None and len(words) > at and NUMBER.match(words[at]):
            value = int(words[at])
            return Group(lines, place, ' '.join(words[:at] + ['#'] + words[at + 1:]), value)
    return Group(lines, place, text, 0)


def fold(groups: Sequence[Group]) -> List[Tuple[str, Place]]:
    """The lines, with loops for what comes again."""
    found: List[Tuple[str, Place]] = []
    at = 0
    while at < len(groups):
        loop = best_loop(groups, at)
        if loop is None:
            found += [(line, groups[at].place) for line in groups[at].lines]
            at += 1
        else:
            found += told(loop)
            at += loop.turns * len(loop.groups)
    return found


def best_loop(groups: Sequence[Group], at: int) -> Optional[Loop]:
    """The loop from here on that has the most statements."""
    best: Optional[Loop] = None
    for period in range(1, MOST_PERIOD + 1):
        if at + period >= len(groups) or groups[at + period].shape != groups[at].shape:
            continue
        first = groups[at:at + period]
        second = groups[at + period:at + 2 * period]
        steps = [b.value - a.value for a, b in zip(first, second)]
        turns = turns_of(groups, at, first, steps)
        if turns >= LEAST_TURNS and (best is None or turns * period > best.turns * len(best.groups)):
            best = Loop(first, turns, steps)
    return best


def turns_of(groups: Sequence[Group], at: int, first: Sequence[Group], steps: Sequence[int]) -> int:
    """How often the first groups come, one behind the other."""
    turns, period = 1, len(first)
    while at + (turns + 1) * period <= len(groups):
        for place in range(period):
            other = groups[at + turns * period + place]
            if other.shape != first[place].shape or other.value != first[place].value + turns * steps[place]:
                return turns
        turns += 1
    return turns


def told(loop: Loop) -> List[Tuple[str, Place]]:
    """The lines of a loop."""
    line = loop.groups[0].lines[0]
    pad, place = line[:len(line) - len(line.lstrip())], loop.groups[0].place
    lines: List[Tuple[str, Place]] = [('%slet %s 0' % (pad, COUNTER), place),
                                      ('%swhile < %s %d' % (pad, COUNTER, loop.turns), place)]
    for each, step in zip(loop.groups, loop.steps):
        if step == 0:
            lines += [('  ' + line, each.place) for line in each.lines]
        else:
            grown = COUNTER if step == 1 else '* %d %s' % (step, COUNTER)
            lines.append(('%s  %s' % (pad, each.shape.replace('#', '+ %d %s' % (each.value, grown))), each.place))
    return lines + [('%s  let %s + %s 1' % (pad, COUNTER, COUNTER), place), (pad + 'end', place)]
