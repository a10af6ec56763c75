"""What a run that stands still, spins or raises says of itself: who waits for what, at which line of the program, and
what became of the object that it waits for."""
import re
from typing import Callable, Dict, Iterator, List, NamedTuple, Optional, Tuple

from .record import Block, Body, Node, Statement
from .places import told
from .session import Session

HANDLE = re.compile(r'\bg([0-9]+)\b')


class Done(NamedTuple):
    """A statement on an object, and who made it."""
    body: Body
    statement: Statement
    word: str


def who(session: Session, number: int) -> str:
    """`g1 first`."""
    body = session.record.by_number.get(number)
    return 'g%d %s' % (number, body.name) if body is not None else 'g%d' % number


def waiting(session: Session) -> Dict[int, str]:
    """What each greenlet that has parked and not gone on waits for, as its `park` line says; and main, where it ended
    by the LoopExit that was thrown at its wait."""
    parked: Dict[int, str] = {}
    stuck: Optional[str] = None
    for line in session.trace:
        words = line.split(' ', 2)
        if words[0] == 'park':
            parked[int(words[1][1:])] = words[2]
        elif words[0] in ('wake', 'late', 'throw', 'end'):
            last = parked.pop(int(words[1][1:]), None)
            if line == 'throw g0 LoopExit':
                stuck = last
    if session.trace[-2:-1] == ['end g0 fault LoopExit'] and stuck is not None:
        parked[0] = stuck
    return parked


def who_waits(session: Session) -> List[str]:
    """For each greenlet that waits a line, and lines on what it waits for; then those that ended by a fault."""
    lines = []
    for number, wait in sorted(waiting(session).items()):
        body = session.record.by_number[number]
        at = told(body.latest.place) if body.latest is not None else ''
        lines.append('%s waits: %s%s' % (who(session, number), wait, at and '  ' + at))
        lines += ['    ' + line for line in about_wait(session, wait)]
    return lines + ended_by_faults(session)


def ended_by_faults(session: Session) -> List[str]:
    """Those that will do no more since they were killed or failed."""
    lines = []
    for number, task in sorted(session.tasks.items()):
        if number == 0 or task.outcome is None or task.outcome[0] != 'fault' or task.body.raw:
            continue
        place = told(task.body.latest.place) if task.body.latest is not None else 'before it began'
        lines.append('%s has ended by %r  %s' % (who(session, number), task.outcome[1], place))
    return lines


# -------------------------------------------------------------------- what became of an object

def history(session: Session, name: str) -> List[Done]:
    """All statements on an object that had an effect, in the order in which they were made."""
    found = [Done(body, statement, statement.text.split(' ')[0])
             for body in session.record.by_number.values() for statement in statements(body.nodes)
             if statement.text.split(' ')[1:2] == [name] and statement.fault is None and not statement.pending
             and statement.gave != 'false']
    return sorted(found, key=lambda done: done.statement.serial)


def statements(nodes: List[Node]) -> Iterator[Statement]:
    for node in nodes:
        if isinstance(node, Block):
            yield from statements(node.nodes)
        else:
            yield node


def about_wait(session: Session, wait: str) -> List[str]:
    """What is to know of the object or the greenlet that a `park` line names."""
    words = wait.split(' ')
    tell: Optional[Callable[[Session, str], List[str]]] = ABOUT.get(words[0])
    return tell(session, words[1]) if tell is not None and len(words) > 1 else []


def about_lock(session: Session, name: str) -> List[str]:
    """Who holds it."""
    held: Dict[Body, List[Statement]] = {}
    for done in history(session, name):
        if done.word == 'acquire':
            held.setdefault(done.body, []).append(done.statement)
        elif done.word == 'release' and held.get(done.body):
            held[done.body].pop()
    lines = ['%s is held by %s%s  %s' % (name, who(session, body.number or 0), is_over(session, body),
                                         told(taken.place))
             for body, all_of_them in held.items() for taken in all_of_them]
    return lines or ['%s was not released' % name]


def is_over(session: Session, body: Body) -> str:
    return ', which has ended,' if session.tasks[body.number or 0].outcome is not None else ''


def counted(session: Session, name: str, word: str) -> str:
    """`5 times: g1 first 3, g2 second 2`."""
    counts: Dict[int, int] = {}
    for done in history(session, name):
        if done.word == word:
            number = done.body.number or 0
            counts[number] = counts.get(number, 0) + 1
    total = sum(counts.values())
    times = 'once' if total == 1 else '%d times' % total
    each = ', '.join('%s %d' % (who(session, n), k) for n, k in counts.items())
    return '%s: %s' % (times, each) if total else 'never'


def about_queue(session: Session, name: str) -> List[str]:
    return ['%s was put into %s' % (name, counted(session, name, 'qput')),
            '%s was taken from %s' % (name, counted(session, name, 'qget'))]


def about_tasks(session: Session, name: str) -> List[str]:
    return about_queue(session, name) + ['task_done was called %s' % counted(session, name, 'qdone')]


def about_event(session: Session, name: str) -> List[str]:
    return ['%s was set %s' % (name, counted(session, name, 'set'))]




ABOUT: Dict[str, Callable[[Session, str], List[str]]] = {
    'acquire': about_lock, 'qget': about_queue, 'qpeek': about_queue, 'qput': about_queue, 'qjoin': about_tasks,
    'wait': about_event}


def about_fault(session: Session, exception: BaseException) -> List[str]:
    """For a release or a report that was one too many: who made the last ones."""
    known = session.words.known(exception)
    if known is None or known.statement is None:
        return []
    words = known.statement.text.split(' ')
    if words[0] not in ('release', 'qdone'):
        return []
    made = [done for done in history(session, words[1]) if done.word == words[0]]
    lines = ['the last calls on %s that were right:' % words[1]] if made else ['nobody did so before']
    return lines + ['  %s  %s' % (who(session, done.body.number or 0), told(done.statement.place))
                    for done in made[-3:]]


# -------------------------------------------------------------------- who spun

def who_spun(session: Session) -> List[str]:
    """For a run that ended by its budget: who slept for no time again and again, and what helps."""
    spins: Dict[int, int] = {}
    for line in reversed(session.trace[:-1]):
        if line.startswith('turn ') and not line.endswith(' %d' % session.moment):
            break
        words = line.split(' ')
        if words[0] == 'park' and words[2:] == ['sleep', 'until', str(session.moment)]:
            number = int(words[1][1:])
            spins[number] = spins.get(number, 0) + 1
    lines = []
    for number, count in sorted(spins.items(), key=lambda pair: -pair[1])[:5]:
        body = session.record.by_number[number]
        at = told(body.latest.place) if body.latest is not None else ''
        lines.append('%s called sleep(0) %d times at moment %d  %s' % (who(session, number), count, session.moment, at))
    if lines:
        lines.append('no time passes while greenlets run: --tick 1 lets a millisecond pass with each turn')
    return lines


def at_limit(session: Session) -> List[str]:
    """For a run that ended by a limit of the machine: the statement that was one too many."""
    last: Optional[Tuple[int, Statement]] = None
    for number, body in session.record.by_number.items():
        if body.latest is not None and body.latest.pending and (last is None or body.latest.serial > last[1].serial):
            last = number, body.latest
    if last is None:
        return []
    return ['%s: %s  %s' % (who(session, last[0]), last[1].text, told(last[1].place))]
