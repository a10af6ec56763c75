"""Runs a function as main of a run, in both ways of deciding, and replays its record."""
from typing import Any, Callable, List, Optional, Tuple

from gvr.live.by_model import by_model
from gvr.live.certificate import certify
from gvr.live.decider import Decider, Options
from gvr.live.record import Record
from gvr.live.rerun import Rerun
from gvr.live.session import Session
from gvr.live.stepped import Stepped
from gvr.live.tasks import Outcome

Main = Callable[[Callable[[Any], None]], Any]
Make = Callable[[Record], Decider]


def stepped(options: Options = Options()) -> Make:
    return lambda record: Stepped(record, options)


def run_again(options: Options = Options()) -> Make:
    return lambda record: Rerun(record, by_model(options))


def run(main: Main, make: Optional[Make] = None, lists: bool = False,
        options: Options = Options()) -> Tuple[List[Any], Outcome, Session]:
    """What main said by its argument, how it ended, and the run, whose record has replayed."""
    said: List[Any] = []
    session = Session(make or stepped(options), options)
    session.record.lists = lists
    session.on_failure = lambda task, exception: None
    outcome = session.run(lambda: main(said.append))
    certify(session, by_model(options))
    return said, outcome, session


def in_all_ways(main: Main, options: Options = Options(), again: bool = True) -> Tuple[List[Any], Outcome, Session]:
    """By the model and by runs at each statement, with handles in names and in lists: the same each time. again: false
    for a program that is too large to be run at each statement."""
    first = run(main, options=options)
    for lists in (False, True):
        for make in (stepped(options), run_again(options))[:2 if again else 1]:
            said, outcome, session = run(main, make, lists, options)
            if (said, told(outcome)) != (first[0], told(first[1])):
                raise AssertionError('%s and %s' % ((said, outcome), first[:2]))
            if apart(session.trace) != apart(first[2].trace):
                raise AssertionError('the traces differ:\n%s\n\n%s' % ('\n'.join(session.trace),
                                                                      '\n'.join(first[2].trace)))
    return first


def told(outcome: Outcome) -> Tuple[str, str, str]:
    """An outcome, so that two runs can be compared."""
    kind, value = outcome
    return kind, type(value).__name__, str(value).split(' moves ')[0] if isinstance(value, (int, str, BaseException)) \
        else ''


def apart(trace: List[str]) -> List[str]:
    """A trace without its count of moves: a record has some more than the run."""
    return [line.split(' moves ')[0] for line in trace]
