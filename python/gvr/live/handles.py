"""How a body comes to the handles that its statements name.

The language has no word for the greenlet with number 3. Whoever made g3 keeps it in a local name (`g3 <- spawn ..`);
any other body gets it through a result of its own, `h3`, into which the maker puts it (or g3 itself, if a link or a map
made it). Where these would be too many for the language (64 local names, 256 objects), handles stand in lists of 64 in
the results `handles_0`, `handles_1`, ..: who needs one gets its list.

A raw greenlet can't get from a result. It has those that it made, those that a switch gave it, and those that whoever
began it had by then: the switch that begins it sends a list of the value and of the handles, which no line of the trace
shows.
"""
from typing import List, Optional, Union

from .errors import Unsupported
from .record import Block, Body, Record, Statement

MOST_KEPT, MOST_SHARED, MOST_DECLARED = 50, 60, 240
IN_A_LIST = 64


def need(record: Record, body: Body, statement: Statement) -> None:
    """Sees to it that `body` has the handles that the statement names, which comes at its end."""
    for number in statement.uses:
        _have(record, body, number, None)


def _have(record: Record, body: Body, number: int, before: Optional[Statement]) -> None:
    """At the end of the body, or before one of its statements."""
    if number in (body.number, body.holds):
        return
    maker = record.maker.get(number)
    if maker is body:
        body.kept.add(number)
        record.lists = record.lists or len(body.kept) + len(body.fetched) > MOST_KEPT
    elif body.raw:
        _have_raw(record, body, number, before)
    elif maker is not None and maker.raw:
        if not _received(body, number, before):
            raise Unsupported('g%d was made by a raw greenlet and not handed to who names it: a switch has to give it'
                              % number)
    elif number not in body.fetched or before is not None:
        _fetch(record, body, number, before)


def _received(body: Body, number: int, before: Optional[Statement]) -> bool:
    """A statement of the body gave it, soon enough."""
    statement = body.received.get(number)
    if statement is None or before is not None and statement.serial >= before.serial:
        return False
    statement.into = 'g%d' % number
    return True


def _have_raw(record: Record, body: Body, number: int, before: Optional[Statement]) -> None:
    if number in body.wanted or body.begins_with == number and number in body.fetched:
        return
    if body.begins_with == number:
        body.fetched.add(number)
        return
    if _received(body, number, before):
        return
    if body.starter is None or number not in record.order[:body.begun_at]:
        raise Unsupported('a raw greenlet names g%d, which was not there when it began: a switch has to give it'
                          % number)
    starter, switch = body.starter
    _have(record, starter, number, switch)
    body.wanted.append(number)


def _fetch(record: Record, body: Body, number: int, before: Optional[Statement]) -> None:
    record.shared.add(number)
    record.lists = record.lists or len(record.shared) > MOST_SHARED \
        or len(record.shared) + len(record.declarations) > MOST_DECLARED or len(body.fetched) > MOST_KEPT
    maker = record.maker.get(number)
    if maker is not None:
        maker.kept.add(number)
    body.fetched.add(number)
    get = Statement('rget h%d now' % number)
    get.into = 'g%d' % number
    if before is None:
        last = body.last
        body.add(get)
        body.last = last
    else:
        nodes = _home(body.nodes, before)
        assert nodes is not None
        nodes.insert(nodes.index(before), get)


def _home(nodes: List[Union[Statement, Block]], statement: Statement) -> Optional[List[Union[Statement, Block]]]:
    """The block that has the statement."""
    if statement in nodes:
        return nodes
    for node in nodes:
        if isinstance(node, Block):
            found = _home(node.nodes, statement)
            if found is not None:
                return found
    return None
