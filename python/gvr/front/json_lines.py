"""A trace as JSON lines, for programs. docs/TRACE.md has the format and what may change in it."""
import json
from typing import Iterable, Iterator, List, Optional, Sequence

from .traces import Entry
from .version import JSON_FORMAT, TRACE_FORMAT, VERSION


def head(by: str, words: Sequence[str]) -> str:
    """The first line: what follows, in which version, by whom it was answered and with which words."""
    return json.dumps({"format": "gvr trace", "version": JSON_FORMAT, "trace": TRACE_FORMAT, "gvr": VERSION, "by": by,
                       "words": list(words)}) + "\n"


def line_of(entry: Entry, at: Optional[int]) -> str:
    """A line of the trace."""
    return json.dumps({"number": entry.number, "turn": entry.turn, "moment": entry.moment, "kind": entry.kind,
                       "greenlet": entry.greenlet, "words": entry.words, "line": at}) + "\n"


def json_lines(entries: Iterable[Entry], at: Sequence[Optional[int]]) -> Iterator[str]:
    """The lines of a trace, each with the line of the scenario at which its greenlet stands."""
    for index, entry in enumerate(entries):
        yield line_of(entry, at[index] if index < len(at) else None)
