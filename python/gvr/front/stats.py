"""How long each greenlet of a trace waited, and for what."""
from typing import Dict, Iterable, List, NamedTuple, Optional

from .traces import Entry

RESUMES = ("wake", "late", "throw", "into")


class Wait(NamedTuple):
    """A wait of a greenlet: for what, from which line and moment, and how long it took."""
    what: str
    line: int
    since: int
    took: int = 0
    is_open: bool = False


class Greenlet:
    """What a trace says of a greenlet: its function, how often it went on, and its waits."""

    def __init__(self) -> None:
        self.function, self.runs = "", 0
        self.waits: List[Wait] = []
        self.open: Optional[Wait] = None

    def close(self, moment: int, is_open: bool = False) -> None:
        """The wait under way is over, or the trace is."""
        if self.open:
            self.waits.append(self.open._replace(took=moment - self.open.since, is_open=is_open))
            self.open = None

    def see(self, entry: Entry) -> None:
        """Takes in one of its lines."""
        if entry.kind == "start":
            self.function, self.runs = entry.words[0], self.runs + 1
        elif entry.kind == "park":
            what = " ".join(entry.words).partition(" until ")[0]
            self.open = Wait(what, entry.number, entry.moment)
        elif entry.kind in RESUMES:
            self.close(entry.moment)
            self.runs += 1


def counted(entries: Iterable[Entry]) -> Dict[int, Greenlet]:
    """The greenlets of a trace by their numbers."""
    greenlets: Dict[int, Greenlet] = {}
    moment = 0
    for entry in entries:
        moment = entry.moment
        if entry.greenlet is not None:
            greenlets.setdefault(entry.greenlet, Greenlet()).see(entry)
    for it in greenlets.values():
        it.close(moment, True)
    return greenlets


def row(number: int, greenlet: Greenlet) -> List[str]:
    """The cells of a greenlet: its longest wait is the first of those that took longest."""
    longest = max(greenlet.waits, key=lambda it: it.took, default=None)
    told = f"{longest.what}, line {longest.line}{', to the end' if longest.is_open else ''}" if longest else "-"
    waited = sum(it.took for it in greenlet.waits)
    return [f"g{number}", greenlet.function or "-", str(greenlet.runs), str(len(greenlet.waits)), str(waited),
            str(longest.took) if longest else "-", told]


def table(entries: List[Entry]) -> str:
    """A line for each greenlet, below a head, and what the last line tells."""
    rows = [["greenlet", "function", "runs", "waits", "waited", "longest", "for"]]
    rows += [row(number, it) for number, it in sorted(counted(entries).items())]
    widths = [max(len(cells[at]) for cells in rows) for at in range(len(rows[0]))]
    lines = ["  ".join(cell.ljust(width) for cell, width in zip(cells, widths)).rstrip() for cells in rows]
    moment = entries[-1].moment if entries else 0
    lines.append(f"{len(entries)} lines, moment {moment} at the end" + (f": {entries[-1].text}" if entries else ""))
    return "".join(f"{it}\n" for it in lines)
