"""What docs/EXPLAIN.md says: of a reason, a status, a cause or a law, and of what newcomers write."""
import pathlib
import re
from typing import Dict, List, NamedTuple, Optional, Tuple

from .program import TOP

PAGE = TOP / "docs/EXPLAIN.md"


class Row(NamedTuple):
    """A row of the first table: what was written, the reason and its text, since when that is, and what to write."""
    wrote: List[str]
    reason: int
    since: str
    write: List[str]


def page_text(page: pathlib.Path = PAGE) -> str:
    """The page, or nothing where only the packages are installed."""
    return page.read_text() if page.is_file() else ""


def cells_of(line: str) -> List[str]:
    """The cells of a row of a table."""
    return [it.strip() for it in re.split(r"(?<!\\)\|", line)[1:-1]]


def table(head: str) -> List[List[str]]:
    """The rows of the page's table whose head begins so."""
    rows = page_text().partition(f"\n| {head} |")[2].split("\n\n")[0].splitlines()[2:]
    return [cells_of(line) for line in rows]


def code(cell: str) -> List[str]:
    """The texts between backticks, with a bar as the end of a line."""
    return [it.replace("\\|", "\n") for it in re.findall(r"`([^`]*)`", cell)]


def what_newcomers_write() -> List[Row]:
    """The rows of the first table."""
    return [Row(code(wrote), int(says.split(" ")[0]), since, code(write))
            for wrote, says, since, write in table("You wrote")]


def plain(text: str) -> str:
    """A text of the page as a terminal shows it: links are their words, and what keeps bars in tables goes."""
    return re.sub(r"\[([^\]]*)\]\([^)]*\)", r"\1", text).replace("\\|", "|").strip() + "\n"


def reasons() -> Dict[int, str]:
    """The reasons for which a text is refused, by their numbers."""
    return {int(number): text for number, _, text in (cells[0].partition(" ") for cells in table("Reason | Line"))}


def statuses() -> List[Tuple[str, str]]:
    """The statuses with what they mean."""
    return [(number, means) for number, _, means in (cells[0].partition(" ") for cells in table("Status"))]


def row_of(head: str, number: str) -> Optional[str]:
    """The row of a table whose head begins so, each cell that has something under the word of its column."""
    names = re.findall(rf"^\| {re.escape(head)} \|.*$", page_text(), re.M)
    for cells in table(head):
        if cells[0].split(" ")[0] == number:
            told = [f"  {name.lower()}: {cell}" for name, cell in zip(cells_of(names[0])[1:], cells[1:]) if cell]
            return plain("\n".join([f"{head.split(' ')[0]} {cells[0]}", *told]))
    return None


def law(number: int) -> str:
    """What a law says, or nothing."""
    return next((cells[0].partition(" ")[2] for cells in table("Law") if cells[0].startswith(f"{number} ")), "")


def contents() -> str:
    """What can be asked for."""
    lines = ["Reasons of a refusal: gvr explain REASON"]
    lines += [f"  {number:2} {text}" for number, text in reasons().items()]
    lines += ["Statuses: gvr explain status N"]
    lines += [f"  {number:>2} {means}" for number, means in statuses()]
    lines += ["Causes of verify: gvr explain cause N", *(f"  {cells[0]}" for cells in table("Cause"))]
    lines += ["Laws of verify --check laws: gvr explain law N", *(f"  {cells[0]}" for cells in table("Law"))]
    return "\n".join(lines) + "\n"


def explained(words: List[str]) -> Optional[str]:
    """What is said of `8`, `reason 8`, `status 6`, `cause 2`, `law 2`; of no words, what can be asked for; nothing of
    others."""
    if not words:
        return contents()
    kind, number = words if len(words) == 2 else ("reason", words[0])
    if len(words) > 2 or not re.fullmatch(r"[0-9]{1,2}", number):
        return None
    if kind == "reason":
        return row_of("Reason | Line", number) or row_of("Reason | Comes of", number)
    return row_of(kind.capitalize(), number) if kind in ("status", "cause", "law") else None
