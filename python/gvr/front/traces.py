"""A trace, line by line: whose each line is, in which turn it is written and at which moment."""
import re
from typing import Iterable, Iterator, List, NamedTuple, Optional

LOOP_KINDS = ("block", "turn", "stop")
KINDS = ("start", "print", "park", "wake", "late", "throw", "into", "end", "link", "job", *LOOP_KINDS)
# Words of a line; a list in brackets is one word.
WORD = re.compile(r"\[[^\]]*\]|[^ ]+")


class Entry(NamedTuple):
    """A line of a trace: its number from 1, the turn in which it is written (0 is main's first run), the moment, its kind,
    the greenlet whose line it is (none for one of the loop), the words behind these, and the text."""
    number: int
    turn: int
    moment: int
    kind: str
    greenlet: Optional[int]
    words: List[str]
    text: str


class Turns:
    """Counts turns and moments along the lines. A `turn` line ends its turn; main's first run is in no turn, and where
    LoopExit goes to main, there is no such line: both end where main parks."""

    def __init__(self) -> None:
        self.turn, self.moment, self.is_mains = 0, 0, True

    def place(self, kind: str, greenlet: Optional[int], words: List[str]) -> int:
        """The turn of a line; the moment is that of the line too."""
        turn = self.turn
        if kind == "turn":
            turn, self.moment = int(words[0]), int(words[3 if words[1] == "done" else 2])
            self.turn, self.is_mains = turn + 1, False
        elif kind == "block" and words == ["none"]:
            self.is_mains = True
        elif kind == "park" and greenlet == 0 and self.is_mains:
            self.turn, self.is_mains = self.turn + 1, False
        return turn


def number_of(word: str) -> int:
    """Of the handle of a greenlet, as `g7`; ValueError where it is none."""
    if not re.fullmatch(r"g\d+", word):
        raise ValueError(word)
    return int(word[1:])


def take_greenlet(kind: str, words: List[str]) -> Optional[int]:
    """Takes the greenlet whose line it is out of the words behind the kind; a line of the loop has none."""
    if kind in LOOP_KINDS:
        return None
    return number_of(words.pop(1 if kind in ("link", "job") else 0))


def entries(lines: Iterable[str]) -> Iterator[Entry]:
    """The lines of a trace in order. One that is no line of a trace raises ValueError."""
    turns = Turns()
    for number, text in enumerate(lines, 1):
        kind, *words = WORD.findall(text) or [""]
        try:
            if kind not in KINDS:
                raise ValueError(kind)
            greenlet = take_greenlet(kind, words)
            turn = turns.place(kind, greenlet, words)
        except (IndexError, ValueError):
            raise ValueError(f"line {number} is no line of a trace: {text}") from None
        yield Entry(number, turn, turns.moment, kind, greenlet, words, text)
