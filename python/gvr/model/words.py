"""The words of one line, judged from left to right: LANGUAGE, "Text" and "Expressions"."""
import re
from dataclasses import dataclass
from typing import Dict, NoReturn, Optional, Sequence, Tuple

from .syntax import BINARY, MOST_ELEMENTS, MOST_MS, MOST_NESTED, QUERIES, REASONS, UNARY, WORDS
from .tree import Expression
from .values import LEAST, MOST, WRITTEN_FAULTS, Fault, Value

NAME = re.compile(r"[a-z][a-z0-9_]{0,23}\Z")
NUMBER = re.compile(r"(0|-?[1-9][0-9]*)\Z")
CONSTANTS: Dict[str, Value] = {"none": None, "true": True, "false": False, **{kind: Fault(kind) for kind in WRITTEN_FAULTS}}


@dataclass(frozen=True)
class Refusal:
    """Why a text is refused. column is that of the word, counted from 1, or of the line's end where a word is missing;
    0 where it is no word's. wanted tells what could stand there."""
    line: int
    reason: int
    column: int = 0
    word: str = ""
    wanted: str = ""

    def __str__(self) -> str:
        return f"line {self.line}: reason {self.reason}: {REASONS[self.reason]}"


class Refused(Exception):
    """The text is refused."""

    def __init__(self, refusal: Refusal) -> None:
        super().__init__(str(refusal))
        self.refusal, self.line, self.reason = refusal, refusal.line, refusal.reason


def is_name(word: str) -> bool:
    """Whether the word may name something."""
    return bool(NAME.match(word)) and word not in WORDS


class Words:
    """The words of a line that are still to be read."""

    def __init__(self, line: int, text: str, indent: int = 0) -> None:
        self.line, self.words, self.at = line, text.split(" "), 0
        self.columns = []
        column = indent + 1
        for word in self.words:
            self.columns.append(column)
            column += len(word) + 1
        self.columns.append(column - 1)

    def refuse(self, reason: int, wanted: str, at: int) -> NoReturn:
        """Refuses the word at this place."""
        word = self.words[at] if at < len(self.words) else ""
        raise Refused(Refusal(self.line, reason, self.columns[at], word, wanted))

    def left(self) -> bool:
        """Whether a word is left."""
        return self.at < len(self.words)

    def take(self, wanted: str) -> str:
        """The next word, which has to be there."""
        if self.at >= len(self.words):
            self.refuse(6, wanted, self.at)
        self.at += 1
        return self.words[self.at - 1]

    def end(self) -> None:
        """No word is left."""
        if self.at < len(self.words):
            self.refuse(7, "the end of the line", self.at)

    def one_of(self, allowed: Sequence[str], wanted: str = "") -> str:
        """One of these words."""
        wanted = wanted or ", ".join(allowed[:-1]) + " or " + allowed[-1]
        word = self.take(wanted)
        if word not in allowed:
            self.refuse(5, wanted, self.at - 1)
        return word

    def maybe(self, *allowed: str) -> str:
        """One of these words, where the next one is; else nothing."""
        if self.at < len(self.words) and self.words[self.at] in allowed:
            self.at += 1
            return self.words[self.at - 1]
        return ""

    def name(self, wanted: str) -> str:
        """A name."""
        word = self.take(wanted)
        if not is_name(word):
            self.refuse(10, wanted, self.at - 1)
        return word

    def number(self, least: int, most: int) -> int:
        """A number of this range."""
        wanted = f"a number from {least} to {most}"
        word = self.take(wanted)
        if not NUMBER.match(word):
            self.refuse(8, wanted, self.at - 1)
        if len(word) > 20 or not least <= int(word) <= most:
            self.refuse(9, wanted, self.at - 1)
        return int(word)

    def ms(self) -> int:
        """A time."""
        return self.number(0, MOST_MS)

    def expressions(self) -> Tuple[Expression, ...]:
        """Expressions to the end of the line."""
        found = []
        while self.left():
            found.append(self.expression())
        return tuple(found)

    def expression(self, level: int = 1) -> Expression:
        """An expression, LEVEL operands deep."""
        at = self.at
        word = self.take("an expression")
        if level > MOST_NESTED:
            self.refuse(21, f"at most {MOST_NESTED} operands inside each other", at)
        if word in CONSTANTS:
            return Expression("constant", value=CONSTANTS[word])
        if word in BINARY:
            return Expression(word, (self.expression(level + 1), self.expression(level + 1)))
        if word in UNARY:
            return Expression(word, (self.expression(level + 1),))
        if word == "list":
            count = self.number(0, MOST_ELEMENTS)
            return Expression(word, tuple([self.expression(level + 1) for _ in range(count)]))
        return self.leaf(word, at)

    def leaf(self, word: str, at: int) -> Expression:
        """An expression without operands that begins with this word."""
        if word == "self":
            return Expression(word)
        if word == "Error":
            return Expression("constant", value=Fault("Error", self.number(LEAST, MOST)))
        if word in QUERIES:
            name = self.name("the name of an object")
            return Expression(word, name=name, column=self.columns[at + 1])
        if word[0].isdigit() or (word[0] == "-" and len(word) > 1):
            self.at = at
            return Expression("constant", value=self.number(LEAST, MOST))
        if is_name(word):
            return Expression("name", name=word, column=self.columns[at])
        self.refuse(5, "an expression", at)

    def column(self, at: Optional[int] = None) -> int:
        """The column of the word that was read last, or of that at this place."""
        return self.columns[self.at - 1 if at is None else at]
