"""The tree of a scenario: what the reader makes of a text, and all else works on."""
from dataclasses import dataclass, field
from typing import Dict, List, Optional, Tuple

from .values import Value


class Expression:
    """Its form is `constant` (in value), `self`, `name` (a local name), an operator, or a word that asks
    after the object in name: isset, counter, qsize, unfinished, members."""
    __slots__ = ("form", "operands", "name", "value", "column")

    def __init__(self, form: str, operands: Tuple["Expression", ...] = (), name: str = "", value: Value = None,
                 column: int = 0) -> None:
        self.form, self.operands, self.name, self.value, self.column = form, operands, name, value, column

    def __repr__(self) -> str:
        return f"Expression({self.form!r}, {self.operands!r}, {self.name!r}, {self.value!r})"


@dataclass
class Except:
    """An `except` of a `try`: the class, the name that gets the fault or None, its body."""
    name: str
    into: Optional[str]
    line: int
    column: int
    body: List["Statement"]


@dataclass
class Statement:
    """A statement. word is its first word, or the one behind `<-`; line its line in the text. What else it has is by
    its shape in syntax.SHAPES."""
    word: str
    line: int = 0
    into: Optional[str] = None                      # the local name that gets a value: of `NAME <-`, and of `let`
    operands: Tuple[Expression, ...] = ()           # all its expressions, from left to right
    thing: str = ""                                 # the object that it names
    function: str = ""                              # the function that it names
    ms: Optional[int] = None                        # of sleep, spawnlater, timeout (None: `none`), takes
    number: Optional[int] = None                    # of count, mark
    within: Optional[int] = None
    now: bool = False
    option: str = ""                                # silent, immediate, or the job of an nspawn
    body: List["Statement"] = field(default_factory=list)
    other: Optional[List["Statement"]] = None       # behind else
    excepts: List[Except] = field(default_factory=list)
    final: Optional[List["Statement"]] = None       # behind finally
    end_line: int = 0                               # of the block's `end`
    columns: Dict[str, int] = field(default_factory=dict)   # where into, thing and function stand, from 1

    def blocks(self) -> List[List["Statement"]]:
        """The bodies in it, in the order of the text."""
        found = [self.body] if self.word in ("if", "while", "try", "timeout") else []
        found += [each.body for each in self.excepts]
        return found + [body for body in (self.other, self.final) if body is not None]


@dataclass
class Declaration:
    """An object. n is the number that its line has, None where a queue has no bound; order that of a queue."""
    kind: str
    name: str
    line: int
    n: Optional[int] = None
    order: str = ""
    column: int = 0

    @property
    def sort(self) -> str:
        """The kind, and of a queue its order too."""
        return f"queue {self.order}" if self.kind == "queue" else self.kind


@dataclass
class Function:
    """A `def`, or a `rawdef` where raw is true."""
    name: str
    raw: bool
    parameters: List[str]
    line: int = 0
    body: List[Statement] = field(default_factory=list)
    end_line: int = 0
    columns: List[int] = field(default_factory=list)        # of the name and of the parameters

    @property
    def sort(self) -> str:
        """`def` or `rawdef`."""
        return "rawdef" if self.raw else "def"


@dataclass
class Scenario:
    """A whole text."""
    profile: int = 1
    objects: List[Declaration] = field(default_factory=list)
    functions: List[Function] = field(default_factory=list)
