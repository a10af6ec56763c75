"""The lines of a trace, read back: TRACE, "The lines"; and the laws that every trace keeps."""
import re
from typing import Dict, List, NamedTuple, Optional, Pattern, Set, Tuple

from .syntax import JOBS
from .values import FAULT_KINDS, LEAST, MOST, Fault, G, J, Outcome, Scalar, Value
from .worlds import job_outcome

MOST_NUMBER, MOST_COUNT = 2**32 - 1, 2**64 - 1
STOPS = ("no-turns", "no-moves", "no-greenlets", "no-links", "no-kills")
ON_OBJECTS = "wait|rget|rwait|acquire|qput|qget|qpeek|qjoin|gspawn|gjoin|gkill|map|nspawn|cput|cget"
NUMBER = "0|[1-9][0-9]*"
PARTS = {
    "G": f"g(?P<greenlet>{NUMBER})", "K": f"(?P<number>{NUMBER})", "NAME": "(?P<name>[a-z][a-z0-9_]{0,23})",
    "UNTIL": f"(?: until (?P<moment>{NUMBER}))?", "T": f"(?P<moment>{NUMBER})", "V": "(?P<value>.+)",
    "O": "(?P<outcome>(?:value|fault) .+)", "J": f"j(?P<number>{NUMBER})", "OTHER": f"(?P<on>g(?:{NUMBER}))",
    "WHOM": f"(?P<on>[gj](?:{NUMBER}))", "X": f"(?P<mark>{NUMBER})", "F": "(?P<fault>.+)", "I": "(?P<n>-?[0-9]+)",
    "M": f"(?P<moves>{NUMBER})"}
SHAPES = (
    "(?P<word>start) G NAME", "(?P<word>print) G V", "(?P<word>park) G (?P<what>sleep|joinall|killall)UNTIL",
    "(?P<word>park) G (?P<what>join|kill) OTHERUNTIL", "(?P<word>park) G (?P<what>get) WHOMUNTIL",
    f"(?P<word>park) G (?P<what>{ON_OBJECTS}) NAMEUNTIL", "(?P<word>wake|late) G", "(?P<word>throw) G F",
    "(?P<word>into|end) G O", "(?P<word>link) K G OTHER", "(?P<word>link) K G (?P<what>mark) X",
    "(?P<word>link) K G (?P<what>set) NAME", f"(?P<word>job) J G (?P<what>{'|'.join(JOBS)}) I", "(?P<word>block) T",
    "(?P<word>block) (?P<what>jobs|none)", f"(?P<word>turn) (?P<turn>{NUMBER}) (?P<what>nothing|elapsed) T",
    f"(?P<word>turn) (?P<turn>{NUMBER}) (?P<what>done) J T O",
    f"(?P<word>stop) (?P<what>{'|'.join(STOPS)}) turns (?P<turn>{NUMBER}) moves M",
    f"(?P<word>stop) O turns (?P<turn>{NUMBER}) moves M")


def patterns() -> Dict[str, List[Pattern[str]]]:
    """The patterns of all lines, by their first words."""
    found: Dict[str, List[Pattern[str]]] = {}
    for shape in SHAPES:
        first = re.match(r"\(\?P<word>([a-z|]+)\)", shape)
        assert first is not None
        whole = re.sub(r"\b(" + "|".join(PARTS) + r")(?=\b|UNTIL)|UNTIL", lambda part: PARTS[part.group(0)], shape)
        for word in first.group(1).split("|"):
            found.setdefault(word, []).append(re.compile(whole))
    return found


PATTERNS = patterns()


class TraceLine(NamedTuple):
    """A line of a trace. word is its first; what the next word of the language, as that of the statement of a park, or
    the cause of a stop; greenlet its greenlet; name that of a function or an object; on whom a greenlet waits for, or
    whom a link calls; number that of a link or a job; turn that of a turn, or the count of a stop; moment the deadline
    of a park, or T."""
    word: str
    what: str = ""
    greenlet: Optional[int] = None
    name: str = ""
    on: str = ""
    number: int = 0
    turn: int = 0
    moment: Optional[int] = None
    n: int = 0
    moves: int = 0
    value: Value = None
    outcome: Optional[Outcome] = None


class NoLine(ValueError):
    """This is not how a trace writes it."""


def counted(digits: Optional[str], most: int) -> int:
    """A number without a sign, of at most so much; 0 for none."""
    if digits is None:
        return 0
    if len(digits) > 20 or int(digits) > most:
        raise NoLine(digits)
    return int(digits)


def read_integer(text: str) -> int:
    """An integer of the language."""
    if not re.fullmatch("0|-?[1-9][0-9]*", text) or len(text) > 20 or not LEAST <= int(text) <= MOST:
        raise NoLine(text)
    return int(text)


def read_fault(text: str) -> Fault:
    """A fault, as a trace writes it; raises NoLine."""
    numbered = re.fullmatch(r"(Timeout|Error)\((.*)\)", text, re.DOTALL)
    if numbered is None:
        if text not in FAULT_KINDS or text in ("Timeout", "Error"):
            raise NoLine(text)
        return Fault(text)
    kind, n = numbered.groups()
    if kind == "Error":
        return Fault(kind, read_integer(n))
    if not re.fullmatch(NUMBER, n):
        raise NoLine(text)
    return Fault(kind, counted(n, MOST_NUMBER))


def read_scalar(text: str) -> Scalar:
    """A value that is no list; raises NoLine."""
    constants: Dict[str, Scalar] = {"none": None, "true": True, "false": False}
    if text in constants:
        return constants[text]
    handle = re.fullmatch(f"([gj])({NUMBER})", text)
    if handle is not None:
        number = counted(handle.group(2), MOST_NUMBER)
        return G(number) if handle.group(1) == "g" else J(number)
    return read_integer(text) if text[:1].isdigit() or text[:1] == "-" else read_fault(text)


def read_value(text: str) -> Value:
    """A value, as a trace writes it; raises NoLine."""
    if not text.startswith("["):
        return read_scalar(text)
    if not text.endswith("]"):
        raise NoLine(text)
    parts = text[1:-1].split(", ") if text != "[]" else []
    if len(parts) > 64:
        raise NoLine(text)
    return tuple([read_scalar(part) for part in parts])


def read_outcome(text: str) -> Outcome:
    """`value V` or `fault F`; raises NoLine."""
    kind, _, rest = text.partition(" ")
    if kind not in ("value", "fault"):
        raise NoLine(text)
    return Outcome(kind, read_value(rest) if kind == "value" else read_fault(rest))


def read_line(text: str) -> Optional[TraceLine]:
    """The line of this text, without its line feed; None where no line is written so."""
    for pattern in PATTERNS.get(text.split(" ", 1)[0], []):
        found = pattern.fullmatch(text)
        if found is not None:
            try:
                return line_of({key: part for key, part in found.groupdict().items() if part is not None})
            except NoLine:
                return None
    return None


def line_of(parts: Dict[str, str]) -> TraceLine:
    """The line of these parts; raises NoLine."""
    outcome = read_outcome(parts["outcome"]) if "outcome" in parts else None
    if outcome is not None and parts["word"] == "turn" and outcome.kind == "value" and type(outcome.what) is not int:
        raise NoLine(parts["outcome"])
    if "on" in parts:
        read_scalar(parts["on"])
    value: Value = None
    if "value" in parts or "fault" in parts:
        value = read_value(parts["value"]) if "value" in parts else read_fault(parts["fault"])
    return TraceLine(
        parts["word"], parts.get("what", ""),
        counted(parts["greenlet"], MOST_NUMBER) if "greenlet" in parts else None, parts.get("name", ""),
        parts.get("on", ""), counted(parts.get("number"), MOST_NUMBER), counted(parts.get("turn"), MOST_COUNT),
        counted(parts["moment"], MOST_COUNT) if "moment" in parts else None,
        read_integer(parts["n"]) if "n" in parts else counted(parts.get("mark"), MOST_NUMBER),
        counted(parts.get("moves"), MOST_COUNT), value, outcome)


class Laws:
    """The laws that every trace keeps, line by line: EXPLAIN, "The six laws"."""

    def __init__(self) -> None:
        self.ended: Set[int] = set()
        self.last: Dict[int, str] = {}
        self.called: Set[int] = set()
        self.moment = 0
        self.posted: Dict[int, List[Tuple[str, int]]] = {}
        self.done: Set[int] = set()

    def broken_by(self, line: TraceLine) -> Optional[int]:
        """The least law that the next line breaks."""
        if line.word == "link":
            assert line.greenlet is not None
            if line.greenlet not in self.ended or line.number in self.called:
                return 4
            self.called.add(line.number)
            return None
        if line.greenlet is not None:
            if line.greenlet in self.ended:
                return 1 if line.word == "end" else 2
            if line.word == "throw" and self.last.get(line.greenlet, "park") != "park":
                return 3
            self.last[line.greenlet] = line.word
            if line.word == "end":
                self.ended.add(line.greenlet)
        if line.word == "job":
            self.posted.setdefault(line.number, []).append((line.what, line.n))
        return self.by_turn(line) if line.word == "turn" else None

    def by_turn(self, line: TraceLine) -> Optional[int]:
        """The law that a turn line breaks."""
        assert line.moment is not None
        if line.moment < self.moment:
            return 5
        self.moment = line.moment
        if line.what == "done":
            posted = self.posted.get(line.number, [])
            if len(posted) != 1 or line.number in self.done or line.outcome != job_outcome(*posted[0]):
                return 6
            self.done.add(line.number)
        return None
