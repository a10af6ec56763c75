"""A refusal as `gvr` shows it: the line, a caret under the word, what was wanted there, and what people mean by it."""
import re
from typing import List, Optional, Sequence

from gvr.model import Refusal, refusals
from gvr.model.syntax import MOST_LONG_TEXT, MOST_TEXT, WORDS

from .advice import ONE_WORD, RESERVED_ROW, VALUES, advice
from .explain import reasons
from .files import nth_line
from .usage import nearest

# How many refusals of one text are shown, and how wide a line is shown.
MOST_SHOWN, WIDEST = 12, 200
KINDS = rb"event|result|sem|bsem|rlock|queue|group|pool|native|channel"
OF_BYTES = {9: "a tab: indent with blanks", 13: "a carriage return: end lines with a line feed alone"}


def line_of(text: bytes, number: int) -> str:
    """The line of this number, as far as it is shown: other bytes than printable ASCII are question marks."""
    return "".join(chr(it) if 32 <= it < 127 else "?" for it in nth_line(text, number)[:WIDEST])


def is_object(text: bytes, word: str) -> bool:
    """Whether a line declares an object of this name."""
    return bool(word and re.search(rb"^ *(?:" + KINDS + rb") " + re.escape(word.encode()) + rb"\b", text, re.M))


def is_parameter(text: bytes, number: int, word: str) -> bool:
    """Whether the word is a parameter of the function in which the line stands."""
    above = text.split(b"\n")[:number]
    heads = [it.split()[2:] for it in above if it.lstrip().startswith((b"def ", b"rawdef "))]
    return bool(heads) and word.encode() in heads[-1]


def byte_at(text: bytes, refusal: Refusal) -> int:
    """The byte that is refused, or -1."""
    line, at = nth_line(text, refusal.line), refusal.column - 1
    return line[at] if 0 <= at < len(line) else -1


def other_kind(text: bytes, refusal: Refusal) -> str:
    """Where an object or a function of another kind is wanted: how the name is declared. Nothing of other refusals."""
    found = re.search(rb"^ *((" + KINDS + rb"|rawdef|def) " + re.escape(refusal.word.encode()) + rb"\b.*)$", text, re.M)
    if refusal.reason != 17 or not refusal.word or not found:
        return ""
    declared = "function" if found[2].endswith(b"def") else "object"
    first = refusal.wanted.removeprefix("a ").split(" ")[0].encode()
    wanted = "object" if re.fullmatch(KINDS, first) else "function" if first in (b"def", b"rawdef") else ""
    if wanted != "object" and wanted != declared:
        return ""
    number = text.count(b"\n", 0, found.start(1)) + 1
    return f"line {number} declares it: {found[1].decode('ascii', 'replace')}"


def wanted_there(text: bytes, refusal: Refusal) -> str:
    """What was wanted at the caret."""
    if refusal.reason in (1, 26):
        return f"wanted: at most {MOST_TEXT if refusal.reason == 1 else MOST_LONG_TEXT} bytes in all"
    if refusal.reason == 2:
        return OF_BYTES.get(byte_at(text, refusal), "a byte that is not printable ASCII")
    return f"wanted: {refusal.wanted}" if refusal.wanted else ""


def names_in(text: bytes) -> List[str]:
    """The names that a text gives: of objects, functions, parameters and local names."""
    found: List[bytes] = re.findall(rb"\b(?:let|" + KINDS + rb") ([a-z]\w*)", text)
    found += re.findall(rb"\b([a-z]\w*) <- ", text)
    for head in re.findall(rb"^ *(?:def|rawdef) (.*)$", text, re.M):
        found += head.split()
    return sorted({it.decode("ascii", "replace") for it in found})


def likely(text: bytes, refusal: Refusal) -> str:
    """The word that is most like one that is unknown, as a question, or nothing."""
    known = {5: sorted(WORDS), 15: names_in(text)}.get(refusal.reason, [])
    is_sought = len(refusal.word) > 2 and refusal.word not in known
    return nearest(refusal.word, known).lstrip("; ") if is_sought else ""


def fitting(writes: Sequence[str], line: str) -> List[str]:
    """Of what is to be written that which begins as the line does, or all; a declaration without the `main` behind it."""
    first = line.split()[:1]
    same = [it for it in writes if it.split()[:1] == first] or writes
    return [it.replace("\ndef main\nend", "").replace("\n", " | ") for it in same]


def meant(text: bytes, refusal: Refusal) -> List[str]:
    """What people mean by such a line, and what they write."""
    line, word = line_of(text, refusal.line), refusal.word
    if declared := other_kind(text, refusal):
        return [declared]
    row = advice(refusal.reason, line, word, is_object(text, word), is_parameter(text, refusal.line, word))
    is_vague = row is None or row.wrote[0] in ONE_WORD or (row.wrote[0] in VALUES and " <- " in line)
    guess = likely(text, refusal) if is_vague else ""
    if guess or row is None:
        return [guess] if guess else []
    if row.wrote[0] == RESERVED_ROW:
        return [f"`{word}` is a word of the language: take another name"]
    return [row.since, "write: " + "   or: ".join(fitting(row.write, line))]


def drawn(text: bytes, refusal: Refusal) -> List[str]:
    """The line with its number, the caret below it, and what there is to say."""
    number = str(refusal.line)
    margin = " " * len(number)
    column = max(1, refusal.column)
    length = max(1, len(refusal.word))
    lines = [f"  {number} | {line_of(text, refusal.line)}"]
    if column <= WIDEST:
        caret = "^" * min(length, WIDEST - column + 1)
        lines.append(f"  {margin} | {' ' * (column - 1)}{caret} {wanted_there(text, refusal)}".rstrip())
    return lines + [f"  {margin} = {it}" for it in meant(text, refusal)]


def all_refusals(text: bytes) -> List[Refusal]:
    """All that is wrong with a text, without what is missing only since the line that begins it is refused."""
    found = refusals(text)
    is_main_begun = any(it.reason == 10 and it.word.startswith("main") for it in found)
    others = sorted(found[1:], key=lambda it: it.line)
    return [it for it in found[:1] + others if it.reason != 14 or not is_main_begun]


def shown(text: bytes, told: Optional[str] = None) -> str:
    """What is shown of a refused text behind the line that the program told of it, the first one where none is given: that
    refusal drawn, and the others."""
    found = all_refusals(text)
    told = "".join(str(it) for it in found[:1]) if told is None else told
    lines: List[str] = []
    names = reasons()
    for refusal in found[:MOST_SHOWN]:
        head = f"line {refusal.line}: reason {refusal.reason}: {names.get(refusal.reason, '')}"
        if head not in told:
            lines.append(head)
        lines += drawn(text, refusal)
    if len(found) > MOST_SHOWN:
        lines.append(f"and {len(found) - MOST_SHOWN} more")
    if found:
        lines.append(f"gvr explain {found[0].reason} tells more")
    return "".join(f"{it}\n" for it in lines)
