"""Two traces beside each other, by greenlet and turn."""
import difflib
from typing import Iterator, List, NamedTuple, Optional, Sequence

from .traces import Entry

# How many lines of one greenlet are shown.
MOST_SHOWN = 40


class Difference(NamedTuple):
    """A line of one trace alone (`-` of the first, `+` of the second), or one that both have in different turns (`~`)."""
    sign: str
    turns: str
    text: str


def of_greenlet(entries: Sequence[Entry], greenlet: Optional[int]) -> List[Entry]:
    """The lines of a greenlet, or of the loop."""
    return [it for it in entries if it.greenlet == greenlet]


def moved(a: Sequence[Entry], b: Sequence[Entry]) -> Iterator[Difference]:
    """Of lines with the same texts those that stand in different turns or at different moments."""
    for one, other in zip(a, b):
        if (one.turn, one.moment) != (other.turn, other.moment):
            places = f"turn {one.turn} at {one.moment}, turn {other.turn} at {other.moment}"
            yield Difference("~", places, one.text)


def alone(sign: str, entries: Sequence[Entry]) -> Iterator[Difference]:
    """Lines that one trace has and the other has not."""
    for it in entries:
        yield Difference(sign, f"turn {it.turn} at {it.moment}", it.text)


def differences(a: Sequence[Entry], b: Sequence[Entry]) -> List[Difference]:
    """What differs between the lines of one greenlet in two traces."""
    texts = [[it.text for it in entries] for entries in (a, b)]
    found: List[Difference] = []
    for tag, i1, i2, j1, j2 in difflib.SequenceMatcher(None, texts[0], texts[1], autojunk=False).get_opcodes():
        if tag == "equal":
            found += moved(a[i1:i2], b[j1:j2])
        else:
            found += [*alone("-", a[i1:i2]), *alone("+", b[j1:j2])]
    return found


def first_difference(a: Sequence[Entry], b: Sequence[Entry]) -> str:
    """The first line at which the traces part, as a sentence."""
    at = next((i for i, (one, other) in enumerate(zip(a, b)) if one.text != other.text), min(len(a), len(b)))
    told = [repr(entries[at].text) if at < len(entries) else "nothing" for entries in (a, b)]
    return f"line {at + 1} is the first that differs: {told[0]} and {told[1]}"


def compared(a: Sequence[Entry], b: Sequence[Entry]) -> str:
    """What differs, a block for each greenlet and one for the loop; nothing where the traces are the same."""
    if [it.text for it in a] == [it.text for it in b]:
        return ""
    lines, same = [first_difference(a, b)], []
    greenlets: List[Optional[int]] = [*sorted({it.greenlet for it in [*a, *b] if it.greenlet is not None}), None]
    for greenlet in greenlets:
        name = "the loop" if greenlet is None else f"g{greenlet}"
        found = differences(of_greenlet(a, greenlet), of_greenlet(b, greenlet))
        if not found:
            same.append(name)
            continue
        lines.append(name)
        lines += [f"  {it.sign} {it.text}  ({it.turns})" for it in found[:MOST_SHOWN]]
        if len(found) > MOST_SHOWN:
            lines.append(f"  and {len(found) - MOST_SHOWN} more")
    if same:
        lines.append(f"the same in both: {', '.join(same)}")
    return "".join(f"{it}\n" for it in lines)
