"""The commands run, fmt, verify and storm, with the words, the status and the line on standard error of the program."""
import io
import re
from typing import BinaryIO, Dict, List, NamedTuple, Optional, Sequence, Tuple

from .indexed import IndexedMachine
from .items import Line
from .printer import printed
from .run import Options, read, world_of
from .syntax import MOST_LONG_TEXT
from .tree import Scenario
from .verify import Verdict, check_laws, verify
from .words import Refusal, Refused
from .worlds import ScriptWorld

MOST_CHECKED = 67108864
USAGE = "usage: gvr run, fmt, wsgi, serve, storm or verify"
Allowed = Dict[str, Tuple[int, int]]
TURNS: Allowed = {"turns": (1, 10000000), "moves": (1, 100000000)}
# The options of each command that take a number, and its range.
NUMBERS: Dict[str, Allowed] = {
    "run": {**TURNS, "tick": (0, 1000), "native": (1, 16)}, "fmt": {}, "verify": TURNS, "storm": {"size": (1, 19000)}}
CHOICES: Dict[str, Dict[str, Tuple[str, ...]]] = {"run": {"order": ("free", "held")}, "verify": {"check": ("run", "laws")}}


class Answered(NamedTuple):
    """How a command ended: the status, what it wrote, and its line on standard error behind `gvr: `, or nothing."""
    status: int
    out: bytes
    complaint: str


class Command(NamedTuple):
    """A command and its options."""
    name: str
    numbers: Dict[str, int]
    choices: Dict[str, str]


def command_of(words: Sequence[str]) -> Optional[Command]:
    """The command of these words; None where they are none that a model has."""
    if not words or words[0] not in NUMBERS:
        return None
    found = Command(words[0], {}, {})
    rest = list(words[1:])
    while rest:
        key, equals, given = rest.pop(0).partition("=")
        if not key.startswith("--") or (not equals and not rest):
            return None
        if not add_option(found, key[2:], given if equals else rest.pop(0)):
            return None
    return found if fit_together(found) else None


def add_option(found: Command, key: str, given: str) -> bool:
    """Adds an option; whether it is one, and spelt as it must be."""
    if key in found.numbers or key in found.choices:
        return False
    if key in NUMBERS[found.name]:
        least, most = NUMBERS[found.name][key]
        if not re.fullmatch("0|[1-9][0-9]*", given) or len(given) > 12 or not least <= int(given) <= most:
            return False
        found.numbers[key] = int(given)
        return True
    if given not in CHOICES.get(found.name, {}).get(key, ()):
        return False
    found.choices[key] = given
    return True


def fit_together(found: Command) -> bool:
    """Whether these options may stand beside each other, and none is missing."""
    if found.name == "run":
        return not ("native" in found.numbers and "tick" in found.numbers) and (
            "order" not in found.choices or "native" in found.numbers)
    if found.name == "storm":
        return "size" in found.numbers
    return found.choices.get("check") != "laws" or not found.numbers


def read_limited(given: BinaryIO, most: int) -> bytes:
    """The input, or one byte more than it may have."""
    parts: List[bytes] = []
    left = most + 1
    while left:
        part = given.read(left)
        if not part:
            break
        parts.append(part)
        left -= len(part)
    return b"".join(parts)


def call(words: Sequence[str], given: BinaryIO, out: BinaryIO) -> Tuple[int, str]:
    """Does what these words say; the status, and the line on standard error behind `gvr: `, or nothing."""
    found = command_of(words)
    if found is None:
        return 2, USAGE
    try:
        most = MOST_CHECKED if found.name == "verify" else MOST_LONG_TEXT
        data = b"" if found.name == "storm" else read_limited(given, most)
    except OSError:
        return 4, "read fault"
    try:
        status, complaint = COMMANDS[found.name](found, data, out)
    except Refused as refused:
        status, complaint = 3, str(refused)
    except OSError:
        return 5, "write fault"
    try:
        out.flush()
    except OSError:
        return 5, "write fault"
    return status, complaint


def call_run(found: Command, data: bytes, out: BinaryIO) -> Tuple[int, str]:
    """run"""
    options = Options(**found.numbers, **found.choices)       # type: ignore[arg-type]
    scenario = read(data)
    world = world_of(options)

    def write(line: Line) -> None:
        out.write(line.text.encode() + b"\n")

    world.begin(options.native or 1)
    try:
        end = IndexedMachine(scenario, options.turns, options.moves, world, write).go()
    finally:
        world.finish()
    return end.status, end.complaint


def call_fmt(found: Command, data: bytes, out: BinaryIO) -> Tuple[int, str]:
    """fmt"""
    out.write(printed(read(data)).encode())
    return 0, ""


def call_verify(found: Command, data: bytes, out: BinaryIO) -> Tuple[int, str]:
    """verify"""
    if len(data) > MOST_CHECKED:
        raise Refused(Refusal(data[:MOST_CHECKED].count(b"\n") + 1, 25))
    verdict = check_laws(data) if found.choices.get("check") == "laws" else verify_input(data, found.numbers)
    if verdict.lines is None:
        return 9, str(verdict)
    out.write(str(verdict).encode() + b"\n")
    return 0, ""


def verify_input(data: bytes, budgets: Dict[str, int]) -> Verdict:
    """The verdict on a scenario, a line of four equals signs, and a trace."""
    if data.startswith(b"====\n"):
        at = 0
    else:
        at = data.find(b"\n====\n") + 1
        if at == 0 and data.endswith(b"\n====") or data == b"====":
            at = len(data) - 4
        elif at == 0:
            raise Refused(Refusal(max(1, data.count(b"\n") + (not data.endswith(b"\n"))), 24))
    return verify(read(data[:at]), data[at + 5:], **budgets)


def storm_of(size: int) -> Scenario:
    """The scenario of a storm: N greenlets hand one unit of a semaphore on."""
    return read(f"""sem s 0
group g
def w i
acquire s within 1000
release s
end
def main
let i 1
while <= i {size}
gspawn g w i
let i + i 1
end
sleep 0
release s
gjoin g
print counter s
end
""".encode())


def call_storm(found: Command, data: bytes, out: BinaryIO) -> Tuple[int, str]:
    """storm"""
    size = found.numbers["size"]
    lines = 0

    def count(line: Line) -> None:
        nonlocal lines
        lines += 1

    machine = IndexedMachine(storm_of(size), 10000000, 100000000, ScriptWorld(), count)
    machine.go()
    told = {"storm": size, "greenlets": len(machine.greenlets), "turns": machine.turns, "moves": machine.moves,
            "moment": machine.now, "lines": lines}
    out.write("".join(f"{name} {n}\n" for name, n in told.items()).encode())
    return 0, ""


COMMANDS = {"run": call_run, "fmt": call_fmt, "verify": call_verify, "storm": call_storm}


def answer(words: Sequence[str], given: bytes) -> Answered:
    """What a command answers to this input."""
    out = io.BytesIO()
    status, complaint = call(words, io.BytesIO(given), out)
    return Answered(status, out.getvalue(), complaint)
