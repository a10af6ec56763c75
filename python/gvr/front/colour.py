"""Colours of a trace on a terminal. A pipe or a file gets none, nor does NO_COLOR or a terminal that is dumb."""
import os
import sys
from typing import Callable, Dict, Optional

RESET = b"\x1b[0m"
GREY, RED, GREEN, YELLOW, BLUE, BOLD = b"\x1b[90m", b"\x1b[31m", b"\x1b[32m", b"\x1b[33m", b"\x1b[34m", b"\x1b[1m"
OF_KINDS: Dict[bytes, bytes] = {
    b"start": GREEN, b"wake": GREEN, b"into": GREEN, b"park": YELLOW, b"late": RED, b"throw": RED, b"print": BOLD,
    b"link": BLUE, b"job": BLUE, b"block": GREY, b"turn": GREY, b"stop": GREY}


def coloured(line: bytes) -> bytes:
    """A line of a trace with its colour, and with its line feed outside of it."""
    text = line.rstrip(b"\n")
    kind = text.split(b" ", 1)[0]
    colour = OF_KINDS.get(kind)
    if kind == b"end" and b" fault " in text:
        colour = RED
    return colour + text + RESET + line[len(text):] if colour else line


def is_colourful(stream: object) -> bool:
    """Whether the stream is a terminal that shows colours, and the user wants them."""
    is_terminal = getattr(stream, "isatty", lambda: False)()
    return bool(is_terminal) and not os.environ.get("NO_COLOR") and os.environ.get("TERM", "dumb") != "dumb"


def how_to_draw() -> Optional[Callable[[bytes], bytes]]:
    """How lines of a trace are drawn on the standard output, or nothing where they stay as they are."""
    return coloured if is_colourful(sys.stdout) else None
