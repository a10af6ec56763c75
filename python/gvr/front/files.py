"""The texts that a call reads: files, or the standard input."""
import errno
import io
import itertools
import os
import sys
from typing import Optional

from .program import READ_FAULT, Answer

# One byte more than any command reads: it is enough for the program to refuse the text.
MOST_TEXT, MOST_CHECKED = 16777216 + 1, 67108864 + 1


# `./gvr` opens the standard input for writing where it is a folder, over which Python does not start.
OF_NUMBERS = {errno.EBADF: "a folder, or not open for reading"}


class Unread(Exception):
    """A text could not be read; `answer` is what the call ends with."""

    def __init__(self, name: str, fault: OSError) -> None:
        super().__init__(name)
        cause = OF_NUMBERS.get(fault.errno or 0) or fault.strerror or str(fault)
        self.answer = Answer(READ_FAULT, b"", f"gvr: read fault\n{name}: {cause}\n")


def read_input(most: int) -> bytes:
    """The bytes of the standard input, at most so many."""
    if os.isatty(0):
        print("gvr: reads the standard input; Ctrl-D on a line of its own ends it, and a file can be named in place of it",
              file=sys.stderr, flush=True)
    parts = []
    try:
        while most > 0:
            part = os.read(0, min(most, 1 << 20))
            if not part:
                break
            parts.append(part)
            most -= len(part)
    except OSError as fault:
        raise Unread("standard input", fault) from None
    return b"".join(parts)


def read_text(file: Optional[str], most: int) -> bytes:
    """The bytes of a file, or of the standard input where none is named or `-` is, at most so many."""
    if file is None or file == "-":
        return read_input(most)
    try:
        with open(file, "rb") as opened:
            return opened.read(most)
    except OSError as fault:
        raise Unread(file, fault) from None


def nth_line(text: bytes, number: int) -> bytes:
    """The line of this number, from 1, without its line feed; nothing behind the last one."""
    return next(itertools.islice(io.BytesIO(text), number - 1, number), b"").rstrip(b"\n")
