"""Who answers: the built program, or, where there is none, the model in Python."""
import os
import pathlib
import subprocess
import sys
import tempfile
from typing import IO, Callable, Iterator, NamedTuple, Optional, Sequence

TOP = pathlib.Path(__file__).resolve().parents[3]
NOT_PROVED = ("gvr: a model in Python answers, which nothing proves; ./build proves and builds the program, "
              "and ./gvr run --sources runs its sources")
READ_FAULT, WRITE_FAULT = 4, 5
PIECE = 1 << 16


class Answer(NamedTuple):
    """How a call ended: its status, what it wrote, and what it said on standard error."""
    status: int
    out: bytes
    complaint: str


def built_program() -> Optional[pathlib.Path]:
    """The program that ./build made, or the one that GVR_PROGRAM names, if it is there."""
    program = pathlib.Path(os.environ.get("GVR_PROGRAM") or TOP / "crates/gvr/out/gvr")
    return program if os.access(program, os.X_OK) and program.is_file() else None


def as_input(text: bytes) -> IO[bytes]:
    """A file that is read from its beginning and holds the text."""
    file = tempfile.TemporaryFile()
    file.write(text)
    file.seek(0)
    return file


def ask(words: Sequence[str], text: bytes) -> Answer:
    """What is answered to these words and this standard input, by the program or by the model."""
    program = built_program()
    if program:
        with as_input(text) as given:
            ended = subprocess.run([program, *words], stdin=given, stdout=subprocess.PIPE, stderr=subprocess.PIPE)
        return Answer(ended.returncode, ended.stdout, ended.stderr.decode(errors="replace"))
    from gvr import model
    answered = model.answer(list(words), text)
    return Answer(answered.status, answered.out, f"gvr: {answered.complaint}\n" if answered.complaint else "")


def show(words: Sequence[str], text: bytes, draw: Optional[Callable[[bytes], bytes]] = None,
         see: Optional[Callable[[bytes], None]] = None) -> Answer:
    """The same, with what it writes on the standard output as it comes, each line drawn where it is said how, and each
    piece seen by `see`; `out` is empty then."""
    program = built_program()
    if not program:
        answered = ask(words, text)
        if see:
            see(answered.out)
        lines = answered.out if draw is None else b"".join(map(draw, answered.out.splitlines(True)))
        return answered._replace(out=b"") if put(lines) else Answer(WRITE_FAULT, b"", "gvr: write fault\n")
    with as_input(text) as given:
        how = subprocess.PIPE if draw or see else None
        ran = subprocess.Popen([program, *words], stdin=given, stdout=how, stderr=subprocess.PIPE)
        try:
            for piece in pieces(ran.stdout, is_by_line=draw is not None) if ran.stdout else ():
                if see:
                    see(piece)
                if not put(draw(piece) if draw else piece):
                    return Answer(WRITE_FAULT, b"", "gvr: write fault\n")
            assert ran.stderr
            complaint = ran.stderr.read().decode(errors="replace")
            return Answer(ran.wait(), b"", complaint)
        finally:
            ran.kill()
            ran.wait()


def pieces(file: IO[bytes], is_by_line: bool) -> Iterator[bytes]:
    """What comes, line by line or as it comes."""
    if is_by_line:
        yield from file
    else:
        yield from iter(lambda: os.read(file.fileno(), PIECE), b"")


def put(text: bytes) -> bool:
    """Writes on the standard output; whether that could be done."""
    try:
        sys.stdout.buffer.write(text)
        sys.stdout.buffer.flush()
    except OSError:
        # What is left in the buffer must not fail again at the end.
        os.dup2(os.open(os.devnull, os.O_WRONLY), 1)
        return False
    return True
