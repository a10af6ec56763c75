"""What each command of the front does. Each call gives an answer: its status, what is still to be written, and what is
said on standard error."""
import os
import pathlib
import subprocess
import sys
import time
from typing import Iterator, List, Optional, Sequence, Tuple

from . import colour, endings, explain, usage, waiting
from .comments import with_comments
from .commands import BY_NAME, RUN_OPTIONS
from .files import MOST_CHECKED, MOST_TEXT, Unread, read_text
from .program import NOT_PROVED, TOP, Answer, ask, built_program, put, show
from .words import Call, first_line_words, read_call, words_to_run

DONE, DIFFERS, NO_COMMAND = 0, 1, 2
BUDGETS = ("--turns", "--moves")
# How often a file that is watched is looked at, in seconds.
LOOK = 0.2
CLEAR = "\x1b[H\x1b[2J\x1b[3J"


def finish(answer: Answer) -> int:
    """Writes what is left of an answer; the status."""
    if answer.out and not put(answer.out):
        return 5
    if answer.complaint:
        sys.stderr.write(answer.complaint)
        sys.stderr.flush()
    return answer.status


def note_the_model() -> None:
    """Tells who answers, if it is not the program."""
    if not built_program():
        print(NOT_PROVED, file=sys.stderr, flush=True)


def with_more(words: List[str], text: bytes, answer: Answer, is_stuck: bool = False) -> Answer:
    """The answer with what the front tells behind it."""
    return answer._replace(complaint=answer.complaint + endings.told(words, text, answer, is_stuck))


def no_command(name: str, call: Call, why: str = "") -> Answer:
    """The answer to files that do not fit a command of the front."""
    return Answer(NO_COMMAND, b"", (f"gvr: {why}\n" if why else "") + usage.wrong_words(BY_NAME[name], call))


def read_one(name: str, words: Sequence[str]) -> Tuple[Call, Optional[Answer]]:
    """The words of a command that takes at most one file; the answer to them if they have more."""
    call = read_call(BY_NAME[name], words[1:])
    return call, no_command(name, call, f"{name} takes one file") if len(call.files) > 1 else None


def file_of(call: Call) -> Optional[str]:
    """The file of a call, if it has one."""
    return call.files[0] if call.files else None


def run(words: List[str]) -> Answer:
    """Runs a scenario; its trace goes out as it comes."""
    call, refused = read_one("run", words)
    if refused:
        return refused
    text = read_text(file_of(call), MOST_TEXT)
    is_of_sources = call.has("--sources")
    asked = ["run", *words_to_run(call.without("--sources"), text, RUN_OPTIONS)]
    if is_of_sources:
        ended = subprocess.run([TOP / "tools/run_sources", *asked], input=text)
        return Answer(ended.returncode, b"", "")
    note_the_model()
    watched = waiting.Watch()
    answer = show(asked, text, colour.how_to_draw(), watched.see if waiting.may_go_on(text) else None)
    return with_more(asked, text, answer, watched.is_stuck)


def formatted(file: Optional[str], call: Call) -> Tuple[bytes, Answer]:
    """A text, and its printed form with its comments, or the answer that refuses it."""
    text = read_text(file, MOST_TEXT)
    asked = ["fmt", *call.without("--check").options]
    answer = ask(asked, text)
    if answer.status:
        return text, with_more(asked, text, answer)
    return text, answer._replace(out=with_comments(text.decode("ascii"), answer.out.decode("ascii")).encode("ascii"))


def checked(file: Optional[str], call: Call) -> Answer:
    """Whether a text is as `fmt` writes it."""
    text, answer = formatted(file, call)
    if answer.status or answer.out == text:
        return answer._replace(out=b"")
    pairs = zip(text.split(b"\n"), answer.out.split(b"\n"))
    line = next(number for number, (one, other) in enumerate(pairs, 1) if one != other)
    return Answer(DIFFERS, b"", f"{file or 'standard input'}: line {line} is not as gvr fmt writes it\n")


def fmt(words: List[str]) -> Answer:
    """Writes the printed form with its comments, or tells which texts are not so."""
    call = read_call(BY_NAME["fmt"], words[1:])
    note_the_model()
    if call.has("--check"):
        answers = [checked(it, call) for it in call.files or [None]]
        return Answer(max(it.status for it in answers), b"", "".join(it.complaint for it in answers))
    if len(call.files) > 1:
        return no_command("fmt", call, "fmt takes one file")
    return formatted(file_of(call), call)[1]


def verify(words: List[str]) -> Answer:
    """Verifies a trace; where it is not the run's, the line that the run has is shown."""
    call = read_call(BY_NAME["verify"], words[1:])
    is_of_laws = call.value("--check") == "laws"
    if len(call.files) not in ((0, 1) if is_of_laws else (0, 2)):
        return no_command("verify", call, "verify takes a scenario and its trace, or no file")
    given = read_text(file_of(call), MOST_CHECKED)
    asked = ["verify", *(call.options if is_of_laws else words_to_run(call, given, BUDGETS))]
    if len(call.files) == 2:
        given += (b"" if given.endswith(b"\n") else b"\n") + b"====\n" + read_text(call.files[1], MOST_CHECKED)
    note_the_model()
    return with_more(asked, given, ask(asked, given))


def scenarios(named: Sequence[str]) -> Iterator[pathlib.Path]:
    """The files that are named, and those NAME.gvr of the folders."""
    for it in map(pathlib.Path, named):
        yield from sorted(it.glob("*.gvr")) if it.is_dir() else [it]


def try_all(words: List[str]) -> Answer:
    """Shows the trace of each scenario under its name, with what is said of it."""
    call = read_call(BY_NAME["try"], words[1:])
    if call.has("--sources"):
        os.execv(TOP / "tools/try_all", ["try_all", *call.files])
    files = list(scenarios(call.files))
    if not files or call.options:
        return no_command("try", call, "which scenarios? There is no file NAME.gvr" if call.files else "which scenarios?")
    note_the_model()
    draw = colour.how_to_draw()
    for file in files:
        text = read_text(str(file), MOST_TEXT)
        asked = ["run", *(first_line_words(text) or [])]
        answer = ask(asked, text)
        answer = with_more(asked, text, answer, waiting.is_stuck(answer.out))
        lines = answer.out if draw is None else b"".join(map(draw, answer.out.splitlines(True)))
        put(f"== {file.stem}\n".encode() + lines + answer.complaint.encode())
        if answer.status:
            put(f"-- {file.stem} ended with status {answer.status}\n".encode())
    return Answer(DONE, b"", "")


def last_save(file: str) -> Optional[Tuple[int, int]]:
    """By what a save of the file is known; nothing where it is not there."""
    try:
        found = os.stat(file)
    except OSError:
        return None
    return found.st_mtime_ns, found.st_size


def answer_to(words: List[str]) -> Answer:
    """Runs a scenario; where it cannot be read, the answer says so."""
    try:
        return run(words)
    except Unread as fault:
        return fault.answer


def watch(words: List[str]) -> Answer:
    """Runs a scenario now and at each save, until it is interrupted."""
    call, refused = read_one("watch", words)
    if refused or not call.files:
        return refused or no_command("watch", call, "which file?")
    seen: object = "nothing yet"
    while True:
        now = last_save(call.files[0])
        if now != seen:
            seen = now
            put((CLEAR if sys.stdout.isatty() else "").encode() + f"-- {call.files[0]}\n".encode())
            status = finish(answer_to(["run", *call.options, call.files[0]]))
            put(f"-- ended with status {status}; waits for the next save, Ctrl-C ends it\n".encode())
        time.sleep(LOOK)


def explained(words: List[str]) -> Answer:
    """Tells what a reason, a status, a cause or a law means."""
    text = explain.explained(words[1:])
    if text is None:
        return no_command("explain", Call((), ()), f"nothing is known of {' '.join(words[1:])}")
    return Answer(DONE, text.encode(), "")


def storm(words: List[str]) -> Answer:
    """Runs the storm."""
    note_the_model()
    return with_more(words, b"", show(words, b""))


def pass_on(words: List[str]) -> Answer:
    """Lets the program, or its sources, do what only these can."""
    ended = subprocess.run([built_program() or TOP / "tools/run_sources", *words])
    return with_more(words, b"", Answer(ended.returncode, b"", ""))


def after(words: List[str]) -> Answer:
    """What is told behind a call of the program that has ended: `after STATUS WORDS..`, with the text as standard input."""
    status, asked = int(words[1]), words[2:]
    text = read_text(None, MOST_TEXT) if asked[0] == "run" else b""
    return Answer(DONE, endings.told(asked, text, Answer(status, b"", "")).encode(), "")
