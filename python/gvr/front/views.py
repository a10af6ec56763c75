"""Views of a trace, or of the run of a scenario: `diff`, `stats`, `json`."""
from typing import List, Optional, Tuple

from . import compare, json_lines as as_json, replay, stats as counts
from .calls import DIFFERS, DONE, file_of, no_command, note_the_model, read_one, with_more
from .commands import BY_NAME, RUN_OPTIONS
from .files import MOST_CHECKED, MOST_TEXT, read_text
from .program import Answer, ask, built_program
from .traces import Entry, entries
from .words import Call, read_call, words_to_run


class NoTrace(Exception):
    """A file gives no trace; `answer` is what the call ends with."""

    def __init__(self, answer: Answer) -> None:
        super().__init__()
        self.answer = answer


def trace_of(file: Optional[str], call: Call) -> Tuple[List[str], bytes, Answer]:
    """The words and the text of a scenario, and its run; or of a file that holds a trace, with no words and no scenario."""
    text = read_text(file, MOST_CHECKED)
    if text.startswith(b"start g0 "):
        return [], b"", Answer(DONE, text, "")
    asked = ["run", *words_to_run(call, text, RUN_OPTIONS)]
    note_the_model()
    answer = ask(asked, text[:MOST_TEXT])
    if not answer.out:
        raise NoTrace(with_more(asked, text, answer))
    return asked, text, answer


def entries_of(trace: bytes) -> List[Entry]:
    """The lines of a trace; NoTrace where there is one that is none."""
    try:
        return list(entries(trace.decode("ascii", "replace").splitlines()))
    except ValueError as fault:
        raise NoTrace(Answer(9, b"", f"gvr: {fault}\n")) from None


def diff(words: List[str]) -> Answer:
    """Compares two traces, or the runs of two scenarios."""
    call = read_call(BY_NAME["diff"], words[1:])
    if len(call.files) != 2 or call.options:
        return no_command("diff", call, "diff takes two traces or scenarios")
    try:
        a, b = (entries_of(trace_of(file, call)[2].out) for file in call.files)
    except NoTrace as fault:
        return fault.answer
    differences = compare.compared(a, b)
    return Answer(DIFFERS if differences else DONE, differences.encode(), "")


def stats(words: List[str]) -> Answer:
    """Tells how long each greenlet waited."""
    call, refused = read_one("stats", words)
    if refused:
        return refused
    try:
        answer = trace_of(file_of(call), call)[2]
        return answer._replace(out=counts.table(entries_of(answer.out)).encode())
    except NoTrace as fault:
        return fault.answer


def json_lines(words: List[str]) -> Answer:
    """Writes a trace as JSON lines."""
    call, refused = read_one("json", words)
    if refused:
        return refused
    try:
        asked, text, answer = trace_of(file_of(call), call)
        found = entries_of(answer.out)
    except NoTrace as fault:
        return fault.answer
    by = ("program" if built_program() else "model") if asked else "file"
    at = replay.lines(asked, text, answer.out) if asked else []
    lines = [as_json.head(by, asked), *as_json.json_lines(found, at)]
    return answer._replace(out="".join(lines).encode())
