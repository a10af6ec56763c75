"""`python -m gvr.front WORDS..`: what `./gvr WORDS..` does where the call is not one of the program's own as it stands."""
import signal
import sys
from typing import Callable, Dict, List, Optional

from . import calls, explain, usage
from .commands import BY_NAME
from .files import Unread
from .program import Answer
from .version import version_text

NO_COMMAND = 2
USAGE = "gvr: usage: gvr run, fmt, wsgi, serve, storm or verify\n"
CALLS: Dict[str, Callable[[List[str]], Answer]] = {
    "run": calls.run, "fmt": calls.fmt, "verify": calls.verify, "try": calls.try_all, "watch": calls.watch,
    "explain": calls.explained, "storm": calls.storm, "wsgi": calls.pass_on, "serve": calls.pass_on, "after": calls.after}
VIEWS = ("diff", "stats", "json")


def call_of(name: str) -> Optional[Callable[[List[str]], Answer]]:
    """What a command of this name does, if there is one here; what only views need is read only for them."""
    if name in VIEWS:
        from . import views
        return {"diff": views.diff, "stats": views.stats, "json": views.json_lines}[name]
    return CALLS.get(name)


def said(text: str) -> Answer:
    """An answer that only says something."""
    return Answer(0, text.encode(), "")


def answer(words: List[str]) -> Answer:
    """What is answered to the words of a call."""
    if words[:1] in (["--version"], ["-V"], ["version"]):
        return said(version_text())
    if not words:
        return Answer(NO_COMMAND, b"", usage.overview())
    if words[0] in ("--help", "-h", "help"):
        named = BY_NAME.get(words[1]) if len(words) > 1 else None
        return said(usage.help_of(named) if named else usage.overview())
    called = call_of(words[0])
    if called is None:
        return Answer(NO_COMMAND, b"", USAGE + usage.no_command(words[0]))
    if words[0] in BY_NAME and any(it in ("--help", "-h") for it in words[1:]):
        return said(usage.help_of(BY_NAME[words[0]]))
    try:
        return called(words)
    except Unread as fault:
        return fault.answer


def end_by_signal(number: int, _frame: object) -> None:
    """A signal ends the call as it ends a program of its own; what runs below it is ended too."""
    sys.exit(128 + number)


def main() -> None:
    """Answers, and ends with the status."""
    signal.signal(signal.SIGTERM, end_by_signal)
    signal.signal(signal.SIGHUP, end_by_signal)
    try:
        ended = answer(sys.argv[1:])
    except KeyboardInterrupt:
        sys.exit(130)
    status = calls.finish(ended)
    sys.exit(status)


if __name__ == "__main__":
    main()
