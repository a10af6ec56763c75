"""What is wrong with the words of a call that is no command, and the help of each command."""
import difflib
import re
import textwrap
from typing import Iterator, List, Sequence

from .commands import BY_NAME, COMMANDS, GROUPS, Command, Option, option_of, options_of
from .words import Call

WIDTH = 100
# What an option may not stand beside, and what must be given.
NOT_BESIDE = (("--tick", "--native"),)
WANTED = {"serve": ("--port", "--conns"), "storm": ("--size",)}


def filled(text: str, indent: str) -> str:
    """A text in lines of the width, indented."""
    return textwrap.fill(text, WIDTH, initial_indent=indent, subsequent_indent=indent, break_on_hyphens=False)


def synopsis(command: Command) -> List[str]:
    """The forms of a command, each as it is typed."""
    return [f"gvr {command.name} {words}".rstrip() for words in command.synopsis]


def overview() -> str:
    """What `gvr --help` says."""
    lines = ["gvr runs scenarios of greenlets and writes the exact trace of each.", ""]
    for title, names in GROUPS:
        lines.append(f"{title}:")
        lines += [f"  gvr {name:8} {BY_NAME[name].short}" for name in names]
    lines += ["", "gvr COMMAND --help tells more, and gvr --version which version this is. A first scenario:",
              "  gvr run examples/three_at_once.gvr", "docs/TOUR.md teaches the language, docs/LANGUAGE.md has all of it."]
    return "\n".join(lines) + "\n"


def help_of(command: Command) -> str:
    """What `gvr COMMAND --help` says: the synopsis, what it does, and its options."""
    lines = [("usage: " if at == 0 else "       ") + it for at, it in enumerate(synopsis(command))]
    lines += ["", filled(command.says, "")]
    for option in options_of(command):
        lines += ["", f"  {option.name} {option.value}".rstrip(), filled(option.says, "      ")]
    return "\n".join(lines) + "\n"


def nearest(word: str, names: Sequence[str]) -> str:
    """A question after the name that was meant, or nothing."""
    found = difflib.get_close_matches(word, names, 1)
    return f"; did you mean {found[0]}?" if found else ""


def value_fault(option: Option, value: str) -> str:
    """What is wrong with the value of an option, or nothing."""
    if option.value != "N":
        words = option.value.split("|")
        return "" if value in words else f"{option.name} takes {' or '.join(words)}, and not {value or 'nothing'}"
    found = re.search(r"(\d+) to (\d+)", option.says)
    least, most = (int(found[1]), int(found[2])) if found else (0, 0)
    if not re.fullmatch("0|[1-9][0-9]*", value) or not least <= int(value) <= most:
        return f"{option.name} takes a number from {least} to {most}, with no zero in front, and not {value or 'nothing'}"
    return ""


def option_faults(command: Command, call: Call) -> Iterator[str]:
    """What is wrong with each option by itself."""
    seen: List[str] = []
    words = list(call.options)
    while words:
        name, has_value, value = words.pop(0).partition("=")
        option = option_of(command, name)
        if option is None:
            yield f"{command.name} has no option {name}{nearest(name, command.options)}"
            continue
        if name in seen:
            yield f"{name} is given twice"
        seen.append(name)
        if option.value:
            fault = value_fault(option, value if has_value or not words else words.pop(0))
            if fault:
                yield fault


def faults(command: Command, call: Call) -> List[str]:
    """What is wrong with the words of a call, as far as this can tell."""
    found = list(option_faults(command, call))
    found += [f"{a} does not stand beside {b}" for a, b in NOT_BESIDE if call.has(a) and call.has(b)]
    if call.has("--order") and not call.has("--native"):
        found.append("--order stands beside --native alone")
    if call.has("--jobs") and call.value("--gateway") == "scgi":
        found.append("--jobs does not stand beside --gateway scgi")
    if call.value("--check") == "laws" and call.has("--turns", "--moves"):
        found.append("--turns and --moves do not stand beside --check laws")
    found += [f"{name} has to be given" for name in WANTED.get(command.name, ()) if not call.has(name)]
    if call.files and not command.takes_files:
        found.append(f"{command.name} takes no file, and {call.files[0]} is no option")
    return found


def no_command(word: str) -> str:
    """What is said of a first word that is no command."""
    return f"there is no command {word}{nearest(word, [it.name for it in COMMANDS])}\n"


def wrong_words(command: Command, call: Call) -> str:
    """What is said of words that are no command, and how the command is written."""
    lines = faults(command, call) + [f"usage: {it}" for it in synopsis(command)]
    return "".join(f"{it}\n" for it in lines)
