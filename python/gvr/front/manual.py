"""The manual page and the completions, made from the table of the commands: `python -m gvr.front.manual --write`."""
import re
import sys
from typing import Dict, List

from . import explain
from .commands import BY_NAME, COMMANDS, GROUPS, OPTIONS, Command, options_of
from .program import TOP

HEAD = r"""'\" t
.TH GVR 1 "" "gvr" "User commands"
.SH NAME
gvr \- runs scenarios of greenlets, and writes the exact trace of each
.SH SYNOPSIS"""
TAIL = r""".SH EXAMPLES
.EX
gvr run examples/three_at_once.gvr
gvr verify FILE.gvr FILE.trace
.EE
.SH SEE ALSO
The pages of docs/: TOUR.md to learn it, EXPLAIN.md for each refusal and status, LANGUAGE.md for each command and
statement, LIBRARY.md to run scenarios from a program of one's own, PROVED.md for what is proved."""
PROOF = r"""A proof shows that the trace of
.B gvr run
is what is written, or a beginning of it if memory or a stream fails.
The built program has the commands run, fmt, verify, storm, wsgi and serve, over the standard input;
what the others do, and what they do with files, is not proved."""


def set_words(words: str) -> str:
    """The words of a synopsis: options are bold, and what is to be put in stands in italics."""
    text = re.sub(r"\b[A-Z]+(?:\.[a-z]+)?(?::[A-Z]+)?\b", lambda found: rf"\fI{found[0]}\fP", words)
    text = re.sub(r"--[a-z]+", lambda found: rf"\fB{found[0]}\fP", text)
    return text.replace("-", r"\-")


def synopsis() -> List[str]:
    """The synopsis of all commands."""
    lines: List[str] = []
    for command in COMMANDS:
        for words in command.synopsis:
            lines += [f"\\fBgvr {command.name}\\fP {set_words(words)}", ".br"]
    return lines[:-1]


def description() -> List[str]:
    """What each command does, by groups."""
    lines: List[str] = []
    for title, names in GROUPS:
        lines.append(f".SS {title}")
        for name in names:
            lines += [".TP", f".B gvr {name}", in_troff(BY_NAME[name].says)]
    return lines


def in_troff(text: str) -> str:
    """A sentence with what stands between backticks in bold."""
    return re.sub(r"`([^`]*)`", r"\\fB\1\\fP", text).replace("-", r"\-")


def options() -> List[str]:
    """What each option says. That of fmt is told with it."""
    lines = ["The options stand behind the command in any order, each at most once, as", r".B \-\-turns 5", "or",
             r".BR \-\-turns=5 ."]
    for option in OPTIONS.values():
        name = option.name.replace("-", r"\-")
        lines.append(".TP")
        value = f' " {option.value}"' if option.value else ""
        lines.append((".BI " if option.value == "N" else ".BR ") + name + value)
        lines.append(option.says.replace("--", r"\-\-"))
    return lines


def statuses() -> List[str]:
    """The statuses, as EXPLAIN has them."""
    return [".TS", "tab(|);", "l l.", *(f"{number}|{means}" for number, means in explain.statuses()), ".TE"]


def page() -> str:
    """The manual page."""
    lines = [HEAD, *synopsis(), ".SH DESCRIPTION", *description(), ".PP", PROOF, ".SH OPTIONS", *options(),
             ".SH EXIT STATUS", *statuses(), TAIL]
    return "\n".join(lines) + "\n"


def options_by_command() -> Dict[str, List[str]]:
    """The options of each command that has some."""
    return {it.name: [option.name for option in options_of(it)] for it in COMMANDS if it.options}


def bash_completion() -> str:
    """Completion for bash."""
    words = {it.name: it.value.replace("|", " ") for it in OPTIONS.values() if "|" in it.value}
    lines = ["# Completion of gvr's words for bash: . tools/completion/gvr.bash", "_gvr() {",
             "  local word=${COMP_WORDS[COMP_CWORD]} before=${COMP_WORDS[COMP_CWORD - 1]} options=", "  case $before in"]
    lines += [f'    {name}) [ "${{COMP_WORDS[1]}}" = fmt ] || {{ COMPREPLY=($(compgen -W "{value}" -- "$word")); return; }} ;;'
              for name, value in words.items()]
    lines += ["  esac", '  if [ "$COMP_CWORD" -eq 1 ]; then',
              f'    COMPREPLY=($(compgen -W "{" ".join(BY_NAME)} --help --version" -- "$word"))', "    return", "  fi",
              "  case ${COMP_WORDS[1]} in"]
    lines += [f'    {name}) options="{" ".join(names)}" ;;' for name, names in options_by_command().items()]
    files = "|".join(it.name for it in COMMANDS if it.takes_files)
    lines += ["  esac", "  case $word in", '    -*) COMPREPLY=($(compgen -W "$options --help" -- "$word")) ;;',
              "    *) case ${COMP_WORDS[1]} in", f'      {files}) COMPREPLY=($(compgen -f -- "$word")) ;;',
              '      *) COMPREPLY=($(compgen -W "$options --help" -- "$word")) ;;', "    esac ;;", "  esac", "}",
              "complete -F _gvr gvr ./gvr"]
    return "\n".join(lines) + "\n"


def zsh_arguments(command: Command) -> str:
    """The options of a command, as _arguments of zsh takes them."""
    parts = []
    for it in options_of(command):
        value = f":{it.name[2:]}" + (f":({it.value.replace('|', ' ')})" if "|" in it.value else "") if it.value else ""
        parts.append(f"'{it.name}[{it.short}]{value}'")
    parts.append("'--help[tell more]'")
    return " \\\n      ".join([*parts, *(["'*:file:_files'"] if command.takes_files else [])])


def zsh_completion() -> str:
    """Completion for zsh."""
    lines = ["#compdef gvr", "# Completion of gvr's words for zsh: put this file into a folder of $fpath.", "_gvr() {",
             "  local -a commands", "  commands=("]
    lines += [f"    '{it.name}:{it.short}'" for it in COMMANDS]
    lines += ["  )", "  if (( CURRENT == 2 )); then", "    _describe command commands", "    return", "  fi",
              "  case ${words[2]} in"]
    lines += [f"    {it.name}) _arguments {zsh_arguments(it)} ;;" for it in COMMANDS]
    return "\n".join([*lines, "  esac", "}", '_gvr "$@"']) + "\n"


FILES = {"docs/gvr.1": page, "tools/completion/gvr.bash": bash_completion, "tools/completion/_gvr": zsh_completion}


def main() -> None:
    """Writes the files, or tells which of them are not as they are made."""
    differ = [name for name, made in FILES.items() if (TOP / name).read_text() != made()]
    for name in differ:
        if sys.argv[1:] == ["--write"]:
            (TOP / name).write_text(FILES[name]())
        else:
            print(f"{name} is not what its table makes: tools/python -m gvr.front.manual --write")
    sys.exit(bool(differ) and sys.argv[1:] != ["--write"])


if __name__ == "__main__":
    main()
