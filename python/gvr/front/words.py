"""The words of a call: which are options with their values, which are files; and the words of a scenario's first line."""
import re
from typing import List, NamedTuple, Optional, Sequence, Tuple

from .commands import Command, option_of

FIRST_LINE = re.compile(rb"# run((?: [!-~]+)*) *(?:\n|\Z)")


class Call(NamedTuple):
    """The words behind a command: its options with their values, as they are given to the program, and the files."""
    options: Tuple[str, ...]
    files: Tuple[str, ...]

    def has(self, *names: str) -> bool:
        """Whether one of these options is among them."""
        return any(word.partition("=")[0] in names for word in self.options)

    def value(self, name: str) -> Optional[str]:
        """What is given to the option, if it is there."""
        for at, word in enumerate(self.options):
            if word.startswith(name + "="):
                return word.partition("=")[2]
            if word == name:
                return "".join(self.options[at + 1:at + 2])
        return None

    def without(self, name: str) -> "Call":
        """The same without a flag."""
        return self._replace(options=tuple(it for it in self.options if it != name))


def read_call(command: Command, words: Sequence[str]) -> Call:
    """Tells options from files. What is no option of the command stands with the options, so that the program refuses it."""
    options: List[str] = []
    files: List[str] = []
    at = 0
    while at < len(words):
        word = words[at]
        at += 1
        if not word.startswith("-") or word == "-":
            files.append(word)
            continue
        options.append(word)
        option = option_of(command, word)
        if option and option.value and at < len(words):
            options.append(words[at])
            at += 1
    return Call(tuple(options), tuple(files))


def first_line_words(text: bytes) -> Optional[List[str]]:
    """The words of a first line `# run WORDS`, if the text begins with one."""
    found = FIRST_LINE.match(text)
    return found[1].decode("ascii").split() if found else None


def words_to_run(call: Call, text: bytes, obeyed: Sequence[str]) -> List[str]:
    """The options with which a text is run: those of the call, and where none of these names is among them, those of the
    text's first line that have these names."""
    if call.has(*obeyed):
        return list(call.options)
    kept: List[str] = []
    is_kept = False
    for word in first_line_words(text) or []:
        if word.startswith("--"):
            is_kept = word.partition("=")[0] in obeyed
        if is_kept:
            kept.append(word)
    return [*call.options, *kept]
