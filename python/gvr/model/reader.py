"""Reads a text, line by line: LANGUAGE, "Text", and the reasons 1 to 14 and 21 of EXPLAIN."""
from typing import Callable, Dict, List, Set, Union

from .syntax import (BLOCKS, DECLARATIONS, GIVES, JOBS, MOST_LEVELS, MOST_LONG_TEXT, MOST_MARK, MOST_TEXT, NUMBERED,
                     ORDERS, PROFILE_2, SHAPES)
from .tree import Declaration, Except, Expression, Function, Scenario, Statement
from .values import CLASSES
from .words import Refusal, Refused, Words, is_name

MIDDLE = ("else", "except", "finally")


def read_shape(words: Words, made: Statement) -> Statement:
    """Reads what follows the word of a statement."""
    for part in SHAPES[made.word].split():
        PARTS[part](words, made)
    words.end()
    return made


def add_value(words: Words, made: Statement) -> None:
    made.operands += (words.expression(),)


def add_values(words: Words, made: Statement) -> None:
    made.operands += words.expressions()


def add_local(words: Words, made: Statement) -> None:
    made.into = words.name("a local name")
    made.columns["into"] = words.column()


def add_object(words: Words, made: Statement) -> None:
    made.thing = words.name("the name of an object")
    made.columns["thing"] = words.column()


def add_function(words: Words, made: Statement) -> None:
    made.function = words.name("the name of a function")
    made.columns["function"] = words.column()


def add_ms(words: Words, made: Statement) -> None:
    made.ms = words.ms()


def add_ms_or_none(words: Words, made: Statement) -> None:
    made.ms = None if words.maybe("none") else words.ms()


def add_timed(words: Words, made: Statement) -> None:
    if words.maybe("within"):
        made.within = words.ms()


def add_wait(words: Words, made: Statement) -> None:
    word = words.maybe("within", "now")
    made.now = word == "now"
    if word == "within":
        made.within = words.ms()


def add_now(words: Words, made: Statement) -> None:
    made.now = bool(words.maybe("now"))


def add_mark_or_set(words: Words, made: Statement) -> None:
    if words.one_of(("mark", "set")) == "mark":
        made.number = words.number(0, MOST_MARK)
    else:
        add_object(words, made)


def add_job(words: Words, made: Statement) -> None:
    made.option = words.one_of(JOBS)


def add_with(words: Words, made: Statement) -> None:
    if words.maybe("with"):
        add_value(words, made)


def add_under(words: Words, made: Statement) -> None:
    if words.maybe("under"):
        add_value(words, made)


def add_count(words: Words, made: Statement) -> None:
    if words.maybe("count"):
        made.number = words.number(0, 64)


def add_takes(words: Words, made: Statement) -> None:
    if words.maybe("takes"):
        made.ms = words.ms()


def add_option(words: Words, made: Statement) -> None:
    made.option = words.maybe("silent", "immediate")


PARTS: Dict[str, Callable[[Words, Statement], None]] = {
    "value": add_value, "values": add_values, "local": add_local, "object": add_object,
    "def": add_function, "def1": add_function, "rawdef": add_function, "ms": add_ms, "ms|none": add_ms_or_none,
    "timed": add_timed, "wait": add_wait, "?now": add_now, "mark|set": add_mark_or_set, "job": add_job,
    "?with": add_with, "?under": add_under, "?count": add_count, "?takes": add_takes,
    "?silent": add_option, "?immediate": add_option}


class Block:
    """An open block: what opened it, its word, and the body to which the next statement goes."""

    def __init__(self, word: str, opened: Union[Function, Statement], body: List[Statement]) -> None:
        self.word, self.opened, self.body = word, opened, body


class Reader:
    """Reads line after line. With all_refusals it goes on behind a line that is refused, and keeps why."""

    def __init__(self, all_refusals: bool = False) -> None:
        self.scenario = Scenario()
        self.open: List[Block] = []
        self.has_begun = False                      # whether a line came that carries something
        self.all_refusals = all_refusals
        self.refusals: List[Refusal] = []
        self.doubtful: Set[str] = set()             # the names of refused lines: what they declare isn't known

    def line(self, number: int, raw: str) -> None:
        """One line of the text."""
        text = raw.lstrip(" ")
        if text == "" or text[0] == "#":
            return
        try:
            self.words_of(number, text, len(raw) - len(text))
        except Refused as refused:
            if not self.all_refusals:
                raise
            self.refusals.append(refused.refusal)
            self.go_on(text.split(" "), number)

    def words_of(self, number: int, text: str, indent: int) -> None:
        words = Words(number, text, indent)
        if "  " in text or text[-1] == " ":
            at = next(i for i, word in enumerate(words.words) if word == "")
            words.refuse(4, "one blank between two words, none at the end", at)
        is_first, self.has_begun = not self.has_begun, True
        if len(words.words) > 1 and words.words[1] == "<-":
            return self.giving(words)
        word = words.take("")
        if word == "profile":
            self.profile(words, is_first)
        elif word in PROFILE_2 and self.scenario.profile == 1:
            words.refuse(5, "a word of profile 1", 0)
        elif word in DECLARATIONS:
            if self.open or self.scenario.functions:
                words.refuse(13, "a place above all functions", 0)
            self.scenario.objects.append(declaration(words, word))
        elif word in ("def", "rawdef"):
            if self.open:
                words.refuse(13, "a place outside of all functions", 0)
            self.define(words, word)
        elif word in MIDDLE or word == "end":
            self.block_word(words, word)
        elif word in SHAPES:
            self.statement(words, word, Statement(word, number))
        else:
            words.refuse(5, "a statement" if self.open else "a declaration or a function", 0)

    def giving(self, words: Words) -> None:
        """A line whose second word is `<-`."""
        made = giving_head(words, self.scenario.profile)
        self.statement(words, made.word, made)

    def profile(self, words: Words, is_first: bool) -> None:
        if not is_first:
            words.refuse(13, "the first line of the text", 0)
        named = words.number(2, 3)
        words.end()
        self.scenario.profile = named

    def define(self, words: Words, word: str) -> None:
        made = Function(words.name("the name of the function"), word == "rawdef", [], words.line)
        made.columns = [words.column()]
        if made.raw:
            made.parameters.append(words.name("the name of its parameter"))
            words.end()
        while words.left():
            made.parameters.append(words.name("the name of a parameter"))
        made.columns += words.columns[2:2 + len(made.parameters)]
        self.scenario.functions.append(made)
        self.open.append(Block("def", made, made.body))

    def statement(self, words: Words, word: str, made: Statement) -> None:
        at = words.at - 1
        if not self.open:
            words.refuse(13, "a function around it", at)
        if word in BLOCKS and len(self.open) >= MOST_LEVELS:
            words.refuse(21, f"at most {MOST_LEVELS} blocks inside each other", at)
        made.columns["word"] = words.columns[at]
        read_shape(words, made)
        self.open[-1].body.append(made)
        if word in BLOCKS:
            self.open.append(Block(word, made, made.body))

    def block_word(self, words: Words, word: str) -> None:
        """`end`, `else`, `except` or `finally`."""
        if not self.open:
            words.refuse(11, "a block around it", 0)
        block = self.open[-1]
        made = block.opened
        if word == "end":
            if isinstance(made, Statement) and made.word == "try" and not made.excepts and made.final is None:
                words.refuse(11, "except or finally", 0)
            words.end()
            made.end_line = words.line
            self.open.pop()
            return
        if not isinstance(made, Statement) or made.word != ("if" if word == "else" else "try"):
            words.refuse(11, "an open if" if word == "else" else "an open try", 0)
        if made.other is not None or made.final is not None:
            words.refuse(11, "end", 0)
        block.body = middle(words, word, made)

    def go_on(self, words: List[str], number: int) -> None:
        """Behind a refused line: what it opens or closes is opened or closed all the same."""
        self.doubtful.update(word for word in words if is_name(word))
        if words[0] in ("def", "rawdef"):
            if not self.open:
                name = words[1] if len(words) > 1 and is_name(words[1]) else ""
                self.open.append(Block("def", Function(name, words[0] == "rawdef", [], number), []))
        elif words[0] in BLOCKS and self.open:
            made = Statement(words[0], number)
            self.open.append(Block(words[0], made, made.body))
        elif words[0] == "end" and self.open:
            self.open.pop()
        elif words[0] in MIDDLE and self.open and isinstance(self.open[-1].opened, Statement):
            made = self.open[-1].opened
            made.excepts.append(Except("any", None, number, 0, []))

    def end(self, number: int) -> None:
        """Behind the last line, which has this number."""
        if self.open:
            wanted = f"end, for the {self.open[-1].word} of line {self.open[-1].opened.line}"
            self.refuse(Refusal(number, 12, wanted=wanted))
        elif not any(f.name == "main" and not f.raw for f in self.scenario.functions):
            if "main" not in self.doubtful:
                self.refuse(Refusal(number, 14, wanted="def main"))

    def refuse(self, refusal: Refusal) -> None:
        """Refuses, or keeps it where all refusals are wanted."""
        if not self.all_refusals:
            raise Refused(refusal)
        self.refusals.append(refusal)


def giving_head(words: Words, profile: int) -> Statement:
    """The first three words of `NAME <- STATEMENT ..`."""
    into = words.name("the local name that gets the value")
    words.take("<-")
    word = words.one_of(sorted(GIVES), "a statement that gives a value")
    if word in PROFILE_2 and profile == 1:
        words.refuse(5, "a statement of profile 1 that gives a value", 2)
    return Statement(word, words.line, into, columns={"into": words.columns[0]})


def declaration(words: Words, word: str) -> Declaration:
    """A declaration behind its first word."""
    made = Declaration(word, words.name("the name of the object"), words.line, column=words.columns[1])
    if word == "queue":
        made.order = words.one_of(ORDERS)
    if word in NUMBERED and not (word == "queue" and words.maybe("none")):
        made.n = words.number(*NUMBERED[word])
    words.end()
    return made


def middle(words: Words, word: str, made: Statement) -> List[Statement]:
    """The rest of an `else`, `except` or `finally`, and the body that it opens."""
    if word == "except":
        name = words.one_of(CLASSES, "a class of faults")
        into = words.name("the name that gets the fault") if words.left() else None
        words.end()
        made.excepts.append(Except(name, into, words.line, words.column(), []))
        return made.excepts[-1].body
    words.end()
    body: List[Statement] = []
    if word == "else":
        made.other = body
    else:
        made.final = body
    return body


def says_long(data: bytes) -> bool:
    """Whether a text that begins so may be long: its first line that carries something is `profile 3`."""
    for line in data.split(b"\n")[:-1]:
        said = line.lstrip(b" ")
        if said and not said.startswith(b"#"):
            return said == b"profile 3"
    return False


def byte_refusals(data: bytes) -> List[Refusal]:
    """What is wrong with the bytes of the text; the first is the one that is told."""
    is_long = says_long(data[:MOST_TEXT])
    most = MOST_LONG_TEXT if is_long else MOST_TEXT
    if len(data) > most:
        return [Refusal(data[:most].count(b"\n") + 1, 26 if is_long else 1)]
    found = []
    for number, line in enumerate(data.split(b"\n"), 1):
        if not (line.isascii() and line.decode("ascii").isprintable()):
            column = next(i for i, byte in enumerate(line) if not 0x20 <= byte <= 0x7E)
            found.append(Refusal(number, 2, column + 1, wanted="a byte from blank to ~"))
    if not found and data and not data.endswith(b"\n"):
        line_end = len(data) - data.rfind(b"\n")
        found.append(Refusal(data.count(b"\n") + 1, 3, line_end, wanted="a line feed"))
    return found


def read_text(data: bytes, all_refusals: bool = False) -> Reader:
    """Reads a text by all rules but those on names. Raises Refused, or keeps all refusals in the Reader."""
    reader = Reader(all_refusals)
    for refusal in byte_refusals(data):
        reader.refuse(refusal)
    if reader.refusals:
        return reader
    lines = data.decode("ascii").split("\n")[:-1]
    for number, line in enumerate(lines, 1):
        reader.line(number, line)
    reader.end(max(1, len(lines)))
    return reader


def read_statement(text: str) -> Statement:
    """One statement, as it stands in a body of profile 2 or 3; of a block its head. Names are not checked."""
    words = Words(1, text)
    if len(words.words) > 1 and words.words[1] == "<-":
        return read_shape(words, giving_head(words, 2))
    word = words.take("a statement")
    if word not in SHAPES:
        words.refuse(5, "a statement", 0)
    return read_shape(words, Statement(word, 1))


def read_declaration(text: str) -> Declaration:
    """One declaration, of profile 2 or 3."""
    words = Words(1, text)
    word = words.one_of(DECLARATIONS, "a declaration")
    return declaration(words, word)


def read_expression(text: str) -> Expression:
    """One expression."""
    words = Words(1, text)
    found = words.expression()
    words.end()
    return found
