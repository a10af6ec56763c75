"""Texts of scenarios, made by chance: the same number gives the same text.

wild(seed) makes a scenario of any statements on any operands, right or wrong, in profile 2 or 3. mutated(text, chance) makes
one or a few changes of a text, of which most are refused.
"""
import random
from typing import List, Sequence

from .syntax import BINARY, BLOCKS, GIVES, IN_RAW, JOBS, OBJECTS, QUERIES, SHAPES, UNARY, WORDS
from .values import CLASSES, WRITTEN_FAULTS

OPENING = ("def", "rawdef") + BLOCKS
MIDDLE = ("else", "except", "finally")


def indented(lines: Sequence[str]) -> str:
    """The text of these lines, each as far in as the printed form has it."""
    made, depth = [], 0
    for line in lines:
        word = line.split(" ")[0]
        depth -= word == "end" or word in MIDDLE
        made.append("  " * depth + line + "\n")
        depth += word in OPENING or word in MIDDLE
    return "".join(made)


# ---------------------------------------------------------------- texts of any statements

WILD_OBJECTS = ("event e", "result r", "sem s 1", "bsem b 1", "rlock l", "queue q fifo 2", "queue v lifo none", "queue p prio 2",
                "queue t join none", "group m", "pool o 2", "native n 2", "channel c")
SORTS = {line.split(" ")[1]: " ".join(["queue", line.split(" ")[2]] if line.startswith("queue") else line.split(" ")[:1])
         for line in WILD_OBJECTS}
NUMBERS = ("0", "1", "2", "3", "5", "-1", "9223372036854775807", "-9223372036854775808", "64", "7")
NAMES = ("x", "y", "z", "h")


class Wild:
    """Makes a scenario of any statements that the rules on names allow."""

    def __init__(self, chance: random.Random) -> None:
        self.chance = chance
        self.left = chance.randint(10, 60)              # how many statements are still to be made

    def expression(self, level: int = 0) -> str:
        """Any expression."""
        share = self.chance.random()
        if level > 3 or share < 0.55:
            return self.chance.choice((*NAMES, *NAMES, *NUMBERS[:5], "self", "none", "true", "false"))
        if share < 0.62:
            return self.chance.choice((*WRITTEN_FAULTS, "Error 1", self.chance.choice(NUMBERS)))
        if share < 0.8:
            operator = self.chance.choice(BINARY)
            return f"{operator} {self.expression(level + 1)} {self.expression(level + 1)}"
        if share < 0.9:
            return f"{self.chance.choice(UNARY)} {self.expression(level + 1)}"
        if share < 0.95:
            count = self.chance.choice((0, 1, 2, 2, 3))
            return " ".join(["list", str(count), *[self.expression(level + 1) for _ in range(count)]])
        query = self.chance.choice(list(QUERIES))
        return f"{query} {self.thing(QUERIES[query])}"

    def thing(self, sorts: Sequence[str]) -> str:
        """The name of an object of these sorts."""
        return self.chance.choice([name for name, sort in SORTS.items() if sort in sorts])

    def ms(self) -> str:
        return self.chance.choice(("0", "1", "5", "5", "10"))

    def part(self, word: str, part: str) -> str:
        """One part of the shape of a statement, with its blank; nothing where it is left out."""
        often = self.chance.random() < 0.4
        if part in ("def", "values"):
            return ""                                   # by call, below
        made = {"value": self.operand(word), "local": self.chance.choice(NAMES), "def1": "w1", "rawdef": "rw",
                "ms": self.ms(), "ms|none": self.chance.choice((self.ms(), "none")),
                "timed": f"within {self.ms()}" if often else "",
                "wait": self.chance.choice((f"within {self.ms()}", "now")) if often else "",
                "?now": "now" if often else "", "job": self.chance.choice(JOBS), "?silent": "silent" if often else "",
                "?immediate": "immediate" if often else "", "?count": "count 1" if often else "",
                "?takes": f"takes {self.ms()}" if often else "", "?with": f"with {self.fault()}" if often else "",
                "?under": f"under {self.expression(3)}" if often else "",
                "mark|set": self.chance.choice(("mark 7", "set e"))}
        made_so = self.thing(OBJECTS[word]) if part == "object" else made[part]
        return f" {made_so}" if made_so else ""

    def fault(self) -> str:
        return self.chance.choice(("Error 4", "ValueError", "GreenletExit", self.expression(3)))

    def operand(self, word: str) -> str:
        """An operand that a statement may well take."""
        if self.chance.random() < 0.25:
            return self.expression()
        if word in ("if", "while"):
            return self.chance.choice((f"< {self.expression(3)} 2", f"ready {self.expression(3)}", f"isset {self.thing(('event',))}"))
        if word in ("joinall", "killall"):
            return f"list 2 {self.chance.choice(NAMES)} {self.chance.choice(NAMES)}"
        if word == "map":
            return f"list 2 {self.expression(3)} 4"
        if word in ("raise", "rfail"):
            return self.fault()
        if word == "nspawn":
            return self.chance.choice(NUMBERS)
        return self.expression(2)

    def statement(self, is_raw: bool) -> str:
        """Any statement; of a block its head."""
        words = IN_RAW if is_raw else list(SHAPES)
        word = self.chance.choice(words)
        line = word + "".join(self.part(word, part) for part in SHAPES[word].split())
        if "def" in SHAPES[word].split():
            count = self.chance.choice((0, 1))
            line += f" w{count}" + f" {self.expression(2)}" * count
        into = word in GIVES and self.chance.random() < 0.7
        return f"{self.chance.choice(NAMES)} <- {line}" if into else line

    def body(self, is_raw: bool, level: int) -> List[str]:
        """A few statements."""
        made: List[str] = []
        for _ in range(self.chance.randint(1, 5)):
            line = self.statement(is_raw)
            word = line.split(" ")[0]
            self.left -= 1
            if word not in BLOCKS:
                made.append(line)
            elif level < 4 and self.left > 0:
                made += [line, *self.body(is_raw, level + 1), *self.rest(word, is_raw, level), "end"]
        return made

    def rest(self, word: str, is_raw: bool, level: int) -> List[str]:
        """What follows the first body of a block."""
        share = self.chance.random()
        if word == "if" and share < 0.4:
            return ["else", *self.body(is_raw, level + 1)]
        if word != "try":
            return []
        made: List[str] = []
        if share < 0.8:
            made += [f"except {self.chance.choice(CLASSES)} x", *self.body(is_raw, level + 1)]
        if share < 0.5:
            made += ["except any", *self.body(is_raw, level + 1)]
        return made + (["finally", *self.body(is_raw, level + 1)] if share > 0.6 else [])

    def guarded(self, lines: List[str]) -> List[str]:
        """These lines, so that a fault in one of a few of them does not end all."""
        made: List[str] = []
        for line in lines:
            is_one = line.split(" ")[0] not in (*BLOCKS, *MIDDLE, "end") and self.chance.random() < 0.85
            made += ["try", line, "except any f", "print f", "end"] if is_one else [line]
        return made

    def scenario(self) -> str:
        """The whole text."""
        lines = [self.chance.choice(("profile 2", "profile 3")), *WILD_OBJECTS]
        for head in ("rawdef rw m0", "def w0", "def w1 m0", "def main"):
            names = [f"let {name} {self.chance.choice(('0', '1', 'self', 'none', 'list 0'))}" for name in NAMES]
            starts = ["x <- spawn w0", "y <- spawn w1 2", "h <- new w0"] if head == "def main" else []
            body = [line for _ in range(3) for line in self.guarded(self.body(head.startswith("raw"), 1))]
            lines += [head, *names, *starts, *body, "end"]
        return indented(lines)


def wild(seed: object) -> str:
    """The scenario of this seed."""
    return Wild(random.Random(f"wild {seed}")).scenario()


# ---------------------------------------------------------------- changes of a text

VOCABULARY = (*sorted(WORDS), *CLASSES, *BINARY, *NUMBERS, "<-", "main", "w0", "x", "q", "e", "s", "-0", "02", "1.5", "1e3",
              "9223372036854775808", "1000000001", "65", "a" * 24, "a" * 25, "X", "x-y", "_a", "{}", "\"a\"", "profile", "#")


ODD_NUMBERS = ("-1", "-0", "00", "05", "1e3", "65", "257", "10001", "1000001", "1000000001", "9223372036854775808",
               "-9223372036854775809", "99999999999999999999999")
# Lines that may come in, some of them past a limit.
COMING = (
    ["end"], ["else"], ["finally"], ["except any f"], ["profile 2"], ["profile 3"], [""], ["  # x"], ["event e2"],
    ["event e"], ["sem main 1"],
    ["def w0", "end"], ["def main x", "end"], ["rawdef r9 a b", "end"], ["rawdef r9 a", "sleep 5", "end"],
    ["def w9 a a", "end"], ["timeout 5"] * 9 + ["end"] * 9, ["timeout 5"] * 8 + ["end"] * 8, ["if true"] * 31 + ["end"] * 31,
    ["if true"] * 33 + ["end"] * 33, [f"let a{n} 1" for n in range(66)], [f"event a{n}" for n in range(258)],
    ["def w9 " + " ".join(f"a{n}" for n in range(17)), "end"], ["spawn w0 1 2"], ["set main"], ["let main 1"], ["print nobody"])


def mutated(text: str, chance: random.Random) -> bytes:
    """The text with one change, or a few."""
    lines = text.split("\n")[:-1]
    for _ in range(chance.choice((1, 1, 1, 2, 3))):
        change_lines(lines, chance)
    data = ("\n".join(lines) + "\n").encode()
    share = chance.random()
    if share < 0.03:
        at = chance.randrange(len(data))
        return data[:at] + bytes([chance.choice((9, 13, 0, 127, 200, 255))]) + data[at:]
    return data[:-1] if share < 0.05 else data


def change_lines(lines: List[str], chance: random.Random) -> None:
    """One change of the lines."""
    if not lines:
        lines.append("end")
    at = chance.randrange(len(lines))
    share = chance.random()
    if share < 0.1:
        del lines[at]
    elif share < 0.2:
        lines.insert(at, lines[chance.randrange(len(lines))])
    elif share < 0.25:
        other = chance.randrange(len(lines))
        lines[at], lines[other] = lines[other], lines[at]
    elif share < 0.35:
        lines[at:at] = chance.choice(COMING)
    else:
        lines[at] = changed_line(lines[at], chance)


def changed_line(line: str, chance: random.Random) -> str:
    """The line with one change."""
    words = line.strip(" ").split(" ")
    at = chance.randrange(len(words))
    share = chance.random()
    numbers = [place for place, word in enumerate(words) if word.lstrip("-").isdigit()]
    if numbers and chance.random() < 0.3:
        words[chance.choice(numbers)] = chance.choice(ODD_NUMBERS)
    elif share < 0.2:
        del words[at]
    elif share < 0.65:
        words[at] = chance.choice(VOCABULARY)
    elif share < 0.85:
        words.insert(at, chance.choice(VOCABULARY))
    elif share < 0.9:
        words.append(words[at])
    elif share < 0.93:
        words[at] += chance.choice((" ", "x", "0"))
    elif share < 0.96:
        words = ["print"] + ["not"] * chance.choice((30, 31, 32, 33)) + ["true"]
    else:
        words = ["  " + " ".join(words)]
    return " " * (len(line) - len(line.lstrip(" "))) + " ".join(words)
