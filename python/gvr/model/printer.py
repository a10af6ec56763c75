"""The printed form of a scenario, which `fmt` writes."""
from typing import Iterator, List

from .syntax import QUERIES, SHAPES
from .tree import Declaration, Expression, Scenario, Statement
from .values import Fault, value_text


def expression_text(e: Expression) -> str:
    """As the scenario has it."""
    if e.form == "constant":
        if isinstance(e.value, Fault) and e.value.n is not None:
            return f"{e.value.kind} {e.value.n}"
        return value_text(e.value)
    if e.form == "name":
        return e.name
    words = [e.form]
    if e.form in QUERIES:
        words.append(e.name)
    if e.form == "list":
        words.append(str(len(e.operands)))
    return " ".join(words + [expression_text(x) for x in e.operands])


def statement_text(st: Statement) -> str:
    """The line of a statement; of a block its first one."""
    shape = SHAPES[st.word].split()
    words = [st.word] if st.into is None or "local" in shape else [st.into, "<-", st.word]
    operands = iter(st.operands)
    for part in shape:
        words += part_words(st, part, operands)
    return " ".join(words)


def part_words(st: Statement, part: str, operands: Iterator[Expression]) -> List[str]:
    """The words of one part of the shape."""
    if part == "value":
        return [expression_text(next(operands))]
    if part == "values":
        return [expression_text(e) for e in operands]
    if part in ("?with", "?under"):
        return [word for e in operands for word in (part[1:], expression_text(e))]
    if part in ("def", "def1", "rawdef"):
        return [st.function]
    if part == "object":
        return [st.thing]
    if part in ("ms", "ms|none"):
        return ["none" if st.ms is None else str(st.ms)]
    if part in ("timed", "wait", "?now"):
        return ["now"] if st.now else [] if st.within is None else ["within", str(st.within)]
    if part == "mark|set":
        return ["set", st.thing] if st.number is None else ["mark", str(st.number)]
    if part == "local":
        return [str(st.into)]
    if part == "?count":
        return [] if st.number is None else ["count", str(st.number)]
    if part == "?takes":
        return [] if st.ms is None else ["takes", str(st.ms)]
    return [st.option] if st.option else []            # a job, ?silent, ?immediate


def declaration_text(d: Declaration) -> str:
    """The line of a declaration."""
    words = [d.kind, d.name]
    if d.kind == "queue":
        words += [d.order, "none" if d.n is None else str(d.n)]
    elif d.n is not None:
        words.append(str(d.n))
    return " ".join(words)


def body_lines(body: List[Statement], indent: str) -> Iterator[str]:
    """The lines of a body."""
    for st in body:
        yield indent + statement_text(st)
        if st.word not in ("if", "while", "try", "timeout"):
            continue
        yield from body_lines(st.body, indent + "  ")
        for each in st.excepts:
            yield indent + " ".join(["except", each.name] + ([] if each.into is None else [each.into]))
            yield from body_lines(each.body, indent + "  ")
        for word, more in (("else", st.other), ("finally", st.final)):
            if more is not None:
                yield indent + word
                yield from body_lines(more, indent + "  ")
        yield indent + "end"


def printed(scenario: Scenario) -> str:
    """The printed form."""
    lines = [] if scenario.profile == 1 else [f"profile {scenario.profile}"]
    lines += [declaration_text(d) for d in scenario.objects]
    for function in scenario.functions:
        word = "rawdef" if function.raw else "def"
        lines.append(" ".join([word, function.name, *function.parameters]))
        lines += body_lines(function.body, "  ")
        lines.append("end")
    return "".join(line + "\n" for line in lines)
