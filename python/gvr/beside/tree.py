"""The checked tree of a scenario as JSON: the form in which an adapter gets it.

  {"profile": 1,
   "objects":   [{"kind": "sem", "name": "s", "n": 1}, {"kind": "queue", "name": "q", "queue": "fifo", "n": null}],
   "functions": [{"name": "main", "raw": false, "params": [], "body": [STATEMENT..]}]}

A STATEMENT has "do" (its word), "line", and the fields of its row: "into", "e", "e2", "f", "args", "obj", "ms",
"wait" (["now"] or ["within", MS]), "with", "count", "mark", "takes", "job", "under", "silent", "immediate", "name",
"body", "other", "excepts" ([[class, name, BODY]..]), "final". What it does not have is left out.
An EXPRESSION is a list whose first element is its form: ["int", 5], ["name", "x"], ["fault", "Error", 3],
["+", A, B], ["list", [A..]], ["isset", "e"], ["self"].
"""
from typing import Any, Dict, Iterable, Iterator, List

from ..model import Declaration, Expression, Fault, Scenario, Statement, Value, read
from ..model.syntax import SHAPES

Json = Dict[str, Any]
JsonExpression = List[Any]


def constant(value: Value) -> JsonExpression:
    if isinstance(value, Fault):
        return ['fault', value.kind, value.n]
    if value is None or isinstance(value, bool):
        return [{None: 'none', True: 'true', False: 'false'}[value]]
    return ['int', value]


def expression(node: Expression) -> JsonExpression:
    """An expression of the model as a list."""
    if node.form == 'constant':
        return constant(node.value)
    if node.form == 'list':
        return ['list', [expression(x) for x in node.operands]]
    return [node.form] + ([node.name] if node.name else []) + [expression(x) for x in node.operands]


def simple(node: Statement, shape: str) -> Json:
    """The fields of one part of a statement's shape that takes no expression."""
    if shape in ('timed', 'wait', '?now'):
        return {'wait': ['now']} if node.now else {} if node.within is None else {'wait': ['within', node.within]}
    if shape == 'mark|set':
        return {'obj': node.thing} if node.thing else {'mark': node.number}
    named = {'local': ('name', node.into), 'object': ('obj', node.thing), 'def': ('f', node.function),
             'def1': ('f', node.function), 'rawdef': ('f', node.function), 'ms': ('ms', node.ms), 'ms|none': ('ms', node.ms),
             '?takes': ('takes', node.ms), '?count': ('count', node.number), 'job': ('job', node.option),
             '?silent': ('silent', True if node.option else None), '?immediate': ('immediate', True if node.option else None)}
    name, value = named[shape]
    return {} if value is None else {name: value}


def fields(node: Statement) -> Json:
    """What stands behind a statement's word."""
    out: Json = {}
    operands: Iterator[Expression] = iter(node.operands)
    for shape in SHAPES[node.word].split():
        if shape == 'value':
            out['e2' if 'e' in out else 'e'] = expression(next(operands))
        elif shape == 'values':
            out['args'] = [expression(x) for x in operands]
        elif shape in ('?with', '?under'):
            out.update({shape[1:]: expression(x) for x in operands})
        else:
            out.update(simple(node, shape))
    return out


def statement(node: Statement) -> Json:
    """A statement of the model as a dict."""
    out: Json = {'do': node.word, 'line': node.line}
    if node.into is not None and node.word != 'let':
        out['into'] = node.into
    out.update(fields(node))
    if node.word in ('if', 'while', 'try', 'timeout'):
        out['body'] = block(node.body)
    if node.other is not None:
        out['other'] = block(node.other)
    if node.word == 'try':
        out['excepts'] = [[each.name, each.into, block(each.body)] for each in node.excepts]
    if node.final is not None:
        out['final'] = block(node.final)
    return out


def block(statements: Iterable[Statement]) -> List[Json]:
    return [statement(node) for node in statements]


def declaration(node: Declaration) -> Json:
    out: Json = {'kind': node.kind, 'name': node.name}
    if node.kind in ('sem', 'bsem', 'pool', 'native', 'queue'):
        out['n'] = node.n
    if node.kind == 'queue':
        out['queue'] = node.order
    return out


def tree_of(scenario: Scenario) -> Json:
    """The tree of a checked scenario."""
    functions = [{'name': f.name, 'raw': f.raw, 'params': f.parameters, 'body': block(f.body)}
                 for f in scenario.functions]
    return {'profile': scenario.profile, 'objects': [declaration(d) for d in scenario.objects], 'functions': functions}


def tree(text: str) -> Json:
    """The tree of a text; Refused if the model refuses it."""
    return tree_of(read(text.encode()))
