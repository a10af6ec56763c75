"""The text of a record: a scenario, one statement a line.

Three forms are wanted. The record itself; with marks, where each body that goes on stands now (rerun.py reads them);
and telling, with a `print` of what each statement gave or raised (certificate.py compares them).
"""
import re
from typing import Dict, List, NamedTuple, Optional, Tuple

from .folding import fold, group
from .handles import IN_A_LIST
from .record import Block, Bodies, Body, Node, Place, Record, Statement
from .values import Legend

MOST_OBJECTS = 256                               # of a scenario of profile 1 or 2
MOST_TEXT, SHORTEST = 1048576, 12                # bytes of such a one, and of what most statements have at least
MOST_LONG_TEXT = 16777216                        # bytes of a scenario of profile 3
HANDLE = re.compile(r'\Ag([0-9]+)\Z')


class Spelt(NamedTuple):
    """The lines of a scenario, and for each the line of the program that it comes from."""
    lines: List[str]
    places: List[Place]

    @property
    def text(self) -> str:
        return '\n'.join(self.lines) + '\n'

    @property
    def fits(self) -> bool:
        """It is no longer than its profile lets it be."""
        return len(self.text) <= (MOST_LONG_TEXT if 'profile 3' in self.lines else MOST_TEXT)


def spell(record: Record, legend: Legend = (), marks: bool = False, telling: bool = False) -> Spelt:
    """The scenario that a record is; folded where it is too long, and without its legend where it is still so."""
    if marks or record.statements() * SHORTEST <= MOST_TEXT:
        spelt = _Speller(record, marks, telling, False).whole(legend)
        if marks or spelt.fits:
            return spelt
    folded = _Speller(record, marks, telling, True).whole(legend)
    return folded if folded.fits else _Speller(record, marks, telling, True).whole(())


class _Speller:
    def __init__(self, record: Record, marks: bool, telling: bool, folds: bool) -> None:
        self.record, self.marks, self.telling, self.folds = record, marks, telling, folds
        self.lines: List[str] = []
        self.places: List[Place] = []
        self.pad = ''
        self.place: Place = None
        self.at: Dict[int, Tuple[int, int]] = {}         # where a handle stands: which list, which place

    def say(self, line: str, deeper: int = 0) -> None:
        self.lines.append(self.pad + '  ' * deeper + line)
        self.places.append(self.place)

    # ---------------------------------------------------------------- the whole

    def whole(self, legend: Legend) -> Spelt:
        for word, value in legend:
            self.say('# %s stands for %s' % (word, value))
        above = len(self.lines)
        for declaration in self.record.declarations:
            self.place = declaration.place
            self.say(declaration.text)
        self.place = None
        self.results()
        self.profile(above, len(self.lines) - above)
        for function in self.record.functions:
            if isinstance(function, Bodies):
                self.several(function)
            else:
                word = 'rawdef' if function.raw else 'def'
                self.function('%s %s %s' % (word, function.name, function.parameter or ''), function)
        self.function('def main', self.record.main)
        return Spelt(self.lines, self.places)

    def profile(self, above: int, objects: int) -> None:
        """The line of the least profile that has so many objects, above them."""
        profile = self.record.profile if objects <= MOST_OBJECTS else 3
        if profile > 1:
            self.lines.insert(above, 'profile %d' % profile)
            self.places.insert(above, None)

    def results(self) -> None:
        """Those through which handles go."""
        record = self.record
        if not record.lists:
            for number in sorted(record.shared):
                self.say('result h%d' % number)
            return
        for number in record.order:
            maker = record.maker.get(number)
            if maker is not None and maker.raw:
                continue
            if number in record.shared or maker is not None and number in maker.kept:
                self.at[number] = divmod(len(self.at), IN_A_LIST)
        for which in sorted({which for which, _ in self.at.values()}):
            self.say('result handles_%d' % which)

    def several(self, function: Bodies) -> None:
        self.say('def %s %s' % (function.name, function.parameter))
        for choice, body in function.choices.items():
            self.pad = '  '
            chosen = choice if body.holds is None else self.listed(body.holds, {})
            self.say('if == %s %s' % (function.parameter, chosen))
            self.body(body, '    ')
            if body.holds is not None and body.ended and body.final is None and not body.through:
                self.say('return none')                  # the handles of the others need not be there yet
            self.pad = '  '
            self.say('end')
        self.pad = ''
        self.say('end')

    def function(self, head: str, body: Body) -> None:
        self.say(head.rstrip())
        self.body(body, '  ')
        self.pad = ''
        self.say('end')

    def body(self, body: Body, pad: str) -> None:
        self.pad = pad
        self.beginning(body)
        stands = self.marks and not body.ended
        if stands and not body.nodes:
            self.mark('list 0', self.parameter(body))
            return
        self.block(body, body.nodes, stands)
        if not stands and body.final is not None:
            last = Statement(body.final, uses=body.final_uses)
            self.say(self.spelt(body, last))

    def beginning(self, body: Body) -> None:
        """The handles that it hands out or has from the beginning."""
        if body.raw:
            if body.begins_with in body.fetched:
                self.say('let g%d %s' % (body.begins_with or 0, self.parameter(body)))
            for place, number in enumerate(body.wanted):
                self.say('let g%d at p %d' % (number, place + 1))
        elif body.number in self.record.shared and body.number not in self.record.maker:
            self.hand_out(body.number, 'self')

    @staticmethod
    def parameter(body: Body) -> str:
        """The value that a body begins with."""
        if body.raw:
            return 'at p 0' if body.wanted else 'p'
        return body.parameter if body.parameter in ('i', 'p') else 'none'

    # ---------------------------------------------------------------- statements

    def mark(self, first: str, second: str) -> None:
        self.say('print ' + first)
        self.say('print ' + second)

    def block(self, body: Body, nodes: List[Node], stands: bool) -> None:
        """stands: the body stands somewhere in it."""
        here = stands and nodes is body.inner()
        first = len(self.lines)
        begins: List[int] = []
        for place, node in enumerate(nodes):
            begins.append(len(self.lines))
            if isinstance(node, Block):
                self.place = None
                self.say('timeout %s' % ('none' if node.milliseconds is None else node.milliseconds))
                pad, self.pad = self.pad, self.pad + '  '
                self.block(body, node.nodes, stands)
                self.pad = pad
                self.say('end')
            elif here and node is body.last and place == len(nodes) - 1:
                self.standing(body, node)
                return
            else:
                self.statement(body, node)
        if here and (not nodes or isinstance(nodes[-1], Block)):
            self.mark('list 0', 'none')
        if self.folds:
            self.fold(first, begins + [len(self.lines)])

    def fold(self, first: int, begins: List[int]) -> None:
        """Folds the lines from the first on; begins has where each node begins."""
        groups = [group(self.lines[a:b], self.places[a]) for a, b in zip(begins, begins[1:]) if b > a]
        folded = fold(groups)
        self.lines[first:] = [line for line, _ in folded]
        self.places[first:] = [place for _, place in folded]

    def standing(self, body: Body, statement: Statement) -> None:
        """The statement that the body stands at, with a mark for what it gives or raises."""
        text = self.spelt(body, statement)
        gives = statement.gives
        keep = self.kept_as(body, statement) or ('v' if gives and not statement.is_let else None)
        self.say('try')
        self.say(('%s <- %s' % (keep, text)) if keep else text, 1)
        self.say('print list 0', 1)
        self.say('print %s' % ((keep or 'v') if gives else 'none'), 1)
        self.say('except any f')
        self.say('print list 1 0', 1)
        self.say('print f', 1)
        self.say('end')

    def statement(self, body: Body, statement: Statement) -> None:
        if self.record.lists and statement.into is not None and statement.text.startswith('rget h'):
            return                                       # each statement gets its list
        self.place = statement.place
        text = self.spelt(body, statement)
        keep = self.kept_as(body, statement)
        if statement.fault is not None:
            self.faulted(body, statement, text, keep)
        elif self.telling and statement.gives and not statement.pending:
            if not statement.is_let:
                keep = keep or 'v'
            self.say(('%s <- %s' % (keep, text)) if keep else text)
            self.say('print %s' % (keep or 'v'))
        else:
            self.say(('%s <- %s' % (keep, text)) if keep else text)
        if statement.makes is not None and statement.fault is None:
            self.made(body, statement.makes)
        self.place = None

    def faulted(self, body: Body, statement: Statement, text: str, keep: Optional[str]) -> None:
        """A statement that raised a fault, which the body caught or ended by."""
        said = ('%s <- %s' % (keep, text)) if keep else text
        through = body.through and statement is body.last
        if through and not self.telling:
            self.say(said)
            return
        name = 'f' if statement.keep else 'v'
        self.say('try')
        self.say(said, 1)
        self.say('except any ' + name if statement.keep or self.telling else 'except any')
        if self.telling:
            self.say('print ' + name, 1)
            if through:
                self.say('raise ' + name, 1)
        self.say('end')

    def kept_as(self, body: Body, statement: Statement) -> Optional[str]:
        """The local name that keeps what a statement gives."""
        number = statement.makes
        if number is not None:
            if statement.fault is not None or number not in body.kept:
                return None
            return 'g%d' % number if not self.record.lists or body.raw else 'v'
        return statement.into

    def made(self, body: Body, number: int) -> None:
        """Hands out the handle of a greenlet that was just made."""
        if body.raw:
            return
        if number in (body.kept if self.record.lists else self.record.shared):
            self.hand_out(number, 'v' if self.record.lists else 'g%d' % number)

    def hand_out(self, number: int, handle: str) -> None:
        if not self.record.lists:
            self.say('rset h%d %s' % (number, handle))
            return
        which, place = self.at[number]
        if place == 0:
            self.say('rset handles_%d list 1 %s' % (which, handle))
        else:
            self.say('l0 <- rget handles_%d now' % which)
            self.say('rset handles_%d push l0 %s' % (which, handle))

    def spelt(self, body: Body, statement: Statement) -> str:
        """The statement's text, with the handles as this body has them."""
        lists: Dict[int, str] = {}
        words = [HANDLE.sub(lambda m: self.handle(body, int(m.group(1)), lists), word) if statement.uses else word
                 for word in statement.text.split(' ')]
        begun = statement.starts
        if begun is not None and begun.wanted:
            handles = [self.handle(body, number, lists) for number in begun.wanted]
            words[2:] = ['list %d' % (1 + len(handles)), *words[2:], *handles]
        return ' '.join(words)

    def handle(self, body: Body, number: int, lists: Dict[int, str]) -> str:
        if number == body.number:
            return 'self'
        if number == body.holds and body.parameter is not None:
            return body.parameter
        if number not in self.at or body.raw:
            return 'g%d' % number
        return self.listed(number, lists)

    def listed(self, number: int, lists: Dict[int, str]) -> str:
        """A handle of a list, which is got where it is not in a local name by now."""
        which, place = self.at[number]
        if which not in lists:
            lists[which] = 'l%d' % len(lists)
            self.say('%s <- rget handles_%d now' % (lists[which], which))
        return 'at %s %d' % (lists[which], place)
