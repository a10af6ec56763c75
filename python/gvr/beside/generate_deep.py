"""Scenarios of what the other profiles leave out: the profile `deep`.

Bodies spawn others, raise, and may be given main to kill it; links wait, act and set events; maps and members of groups
end by faults or survive a kill; killall and kill have limits; of three that are joined one or two are counted;
outcomes are asked for.
"""
from typing import Sequence

from .generate import THEMES, Bodies, Lines, Maker


class Deep(Maker):
    """Makes one scenario of this profile."""

    def declare(self) -> None:
        self.themes = list(self.wanted) or self.random.sample(THEMES + ('map',), 2)
        wanted = [self.declaration(theme) for theme in ('event', 'group', *self.themes)]
        self.objects = list(dict.fromkeys(line for line in wanted if line))

    def some(self, handles: Sequence[str], low: int, high: int) -> Lines:
        out = super().some(handles, low, high)
        share = self.random.random()
        if share < 0.1:
            out.append('raise Error ' + self.value())
        elif share < 0.25:
            out.append('y <- spawn k4 ' + self.value())
            out += self.lines(['join y' + self.timed(), self.say()], ['kill y'], [])
        return out

    def links(self, handles: Sequence[str]) -> Lines:
        h = self.pick(*handles)
        return self.lines(['link %s k3' % h], ['linkvalue %s k3' % h], ['linkfault %s k3' % h],
                          ['rawlink %s set e' % h],
                          ['rawlink %s set e' % h, 'x <- wait e' + self.timed(), 'print x'], super().links(handles))

    def kills(self, handles: Sequence[str]) -> Lines:
        h = self.pick(*handles)
        asked = self.lines(['print value ' + h], ['print exception ' + h], ['print successful ' + h])
        return self.lines(super().kills(handles), ['kill %s within %s' % (h, self.limit()), self.say()], asked,
                          ['kill self' + self.pick('', ' now', ' with Error 9'), self.say()], ['start ' + h])

    def joinall(self, handles: Sequence[str]) -> Lines:
        three = 'list 3 %s' % ' '.join(self.pick(*handles) for _ in range(3))
        count = self.pick('', ' count 1', ' count 2', ' count 2')
        return self.lines(['x <- joinall %s%s%s' % (three, count, self.timed()), 'print len x'],
                          ['x <- joinall %s%s' % (three, count), 'print ready at x 0'],
                          ['killall %s within %s' % (three, self.limit()), self.say()],
                          ['killall %s%s' % (three, self.pick('', ' now', ' with Error 4')), self.say()])

    def group(self, handles: Sequence[str]) -> Lines:
        return self.lines(['y <- gspawn m k4 ' + self.value(), 'rawlink y set e'], ['gspawn m k4 ' + self.value()],
                          super().group(handles), super().group(handles))

    def pool(self, handles: Sequence[str]) -> Lines:
        call = 'x <- map o k4 list 2 %s %s' % (self.value(), self.value())
        mapped = ['try', call, 'print x', 'except Error f', 'print f', 'end']
        return self.lines(mapped, ['gspawn o k4 ' + self.value()], super().pool(handles), super().pool(handles))

    def map(self, handles: Sequence[str]) -> Lines:
        elements = 'list 3 %s %s %s' % (self.value(), self.value(), self.value())
        return ['try', 'x <- map m k4 ' + elements, 'print x', 'except any f', 'print f', 'end']

    def began(self, i: int, argument: str) -> Lines:
        return super().began(i, ' self' if argument and self.often(0.2) else argument)

    def bodies(self) -> Bodies:
        made = super().bodies()
        if self.often(0.3):
            made.calls.insert(0, 'let me self')
        return made

    def helpers(self, lines: Lines) -> Lines:
        out = super().helpers(lines)
        if any(' k3' in line for line in lines):
            out += ['def k3 a', *self.some(['a'], 1, 2), 'end']
        faulty = ['if == %% a 2 %s' % self.pick('0', '1'), 'raise Error 7', 'end']
        survives = ['try', 'sleep ' + self.ms(), 'except any', 'print a', 'end']
        sleeps = ['sleep ' + self.ms()]
        body = self.lines(sleeps, survives) + self.lines([], faulty, faulty) + sleeps
        return out + ['def k4 a', *body, 'return a', 'end']
