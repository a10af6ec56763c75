"""Every rule: what it says of itself, and its smallest scenario beside the runtime, which differs without it and does not
with it; what the minimiser made; and the machine of the rules, which without one is the model's."""
import glob
import os
import sys
import unittest
from typing import Dict, FrozenSet, Iterator, List, Tuple

import gvr.beside
from gvr.beside import generate
from gvr.beside.events import Difference, outcome, void
from gvr.beside.rules import explain, machine_with, names, rule, sets
from gvr.beside.sides import Adapter, Gvr, adapter, interpreter
from gvr.model import Line, ScriptWorld, read

CASES = os.path.join(os.path.dirname(gvr.beside.__file__), 'cases')
# Classes of gevent without a rule: the comparison cannot go on beyond them.
NO_RULE = {'group_is_a_set'}


def cases(*folder: str) -> Iterator[Tuple[str, str]]:
    """(name, text) of each case in a folder of cases/."""
    for path in sorted(glob.glob(os.path.join(CASES, *folder, '*.gvr'))):
        with open(path) as file:
            yield os.path.basename(path)[:-len('.gvr')], file.read()


class Rules(unittest.TestCase):
    def test_each_says_what_it_is(self) -> None:
        for name in names():
            each = rule(name)
            self.assertEqual(each.name, name)
            self.assertTrue(each.says and each.source, name)

    def test_each_root_stands_on_the_page(self) -> None:
        roots = {rule(name).root for name in sets()['gevent']}
        self.assertEqual(roots, {'1', '2', '3', '4', '5', '6', '7', '8', '9', 'more'})

    def test_each_has_a_case(self) -> None:
        for runtime, rules in sets().items():
            self.assertEqual({name for name, _ in cases(runtime)} - NO_RULE, set(rules), runtime)

    def test_without_a_rule_it_is_the_models_machine(self) -> None:
        """The machine of the rules, with none turned, makes the model's trace line by line."""
        for seed in range(40):
            for profile in ('short', 'wide', 'raw'):
                text = generate.text(seed, profile, zero=seed % 2 == 0)
                if text is not None:
                    lines: List[Line] = []
                    world = ScriptWorld(0)
                    world.begin(1)
                    machine_with(frozenset())(read(text.encode()), 20000, 20000, world, lines.append).go()
                    self.assertEqual(Gvr().trace(text), lines, text)


class Beside:
    """The cases of a runtime."""

    runtime = ''
    options: Tuple[str, ...] = ()
    mended: FrozenSet[str] = frozenset()                  # rules whose difference this version does not have
    side: Adapter

    @classmethod
    def setUpClass(cls) -> None:
        cls.side = adapter(cls.runtime, *cls.options)

    @classmethod
    def tearDownClass(cls) -> None:
        cls.side.close()

    def differs(self, text: str, rules: FrozenSet[str]) -> bool:
        return bool(Difference(self.side.run(text), Gvr().run(text, None, rules)))

    def test_each_case_needs_its_rule(self) -> None:
        """It differs, also under all rules but its own, and is explained by a set that has its rule."""
        everything = frozenset(sets()[self.runtime])
        for name, text in cases(self.runtime):
            if name in NO_RULE | self.mended:
                continue
            theirs = self.side.run(text)
            model = Gvr()
            assert not void(theirs), name
            assert Difference(theirs, model.run(text)), name
            found = explain(lambda rules: not Difference(theirs, model.run(text, None, rules)), sets()[self.runtime])
            assert found is not None and name in found, (name, found)
            assert Difference(theirs, model.run(text, None, everything - {name})), name

    def test_what_the_minimiser_made(self) -> None:
        """It differs, and does not under the rules of its name: `RULE+RULE`, or `RULE+RULE.2`."""
        for name, text in cases('found', self.runtime):
            assert self.differs(text, frozenset()), name
            assert not self.differs(text, frozenset(name.split('.')[0].split('+'))), name


@unittest.skipUnless(interpreter('gevent'), 'no Python here has gevent')
class BesideGevent(Beside, unittest.TestCase):
    runtime, options = 'gevent', ('--ordered-groups',)

    def test_the_head_of_each_case_is_what_it_comes_to(self) -> None:
        for name, text in cases('gevent'):
            if name not in NO_RULE:
                came = [rule(name).says, 'gevent: ' + outcome(self.side.run(text)), 'gvr: ' + outcome(Gvr().run(text))]
                self.assertEqual(text.split('\n')[:3], ['# ' + line for line in came], name)

    def test_all_rules_together_explain_what_the_minimiser_made(self) -> None:
        for name, text in cases('found', 'gevent'):
            self.assertFalse(self.differs(text, frozenset(sets()['gevent'])), name)

    def test_a_group_in_order_of_admission_is_the_same(self) -> None:
        self.assertFalse(self.differs(dict(cases('gevent'))['group_is_a_set'], frozenset()))

    def test_the_virtual_loop_is_a_function_of_the_scenario(self) -> None:
        for seed in range(30):
            text = generate.text(seed, 'collide')
            if text is not None:
                self.assertEqual(self.side.run(text), self.side.run(text))

    def test_libev_agrees(self) -> None:
        """Times well apart: every event and every raw switch is the same under libev."""
        text = ('event e\nqueue q fifo 1\ndef a\n  wait e\n  print 1\n  qput q 5\n  qput q 6 within 20\n  print 2\nend\n'
                'def b\n  sleep 10\n  set e\n  sleep 0\n  x <- qget q\n  print x\nend\n'
                'def main\n  g <- spawn a\n  h <- spawn b\n  join g\n  kill h\n  timeout 15\n    sleep 50\n  end\nend\n')
        real = adapter('gevent', '--loop', 'libev', '--ms', '0.02')
        self.addCleanup(real.close)
        self.assertEqual(*[[without_now(event) for event in side.run(text)] for side in (self.side, real)])


def without_now(event: Dict[str, object]) -> Dict[str, object]:
    return {key: value for key, value in event.items() if key != 'now'}


class BesideAsyncio(Beside, unittest.TestCase):
    runtime = 'asyncio'
    mended = frozenset({'cancels_count'} if sys.version_info >= (3, 11, 3) else ())


if __name__ == '__main__':
    unittest.main()
