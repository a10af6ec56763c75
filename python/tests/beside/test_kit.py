"""The parts of the kit: trees, events, differences, the generator, the minimiser, and the command's words."""
import contextlib
import io
import json
import os
import shlex
import subprocess
import sys
import tempfile
import unittest
from typing import List, Tuple

import gvr.beside
from gvr.beside import generate
from gvr.beside.as_python import NotWritten, program
from gvr.beside.command import main
from gvr.beside.events import Difference, Event, Run, from_trace, outcome, until_main_ends, views, void
from gvr.beside.minimise import smallest
from gvr.beside.rules import explain
from gvr.beside.sides import Adapter, Gvr, Limits, Trouble, interpreter, limits_of
from gvr.beside.tree import tree
from gvr.model import Line

CASES = os.path.join(os.path.dirname(gvr.beside.__file__), 'cases')
HELLO = 'def main\n  print 1\nend\n'
# An adapter that answers the first tree and then dies.
DIES = '''import sys
sys.stdin.readline()
print('{"ev":"stop","out":"value none"}\\n{"ev":"over"}', flush=True)
sys.stdin.readline()
sys.exit('out of luck')
'''
# An adapter for HELLO alone.
ANSWERS = '''import sys
for line in sys.stdin:
    print('{"ev":"start","g":0,"f":"main"}')
    print('{"ev":"print","g":0,"v":"1"}')
    print('{"ev":"end","g":0,"out":"value none"}')
    print('{"ev":"stop","out":"value none"}')
    print('{"ev":"over"}', flush=True)
'''


def traced(lines: List[str]) -> Run:
    return from_trace([Line(line) for line in lines])


def command(*words: str) -> Tuple[int, str, str]:
    """Status, standard output and standard error of the command."""
    out, err = io.StringIO(), io.StringIO()
    with contextlib.redirect_stdout(out), contextlib.redirect_stderr(err):
        status = main(words)
    return status, out.getvalue(), err.getvalue()


class Parts(unittest.TestCase):
    def test_tree(self) -> None:
        t = tree('sem s 1\ndef main\n  x <- acquire s within 5\n  print + x 1\nend\n')
        self.assertEqual(t['objects'], [{'kind': 'sem', 'name': 's', 'n': 1}])
        first, second = t['functions'][0]['body']
        self.assertEqual(first, {'do': 'acquire', 'line': 3, 'into': 'x', 'obj': 's', 'wait': ['within', 5]})
        self.assertEqual(second['e'], ['+', ['name', 'x'], ['int', 1]])
        json.dumps(t)

    def test_tree_of_blocks(self) -> None:
        t = tree('def main\n  try\n    if true\n      print 1\n    else\n      print 2\n    end\n  except Error f\n'
                 '    raise f\n  finally\n    print 3\n  end\n  timeout none silent\n    sleep 0\n  end\nend\n')
        tried, timed = t['functions'][0]['body']
        self.assertEqual(tried['body'][0]['other'][0]['e'], ['int', 2])
        self.assertEqual([tried['excepts'][0][:2], tried['final'][0]['do']], [['Error', 'f'], 'print'])
        self.assertTrue(timed['silent'])
        self.assertNotIn('ms', timed)

    def test_events_of_a_trace(self) -> None:
        run = traced(['start g0 main', 'park g0 kill g1', 'throw g1 GreenletExit', 'end g1 value GreenletExit',
                          'turn 1 nothing 0', 'wake g0', 'print g0 2', 'end g0 value none',
                          'stop value none turns 2 moves 3'])
        self.assertEqual([e['ev'] for e in run], ['start', 'killed', 'go', 'print', 'end', 'stop'])
        self.assertEqual(views(run).b, {'g1': 'value GreenletExit', 'g0': 'value none'})
        self.assertEqual(outcome(run), 'g0 2; end')

    def test_a_map_that_waits_on_goes_once(self) -> None:
        run = traced(['park g0 map p', 'wake g0', 'park g0 map p', 'wake g0', 'stop value none turns 1 moves 1'])
        self.assertEqual([e['ev'] for e in run], ['go', 'stop'])

    def test_two_maps_that_follow_each_other_are_two(self) -> None:
        lines = [Line('park g0 map p', 0, 5), Line('wake g0', 0, 5), Line('park g0 map p', 0, 6), Line('wake g0', 0, 6),
                 Line('stop value none turns 1 moves 1')]
        self.assertEqual([e['ev'] for e in from_trace(lines)], ['go', 'go', 'stop'])

    def test_the_first_difference(self) -> None:
        stop: Event = {'ev': 'stop', 'out': 'value none'}
        one: Run = [{'ev': 'go', 'g': 0}, {'ev': 'print', 'g': 0, 'v': '1'}, stop]
        other: Run = [{'ev': 'print', 'g': 0, 'v': '1'}, {'ev': 'go', 'g': 0}, stop]
        difference = Difference(one, other)
        self.assertEqual((difference.levels, difference.first), ('c', 0))
        self.assertEqual((difference.their_event, difference.model_event), ('go g0', 'print g0 1'))
        self.assertFalse(Difference(one, list(one)))

    def test_after_main_nothing_is_compared(self) -> None:
        run: Run = [{'ev': 'end', 'g': 0, 'out': 'value none'}, {'ev': 'print', 'g': 1, 'v': '1'}, {'ev': 'stop', 'out': 'value none'}]
        self.assertEqual([e['ev'] for e in until_main_ends(run)], ['end', 'stop'])

    def test_a_hang_is_the_models_loop_exit(self) -> None:
        model = traced(['start g0 main', 'park g0 wait e', 'block none', 'throw g0 LoopExit', 'end g0 fault LoopExit',
                            'stop fault LoopExit turns 1 moves 1'])
        self.assertFalse(Difference([{'ev': 'start', 'g': 0, 'f': 'main'}, {'ev': 'stop', 'out': 'hang'}], model))

    def test_void(self) -> None:
        self.assertEqual(void([]), 'died')
        self.assertEqual(void([{'ev': 'unsupported', 'what': 'map'}, {'ev': 'stop', 'out': 'unsupported'}]), 'unsupported')
        self.assertEqual(void([{'ev': 'stop', 'out': 'no-turns'}]), 'no-turns')
        self.assertIsNone(void([{'ev': 'stop', 'out': 'value none'}]))

    def test_minimise(self) -> None:
        text = 'sem s 1\ndef w\n  print 1\nend\ndef main\n  try\n    print 2\n    print 3\n  finally\n    spawn w\n  end\nend\n'
        self.assertEqual(smallest(text, lambda t: 'print 3' in t), 'def main\n  print 3\nend\n')

    def test_minimise_brings_in_no_zero(self) -> None:
        text = 'event e\ndef main\n  x <- wait e within 5\nend\n'
        self.assertEqual(smallest(text, lambda t: 'within' in t), 'event e\ndef main\n  wait e within 5\nend\n')

    def test_minimise_puts_a_body_where_it_is_called(self) -> None:
        text = 'sem s 1\ndef w h\n  release s\nend\ndef main\n  sleep 5\n  g <- spawn w self\n  print 1\nend\n'
        self.assertEqual(smallest(text, lambda t: 'release s' in t and ('spawn w' in t or 'release s' in t.split('def main')[1])),
                         'sem s 1\ndef main\n  release s\nend\n')
        after = 'def main\n  spawn w\nend\ndef w\n  print 2\n  print 1\nend\n'
        self.assertEqual(smallest(after, lambda t: 'print 2\n  print 1\n' in t), 'def main\n  print 2\n  print 1\nend\n')

    def test_explain_is_the_smallest_set(self) -> None:
        self.assertEqual(explain(lambda rules: {'zero_last', 'overtake'} <= rules), ('overtake', 'zero_last'))
        self.assertIsNone(explain(lambda rules: False))

    def test_generated_texts_are_a_function_of_their_seed(self) -> None:
        for profile in generate.PROFILES:
            made = [generate.text(seed, profile) for seed in range(60)]
            self.assertEqual(made, [generate.text(seed, profile) for seed in range(60)])
            self.assertGreater(sum(text is not None for text in made), 50)
        self.assertTrue(any('throw z' in (generate.text(seed, 'raw') or '') for seed in range(20)))

    def test_limits_of_the_first_line(self) -> None:
        self.assertEqual(limits_of('# run --turns 2 --tick 1\n' + HELLO), Limits(turns=2, tick=1))
        self.assertEqual(limits_of(HELLO), Limits())
        self.assertEqual(Gvr().trace('# run --turns 1\ndef main\n  sleep 0\n  sleep 0\nend\n')[-1].text.split(' ')[1], 'no-turns')


class AsPython(unittest.TestCase):
    def test_a_program(self) -> None:
        got = program('event e\ndef main\n  x <- wait e within 5\n  print isset e\nend\n', 'title')
        self.assertEqual(got, '"""title"""\nfrom gcase import *\n\ne = Event()\n\n\ndef main():\n'
                              '    x = e.wait(timeout=W(5))\n    P(e.ready())\n\n\nrun(main)\n')

    def test_what_it_cannot_say(self) -> None:
        with self.assertRaises(NotWritten):
            program('rawdef r x\nend\ndef main\n  raw r\nend\n')

    def test_every_case_is_a_program(self) -> None:
        folder = os.path.join(CASES, 'gevent')
        for name in sorted(os.listdir(folder)):
            if name.endswith('.gvr'):
                with self.subTest(name), open(os.path.join(folder, name)) as file:
                    compile(program(file.read(), name), name, 'exec')


class AnAdapter(unittest.TestCase):
    def test_one_that_dies_is_started_anew_and_told(self) -> None:
        side = Adapter([sys.executable, '-c', DIES])
        self.addCleanup(side.close)
        self.assertIsNone(void(side.run(HELLO)))
        self.assertEqual(void(side.run(HELLO)), 'died')
        self.assertIn('out of luck', side.deaths[0])
        self.assertIsNone(void(side.run(HELLO)))

    def test_one_that_never_answers(self) -> None:
        with self.assertRaisesRegex(Trouble, 'before it answered.*\n.*no such thing'):
            Adapter([sys.executable, '-c', 'import sys; sys.exit("no such thing")']).run(HELLO)
        with self.assertRaisesRegex(Trouble, 'does not start'):
            Adapter(['/no/such/program']).run(HELLO)

    def test_one_that_writes_no_event(self) -> None:
        with self.assertRaisesRegex(Trouble, 'no event'):
            Adapter([sys.executable, '-c', 'input(); print("hello", flush=True); input()']).run(HELLO)

    def test_one_that_hangs(self) -> None:
        side = Adapter([sys.executable, '-c', DIES.replace("sys.exit('out of luck')", 'import time; time.sleep(99)')])
        self.addCleanup(side.close)
        self.assertIsNone(void(side.run(HELLO)))
        side.patience = 0.5
        self.assertEqual(void(side.run(HELLO)), 'died')


class Command(unittest.TestCase):
    def file(self, text: str) -> str:
        folder = tempfile.TemporaryDirectory()
        self.addCleanup(folder.cleanup)
        path = os.path.join(folder.name, 'one.gvr')
        with open(path, 'w') as file:
            file.write(text)
        return path

    def test_tree_and_python(self) -> None:
        path = self.file(HELLO)
        self.assertEqual(json.loads(command('tree', path)[1])['functions'][0]['name'], 'main')
        self.assertIn('P(1)', command('python', path)[1])

    def test_troubles_are_told(self) -> None:
        for words, said in ((['tree', '/no/such'], 'cannot be read'), ([self.file('def\n')], 'is refused'),
                            (['check', '--intended', 'nonsense'], 'no rule nonsense'),
                            (['hunt', '--from', '5', '--to', '5'], '--from has to be less'),
                            (['tree'], 'takes one FILE'),
                            ([self.file(HELLO), '--adapter', '/no/such/program'], 'does not start')):
            status, _, complaint = command(*words)
            self.assertEqual(status, 3, words)
            self.assertIn(said, complaint)

    def test_check_says_each_and_its_status(self) -> None:
        good, bad, dies = ([sys.executable, '-c', script] for script in (ANSWERS, ANSWERS.replace('1', '2'), 'input()'))
        path = self.file(HELLO)
        status, said, _ = command('check', path, '--adapter', shlex.join(good))
        self.assertEqual((status, said.split('\n')[-2]), (0, '1 same'))
        status, said, _ = command('check', path, '--adapter', shlex.join(bad))
        self.assertEqual(status, 1)
        self.assertIn('differs in prints and end: no rule explains it', said)
        self.assertEqual(command('check', path, '--adapter', shlex.join(dies))[0], 3)
        self.assertEqual(command('check', self.file('def\n'), '--adapter', shlex.join(good))[0], 1)

    def test_check_tells_of_an_adapter_that_dies(self) -> None:
        path = self.file(HELLO)
        dies = shlex.join([sys.executable, '-c', DIES])
        status, said, complaint = command('check', path, path, path, '--adapter', dies)
        self.assertEqual((status, said.split('\n')[-2]), (1, '2 different, 1 void: died'))
        self.assertIn('the adapter died and was started anew: status 1; it said last: out of luck', complaint)

    @unittest.skipUnless(interpreter('gevent'), 'no Python here has gevent')
    def test_what_is_intended_is_no_difference(self) -> None:
        paths = [os.path.join(CASES, 'gevent', name + '.gvr') for name in ('sleep_first', 'overtake')]
        for intended, status in (('', 1), ('sleep_first', 1), ('sleep_first,overtake', 0), ('gevent', 0)):
            with self.subTest(intended):
                self.assertEqual(command('check', *paths, '--intended', intended)[0], status)
        said = command('check', *paths, '--intended', 'sleep_first')[1]
        self.assertEqual([' '.join(line.split()) for line in said.split('\n')[:3]], [
            'sleep_first.gvr same', 'overtake.gvr differs in prints and end: overtake', '1 different, 1 same'])

    def test_what_no_program_says_is_told(self) -> None:
        path = self.file('rawdef r x\nend\ndef main\n  raw r\nend\n')
        status, _, complaint = command('python', path)
        self.assertEqual(status, 3)
        self.assertIn('cannot be written as a gevent program: rawdef r', complaint)

    def test_show_tells_the_first_difference(self) -> None:
        bad = shlex.join([sys.executable, '-c', ANSWERS.replace('1', '2')])
        status, said, _ = command(self.file(HELLO), '--adapter', bad)
        self.assertEqual(status, 1)
        self.assertIn('first difference: runtime has `print g0 2`, gvr has `print g0 1`', said)
        self.assertIn('gvr at line 2: print 1', said)

    def test_a_word_that_is_wrong(self) -> None:
        with self.assertRaises(SystemExit) as ended:
            command('tree', '--nonsense')
        self.assertEqual(ended.exception.code, 2)

    def test_the_module_is_the_command(self) -> None:
        ended = subprocess.run([sys.executable, '-m', 'gvr.beside', 'python', self.file(HELLO)], stdout=subprocess.PIPE,
                               text=True, env=dict(os.environ, PYTHONPATH=os.pathsep.join(sys.path)))
        self.assertIn('run(main)', ended.stdout)


if __name__ == '__main__':
    unittest.main()
