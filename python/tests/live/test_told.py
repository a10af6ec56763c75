"""What the command says of a run that stands still, that spins, that raises, that is past a limit, and its verdict."""
import os
import subprocess
import sys
import tempfile
import unittest
from typing import Dict, List, Tuple

HERE = os.path.dirname(os.path.abspath(__file__))
PYTHON = os.path.join(HERE, os.pardir, os.pardir)
NO_PROGRAM = os.path.join(HERE, 'no', 'such', 'program')


def live(words: List[str], **more: str) -> Tuple[int, str, List[str]]:
    """Status, output, lines on standard error."""
    environment: Dict[str, str] = {**os.environ, 'PYTHONPATH': PYTHON, **more}
    done = subprocess.run([sys.executable, '-m', 'gvr.live', *words], stdout=subprocess.PIPE, stderr=subprocess.PIPE,
                          universal_newlines=True, env=environment)
    return done.returncode, done.stdout, done.stderr.splitlines()


def bug(name: str) -> Tuple[int, str, List[str]]:
    return live(['--no-certificate', os.path.join(HERE, 'bugs', name + '.py')])


class Bugs(unittest.TestCase):
    """A program with a bug is explained by what the command says alone."""

    def has(self, said: List[str], *lines: str) -> None:
        stripped = [' '.join(line.split()) for line in said]
        for line in lines:
            self.assertIn(line, stripped)

    def test_deadlock(self) -> None:
        status, out, said = bug('deadlock')
        self.assertEqual((status, out), (1, ''))
        self.has(said, 'nobody can go on:',
                 'g1 there waits: acquire right at deadlock.py:12 in there',
                 'right is held by g2 back at deadlock.py:17 in back',
                 'g2 back waits: acquire left at deadlock.py:19 in back',
                 'left is held by g1 there at deadlock.py:10 in there')

    def test_lost_item(self) -> None:
        status, out, said = bug('lost_item')
        self.assertEqual((status, out), (1, 'done 1\ndone 1\n'))
        self.has(said, 'g0 main waits: qjoin tasks at lost_item.py:21 in <module>',
                 'tasks was put into 3 times: g0 main 3',
                 'tasks was taken from 3 times: g1 work 2, g2 work_2 1',
                 'task_done was called 2 times: g1 work 2',
                 "g2 work_2 has ended by GreenletExit() at lost_item.py:11 in work")

    def test_double_release(self) -> None:
        status, out, said = bug('double_release')
        self.assertEqual((status, out), (0, ''))
        self.has(said, 'ValueError: Semaphore released too many times',
                 'the last calls on places that were right:',
                 'g1 fetch at double_release.py:17 in fetch',
                 'g2 fetch_2 at double_release.py:15 in fetch')

    def test_tracebacks_are_the_programs(self) -> None:
        _, _, said = bug('double_release')
        files = [line.strip() for line in said if line.strip().startswith('File ')]
        self.assertTrue(files)
        for line in files:
            self.assertIn('double_release.py', line)


class Said(unittest.TestCase):
    def program(self, text: str, *words: str, **more: str) -> Tuple[int, str, List[str]]:
        with tempfile.TemporaryDirectory() as folder:
            path = os.path.join(folder, 'program.py')
            with open(path, 'w', encoding='utf-8') as f:
                f.write(text)
            return live([*words, path], **more)

    def test_who_spun(self) -> None:
        status, _, said = self.program(
            'import gevent\ngevent.sleep(0.005)\nwhile True:\n    gevent.sleep(0)\n', '--turns', '100',
            '--no-certificate')
        self.assertEqual(status, 6)
        self.assertTrue(said[0].startswith('gvr live: stop no-turns turns 100'), said)
        self.assertEqual(said[1].strip(), 'g0 main called sleep(0) 100 times at moment 5  at program.py:4 in <module>')
        self.assertIn('--tick 1', said[2])

    def test_status_and_output_of_the_program(self) -> None:
        self.assertEqual(self.program('import sys\nprint(sys.argv[1:])\nsys.exit(3)\n', '--no-certificate')[:2],
                         (3, '[]\n'))
        self.assertEqual(self.program('raise KeyError(5)\n', '--no-certificate')[0], 1)
        self.assertEqual(self.program('import gevent.socket\n', '--no-certificate')[0], 1)

    def test_it_is_the_main_module(self) -> None:
        text = ('import pickle\nclass A:\n    pass\n'
                'print(type(pickle.loads(pickle.dumps(A()))) is A, __name__, __file__[-3:])\n')
        self.assertEqual(self.program(text, '--no-certificate')[:2], (0, 'True __main__ .py\n'))

    def test_no_program(self) -> None:
        status, _, said = self.program('print(1)\n', GVR=NO_PROGRAM)
        self.assertEqual(status, 9)
        self.assertTrue(said[-1].startswith('not certified: '), said)

    def test_certified(self) -> None:
        """By whatever program GVR names; here the model stands in its place."""
        with tempfile.TemporaryDirectory() as folder:
            program = os.path.join(folder, 'gvr')
            with open(program, 'w', encoding='utf-8') as f:
                f.write('#!/bin/sh\nexec %s -m gvr.model "$@"\n' % sys.executable)
            os.chmod(program, 0o755)
            text = 'import gevent\ng = gevent.spawn(print, 1)\ng.join()\nraise SystemExit(4)\n'
            status, out, said = self.program(text, '--tick', '1', GVR=program)
            self.assertEqual((status, out, said[-1]), (4, '1\n', 'certified by the proved program'))
            many = 'from gevent.event import Event\n' + 'many = [Event() for _ in range(20001)]\n'
            status, out, said = self.program(many, GVR=program)
        self.assertEqual((status, len(said)), (0, 1))
        self.assertTrue(said[0].startswith('not certified: the record is past a limit of the language: '), said)
        self.assertIn('line 20002 of it: event many_20001, at program.py:2 in ', said[0])

    def test_without_greenlet(self) -> None:
        with tempfile.TemporaryDirectory() as folder:
            with open(os.path.join(folder, 'greenlet.py'), 'w', encoding='utf-8') as f:
                f.write('raise ImportError\n')
            environment = {**os.environ, 'PYTHONPATH': folder + os.pathsep + PYTHON}
            done = subprocess.run([sys.executable, '-m', 'gvr.live', 'program.py'], stderr=subprocess.PIPE,
                                  universal_newlines=True, env=environment)
        self.assertEqual(done.returncode, 1)
        self.assertIn('python3-greenlet', done.stderr)

    def test_files(self) -> None:
        with tempfile.TemporaryDirectory() as folder:
            name = os.path.join(folder, 'run')
            status, out, said = live(['--tick', '2', '--record', name, '--picture', name + '.svg', '--trace',
                                      '--no-certificate', os.path.join(HERE, 'bugs', 'lost_item.py')])
            with open(name + '.gvr', encoding='ascii') as f:
                record = f.read().splitlines()
            with open(name + '.trace', encoding='ascii') as f:
                trace = f.read().splitlines()
            with open(name + '.svg', encoding='utf-8') as f:
                self.assertIn('<svg', f.read())
        self.assertEqual(record[0], '# run --tick 2')
        self.assertIn('queue tasks join none', record)
        self.assertEqual(trace[0], 'start g0 main')
        self.assertEqual([line for line in said if line in trace][-len(trace):], trace)

    def test_help(self) -> None:
        status, out, said = live(['--help'])
        first = 'usage: ./gvr live [options] PROGRAM.py [argument..]'
        self.assertEqual((status, out.split('\n')[0], said), (0, first, []))

    def test_words(self) -> None:
        for words in ([], ['--turns'], ['--turns', 'x', 'a.py'], ['--nosuch', 'a.py'], ['no_such_file.py']):
            status, out, said = live(words)
            self.assertEqual((status, out), (2, ''), words)
            self.assertTrue(said[0].startswith('gvr live: '), said)


if __name__ == '__main__':
    unittest.main()
