"""A Python program under real gevent and under gvr: the same, or what differs and by which rule of gevent."""
import importlib.util
import os
import subprocess
import sys
import tempfile
import unittest
from typing import List, Tuple

PYTHON = os.path.join(os.path.dirname(os.path.abspath(__file__)), os.pardir, os.pardir)
# Who gives a lock back takes it again at once: in gevent it overtakes whoever waits.
HOT = """import gevent
from gevent.lock import Semaphore
lock = Semaphore(1)
def work(name):
    for n in range(2):
        with lock:
            print(name, n)
            gevent.sleep(0)
gevent.joinall([gevent.spawn(work, name) for name in 'ab'])
"""
SAME = """import gevent
def work(name):
    print(name)
    gevent.sleep(0)
    print(name, 'again')
gevent.joinall([gevent.spawn(work, name) for name in 'ab'])
"""


@unittest.skipIf(importlib.util.find_spec('gevent') is None, 'gevent is not installed')
class UnderGevent(unittest.TestCase):
    def beside(self, text: str, *words: str) -> Tuple[int, List[str]]:
        with tempfile.TemporaryDirectory() as folder:
            path = os.path.join(folder, 'program.py')
            with open(path, 'w', encoding='utf-8') as f:
                f.write(text)
            done = subprocess.run([sys.executable, '-m', 'gvr.beside', *words, path], stdout=subprocess.PIPE,
                                  env={**os.environ, 'PYTHONPATH': PYTHON}, universal_newlines=True)
        return done.returncode, done.stdout.splitlines()

    def test_the_same(self) -> None:
        self.assertEqual(self.beside(SAME, '--runs', '2'),
                         (0, ['the same: 2 of 2 runs of gevent print what the run of gvr prints']))

    def test_differs_by_a_rule(self) -> None:
        status, said = self.beside(HOT, '--runs', '1')
        self.assertEqual((status, said[0]), (9, 'differs: 0 of 1 runs of gevent print what the run of gvr prints'))
        self.assertEqual(said[2:7], ['1 of 1:', '    both    a 0', '    gvr     b 0', '    gevent  a 1',
                                     '  the trace of gvr before it:'])
        self.assertEqual(said[-1].split(':')[0], '  rule overtake')

    def test_words(self) -> None:
        self.assertEqual(self.beside(SAME, '--nosuch', '2')[0], 2)
        self.assertEqual(self.beside(SAME, '--runs', '0')[0], 2)


if __name__ == '__main__':
    unittest.main()
