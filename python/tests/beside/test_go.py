"""The adapter in Go, built where there is a go: scenarios with outcomes that are reasoned by hand, and its cases."""
import os
import shutil
import subprocess
import tempfile
import unittest

from test_rules import Beside

from gvr.beside.events import outcome, void
from gvr.beside.sides import Adapter

SOURCE = os.path.join(os.path.dirname(os.path.abspath(__file__)), '..', '..', '..', 'examples', 'beside', 'go')
WORKER = 'def w n\n  sleep 5\n  print n\n  return n\nend\n'


def main(*lines: str) -> str:
    return 'def main\n%send\n' % ''.join('  %s\n' % line for line in lines)


@unittest.skipUnless(shutil.which('go'), 'there is no go')
class BesideGo(Beside, unittest.TestCase):
    runtime = 'go'

    @classmethod
    def setUpClass(cls) -> None:
        cls.folder = tempfile.TemporaryDirectory()
        built = os.path.join(cls.folder.name, 'adapter')
        subprocess.run(['go', 'build', '-o', built, '.'], cwd=SOURCE, check=True, timeout=300,
                       env=dict(os.environ, GOCACHE=os.path.join(cls.folder.name, 'cache'), GOFLAGS='-p=1', GOPROXY='off'))
        cls.side = Adapter([built])

    @classmethod
    def tearDownClass(cls) -> None:
        super().tearDownClass()
        cls.folder.cleanup()

    def outcome(self, text: str) -> str:
        """What is printed, and how main ended."""
        return outcome(self.side.run(text))

    def test_the_newest_begins_first(self) -> None:
        text = 'def w n\n  print n\nend\n' + main('spawn w 1', 'spawn w 2', 'spawn w 3', 'sleep 5', 'print 0')
        self.assertEqual(self.outcome(text), 'g3 3; g1 1; g2 2; g0 0; end')

    def test_the_clock_jumps_to_each_deadline(self) -> None:
        text = 'def w\n  sleep 3600000\n  print 1\nend\n' + main('a <- spawn w', 'sleep 3599999', 'print 0', 'join a', 'print 2')
        self.assertEqual(self.outcome(text), 'g0 0; g1 1; g0 2; end')

    def test_get_and_join(self) -> None:
        self.assertEqual(self.outcome(WORKER + main('a <- spawn w 7', 'x <- get a', 'join a', 'print + x 1')), 'g1 7; g0 8; end')

    def test_an_event(self) -> None:
        text = 'event e\ndef w\n  wait e\n  print 1\nend\n' + main('a <- spawn w', 'sleep 1', 'print isset e', 'set e', 'set e', 'join a')
        self.assertEqual(self.outcome(text), 'g0 false; g1 1; end')
        self.assertEqual(self.outcome('event e\n' + main('x <- wait e within 5', 'print x')), 'g0 false; end')

    def test_a_semaphore_counts_and_is_late(self) -> None:
        text = 'sem s 1\n' + main('acquire s', 'x <- acquire s within 5', 'print x', 'release s', 'print counter s')
        self.assertEqual(self.outcome(text), 'g0 false; g0 1; end')

    def test_a_queue(self) -> None:
        text = 'queue q fifo 1\ndef w\n  qput q 1\n  qput q 2\n  print 0\nend\n' + main(
            'a <- spawn w', 'sleep 5', 'x <- qget q', 'join a', 'y <- qget q', 'print x', 'print y')
        self.assertEqual(self.outcome(text), 'g1 0; g0 1; g0 2; end')

    def test_if_and_while(self) -> None:
        text = main('let i 0', 'while < i 3', 'if == i 1', 'print 10', 'else', 'print i', 'end', 'let i + i 1', 'end')
        self.assertEqual(self.outcome(text), 'g0 0; g0 10; g0 2; end')

    def test_a_wait_that_nobody_ends_hangs(self) -> None:
        self.assertEqual(self.outcome('sem s 0\n' + main('print 1', 'acquire s')), 'g0 1; end: hang')

    def test_what_has_no_counterpart_is_void(self) -> None:
        self.assertEqual(void(self.side.run(WORKER + main('a <- spawn w 1', 'kill a'))), 'unsupported')
        self.assertEqual(void(self.side.run(main('raise Error 1'))), 'unsupported')


if __name__ == '__main__':
    unittest.main()
