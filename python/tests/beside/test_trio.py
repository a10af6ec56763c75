"""The trio adapter: scenarios with outcomes that are reasoned by hand, and its cases as those of the other runtimes."""
import unittest
from typing import List


from test_rules import Beside

from gvr.beside.events import outcome, void
from gvr.beside.sides import interpreter

WORKER = 'def w n\n  sleep 5\n  print n\n  return n\nend\n'
STUBBORN = 'def w\n  try\n    sleep 10\n  except any f\n    print f\n  end\n  sleep 5\n  print 2\nend\n'


def main(*lines: str) -> str:
    return 'def main\n%send\n' % ''.join('  %s\n' % line for line in lines)


@unittest.skipUnless(interpreter('trio'), 'no Python here has trio')
class BesideTrio(Beside, unittest.TestCase):
    runtime = 'trio'

    def outcome(self, text: str) -> str:
        """What is printed, and how main ended."""
        return outcome(self.side.run(text))

    def told(self, text: str, *kinds: str) -> List[str]:
        """`kind gN` of the events of these kinds."""
        return ['%s g%d' % (event['ev'], event['g']) for event in self.side.run(text) if event['ev'] in kinds]

    def test_tasks_begin_in_the_order_of_making(self) -> None:
        text = WORKER + main('a <- spawn w 1', 'b <- spawn w 2', 'x <- get b', 'print x')
        self.assertEqual(self.told(text, 'start'), ['start g0', 'start g1', 'start g2'])
        self.assertEqual(self.outcome(text), 'g1 1; g2 2; g0 2; end')

    def test_the_clock_jumps_to_each_deadline(self) -> None:
        text = 'def w\n  sleep 3600000\n  print 1\nend\n' + main('a <- spawn w', 'sleep 3599999', 'print 0', 'join a', 'print 2')
        self.assertEqual(self.outcome(text), 'g0 0; g1 1; g0 2; end')

    def test_a_timeout_block(self) -> None:
        self.assertEqual(self.outcome(main('timeout 5 silent', 'sleep 9', 'print 1', 'end', 'print 2')), 'g0 2; end')
        self.assertEqual(self.outcome(main('try', 'timeout 5', 'sleep 9', 'end', 'except Timeout f', 'print f', 'end')),
                         'g0 Timeout(1); end')

    def test_a_wait_that_nobody_ends_hangs(self) -> None:
        self.assertEqual(self.outcome('event e\n' + main('print 1', 'wait e', 'print 2')), 'g0 1; end: hang')

    def test_a_wait_that_is_late(self) -> None:
        self.assertEqual(self.outcome('sem s 1\n' + main('x <- acquire s within 5', 'y <- acquire s within 5', 'print x', 'print y')),
                         'g0 true; g0 false; end')
        self.assertEqual(self.outcome('queue q fifo none\n' + main('try', 'x <- qget q within 5', 'except Empty f', 'print f', 'end')),
                         'g0 Empty; end')

    def test_a_bounded_semaphore_refuses_one_unit_more(self) -> None:
        self.assertEqual(self.outcome('bsem s 1\n' + main('try', 'release s', 'except ValueError f', 'print f', 'end')),
                         'g0 ValueError; end')

    def test_a_kill_that_is_caught_comes_again(self) -> None:
        self.assertEqual(self.outcome(STUBBORN + main('a <- spawn w', 'sleep 5', 'kill a', 'sleep 9')), 'g1 GreenletExit; end')

    def test_what_is_killed_before_it_begins_begins(self) -> None:
        text = WORKER + main('a <- spawn w 1', 'kill a', 'print 2')
        self.assertEqual(self.told(text, 'start', 'end'), ['start g0', 'start g1', 'end g1', 'end g0'])

    def test_what_has_no_counterpart_is_void(self) -> None:
        self.assertEqual(void(self.side.run('result r\n' + main('rset r 1'))), 'unsupported')
        self.assertEqual(void(self.side.run('event e\n' + main('clear e'))), 'unsupported')
        self.assertEqual(void(self.side.run(main('try', 'raise GreenletExit', 'except any', 'end'))), 'unsupported')


if __name__ == '__main__':
    unittest.main()
