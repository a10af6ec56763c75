"""A record that is too long is folded, and has the same trace."""
import unittest
from typing import Any
from unittest import mock

import gvr.gevent as gevent
from gvr.gevent import lock, queue
from gvr.live import spelling
from gvr.live.by_model import by_model
from gvr.live.certificate import certify
from gvr.live.folding import fold, group
from gvr.live.session import Session
from running import stepped


def lines(texts: 'list[str]') -> 'list[str]':
    return [line for line, _ in fold([group(text.split('\n'), None) for text in texts])]


class Folding(unittest.TestCase):
    def test_what_grows(self) -> None:
        self.assertEqual(
            lines(['  sleep 1'] + [x for n in range(4) for x in ('  qput q %d' % (5 + 2 * n), '  print -7')]),
            ['  sleep 1', '  let again 0', '  while < again 4', '    qput q + 5 * 2 again', '    print -7',
             '    let again + again 1', '  end'])

    def test_what_does_not_fold(self) -> None:
        for texts in (['sleep 1', 'sleep 2', 'sleep 3', 'sleep 4', 'sleep 5'], ['acquire s'] * 3,
                      ['print 1', 'print 2', 'print 4', 'print 8', 'print 16', 'print 32']):
            self.assertEqual(lines(texts), texts)

    def test_a_block_is_one(self) -> None:
        block = '  try\n    acquire s within 1\n  except any\n  end'
        self.assertEqual(lines([block] * 5), ['  let again 0', '  while < again 5'] +
                         ['  ' + line for line in block.split('\n')] + ['    let again + again 1', '  end'])

    def test_the_trace_is_the_same(self) -> None:
        def main() -> Any:
            places, done = lock.Semaphore(1), queue.Queue()

            def work(name: str) -> None:
                for n in range(12):
                    with places:
                        gevent.sleep(0.001)
                    done.put((name, n))
                    done.put(n)
                    with gevent.Timeout(0.001, False):
                        gevent.sleep(0.002)
            gevent.joinall([gevent.spawn(work, name) for name in 'ab'])
            return [done.get() for _ in range(48)]
        session = Session(stepped())
        session.run(main)
        certify(session, by_model())
        trace = session.trace
        with mock.patch.object(spelling, 'MOST_TEXT', 1600):
            text = session.spelt().text
            self.assertIn('while < again', text)
            self.assertLess(len(text), 1600)
            certify(session, by_model())
        self.assertEqual([line.split(' moves ')[0] for line in session.trace],
                         [line.split(' moves ')[0] for line in trace])


if __name__ == '__main__':
    unittest.main()
