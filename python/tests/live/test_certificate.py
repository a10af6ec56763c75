"""The certificate: a machine that hands out the wrong item has the right trace, and no certificate."""
import unittest
from typing import Any
from unittest import mock

import gvr.gevent as gevent
from gvr.gevent import event, queue
from gvr.live import waits
from gvr.live.by_model import by_model
from gvr.live.certificate import certify, compare, find_program, by_program, limit, refused
from gvr.live.decider import Options
from gvr.live.errors import NotCertified, Refused
from gvr.live.session import Session
from gvr.model import Thing
from running import stepped


def newest_of_two() -> Any:
    q = queue.LifoQueue()
    q.put('a')
    q.put('b')
    return q.get()


def run(main: Any) -> Session:
    session = Session(stepped())
    session.on_failure = lambda task, exception: None
    session.outcome = session.run(main)          # type: ignore[attr-defined]
    return session


class Certificate(unittest.TestCase):
    def test_a_wrong_item_is_refused(self) -> None:
        with mock.patch.object(Thing, 'take', lambda thing: thing.items.pop(0)):
            session = run(newest_of_two)
            self.assertEqual(session.outcome, ('value', 'a'))        # type: ignore[attr-defined]
        with self.assertRaises(NotCertified) as raised:
            certify(session, by_model())
        self.assertEqual(str(raised.exception),
                         'line 2 of what the statements gave: print g0 -2; in the run: print g0 -1')

    def test_the_right_item_is_certified(self) -> None:
        session = run(newest_of_two)
        self.assertEqual(session.outcome, ('value', 'b'))            # type: ignore[attr-defined]
        certify(session, by_model())

    def test_a_wrong_order_is_refused(self) -> None:
        session = run(newest_of_two)
        session.trace[1:1] = ['start g1 nobody']
        with self.assertRaises(NotCertified) as raised:
            certify(session, by_model())
        self.assertIn('line 2 of the trace', str(raised.exception))

    def test_counts_of_moves_are_taken_over(self) -> None:
        compare('a trace', ['stop value none turns 1 moves 5'], ['stop value none turns 1 moves 4'])
        for other in (['stop value none turns 2 moves 5'], [], ['stop value none turns 1 moves 5', 'more']):
            with self.assertRaises(NotCertified):
                compare('a trace', other, ['stop value none turns 1 moves 5'])

    def test_past_a_limit(self) -> None:
        def main() -> None:
            made = [event.Event() for _ in range(300)]
            made[299].set()
        session = run(main)
        certify(session, by_model())
        self.assertEqual(session.spelt().lines[:2], ['profile 3', 'event made'])
        with mock.patch('gvr.model.check.MOST_DECLARED', 280), self.assertRaises(Refused) as raised:
            certify(session, by_model())
        told = limit(session.spelt(), raised.exception)
        self.assertTrue(told.startswith('the record is past a limit of the language: '), told)
        # The record has one line before its declarations: the 281st of them is line 282.
        self.assertIn('line 282 of it: event made_281, at test_certificate.py:', told)

    def test_past_a_limit_of_the_machine(self) -> None:
        def main() -> None:
            for _ in range(3):
                gevent.spawn(gevent.sleep, 1)
        with mock.patch('gvr.model.bodies.MOST_GREENLETS', 3):
            session = run(main)
        self.assertEqual(str(session.stopped).split(' turns')[0], 'stop no-greenlets')
        told = waits.at_limit(session)
        self.assertEqual(len(told), 1)
        self.assertTrue(told[0].startswith('g0 main: spawn sleep_4  at test_certificate.py:'), told)

    def test_complaints_of_the_program(self) -> None:
        self.assertIsInstance(refused('gvr: line 3: reason 22: more than the language has'), Refused)
        self.assertIsInstance(refused('gvr: no such command'), NotCertified)

    def test_by_the_proved_program(self) -> None:
        program = find_program()
        if program is None:
            self.skipTest('no program is built')
        session = run(newest_of_two)
        certify(session, by_program(program, Options().words()))
        with mock.patch.object(Thing, 'take', lambda thing: thing.items.pop(0)):
            session = run(newest_of_two)
        with self.assertRaises(NotCertified):
            certify(session, by_program(program, Options().words()))


if __name__ == '__main__':
    unittest.main()
