"""The decider on the model: statements that differ in their value alone are read once, and stay apart."""
import unittest
from typing import Any

from gvr.gevent import queue
from gvr.live.stepped import Reading
from gvr.model import G, statement_text
from running import run


class Stepped(unittest.TestCase):
    def test_none_behind_a_value(self) -> None:
        def main(say: Any) -> None:
            q = queue.Queue()
            for item in (5, None, 'x', True, None):
                q.put(item)
            say([q.get() for _ in range(5)])
        self.assertEqual(run(main)[0], [[5, None, 'x', True, None]])

    def test_reading(self) -> None:
        reading = Reading()
        self.assertEqual(statement_text(reading.statement('qput q 5 within 3', False)), 'qput q 5 within 3')
        self.assertEqual(statement_text(reading.statement('qput q none within 3', False)), 'qput q none within 3')
        self.assertEqual(statement_text(reading.statement('qput q -7 within 3', False)), 'qput q -7 within 3')
        self.assertEqual(statement_text(reading.statement('acquire s now', True)), 'v <- acquire s now')
        for text, whom in (('join g4', 4), ('kill g5 with Error 3 now', 5), ('joinall list 2 g6 g7', None)):
            operand = reading.statement(text, False).operands[0]
            if whom is not None:
                self.assertEqual(operand.value, G(whom))
            else:
                self.assertEqual([e.value for e in operand.operands], [G(6), G(7)])
        switch = reading.statement('switch g2 g3', True)
        self.assertEqual([e.value for e in switch.operands], [G(2), G(3)])


if __name__ == '__main__':
    unittest.main()
