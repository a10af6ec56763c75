"""The module greenlet: what its own pages say of switches, under the façade, with the record replayed in all ways."""
import unittest
from typing import Any, Callable

import gvr.gevent as gevent
from gvr.gevent.raw import GreenletExit, error, getcurrent, greenlet
from gvr.live.errors import Unsupported
from running import in_all_ways

Say = Callable[[Any], None]


class Raw(unittest.TestCase):
    def says(self, main: Callable[[Say], Any], *expected: Any) -> 'list[str]':
        said, outcome, session = in_all_ways(main)
        if outcome[0] == 'fault':
            raise outcome[1]
        self.assertEqual(said, list(expected))
        return session.trace

    def test_the_first_example_of_its_pages(self) -> None:
        def main(say: Say) -> None:
            def test1() -> None:
                say(12)
                gr2.switch()
                say(34)

            def test2() -> None:
                say(56)
                gr1.switch()
                say(78)
            gr1 = greenlet(test1)
            gr2 = greenlet(test2)
            gr1.switch()
            say((gr1.dead, gr2.dead, bool(gr2)))
        trace = self.says(main, 12, 56, 34, (True, False, True))
        self.assertEqual(trace[:7], ['start g0 main', 'start g1 test1', 'start g2 test2', trace[3], trace[4], trace[5],
                                     trace[6]])
        self.assertIn('into g1 value -', trace[3])
        self.assertIn('end g1 value none', trace[4])

    def test_a_generator_by_hand(self) -> None:
        def main(say: Say) -> None:
            def counts(back: Any) -> None:
                for n in (1, 2):
                    back.switch(n)
            g = greenlet(counts)
            say(g.switch(getcurrent()))
            say(g.switch())
            say(g.switch())
            say(g.switch('to the dead one'))
        self.says(main, 1, 2, None, 'to the dead one')

    def test_parent_is_whom_it_ends_into(self) -> None:
        def main(say: Say) -> None:
            def inner(x: int) -> int:
                getcurrent().parent.switch(x + 1)
                return x + 2

            def outer(x: int) -> int:
                g = greenlet(inner)
                say(g.parent is getcurrent())
                got = g.switch(x)
                return int(got) * 10
            g = greenlet(outer)
            say(g.switch(1))
        self.says(main, True, 20)

    def test_arguments(self) -> None:
        def main(say: Say) -> None:
            back = getcurrent()

            def f(*args: Any, **kwargs: Any) -> Any:
                say((args, kwargs))
                say(back.switch(1, 2))
                say(back.switch(a=1))
                return back.switch(1, b=2)
            g = greenlet(f)
            say(g.switch(3, 4, c=5))
            say(g.switch())
            say(g.switch([7]))
            say(g.switch('last'))
        self.says(main, ((3, 4), {'c': 5}), (1, 2), (), {'a': 1}, [7], ((1,), {'b': 2}), 'last')

    def test_throw(self) -> None:
        def main(say: Say) -> None:
            back = getcurrent()

            def f() -> None:
                try:
                    back.switch('began')
                except ValueError as e:
                    say(str(e))
                    back.switch('caught')
            g = greenlet(f)
            say(g.switch())
            say(g.throw(ValueError, 'thrown'))
            say(isinstance(g.throw(), GreenletExit))
            say(isinstance(greenlet(f).throw(), GreenletExit))
            try:
                greenlet(f).throw(KeyError('k'))
            except KeyError as e:
                say(e.args)
        self.says(main, 'began', 'thrown', 'caught', True, True, ('k',))

    def test_setparent_and_under(self) -> None:
        def main(say: Say) -> None:
            def first() -> str:
                return 'first'

            def second(got: Any) -> str:
                return 'second got ' + str(got)
            a = greenlet(first)
            b = greenlet(second)
            a.parent = b
            try:
                b.parent = a
            except ValueError as e:
                say(str(e))
            c = greenlet(first, b)
            say(c.parent is b)
            say(a.switch())
        self.says(main, 'cyclic parent chain', True, 'second got first')

    def test_a_class_with_a_run_of_its_own(self) -> None:
        class Own(greenlet):
            def run(self, x: int) -> int:
                return x + 1
        self.says(lambda say: say(Own().switch(1)), 2)

    def test_in_greenlets_of_gevent(self) -> None:
        def main(say: Say) -> None:
            def host(x: int) -> Any:
                def f(y: int) -> int:
                    return y * 2
                g = greenlet(f)
                gevent.sleep(0.001)
                return g.switch(x)
            hosts = [gevent.spawn(host, x) for x in (1, 2)]
            gevent.joinall(hosts)
            say([g.value for g in hosts])
        self.says(main, [2, 4])

    def test_what_is_refused(self) -> None:
        def main(say: Say) -> None:
            def waits() -> None:
                try:
                    gevent.sleep(1)
                except Unsupported as e:
                    say('sleep 1000' in str(e))
            greenlet(waits).switch()
            made = []

            def late() -> None:
                getcurrent().parent.switch()
                try:
                    made[0].switch()
                except Unsupported as e:
                    say('was not there' in str(e))
            g = greenlet(late)
            g.switch()
            made.append(greenlet(late))
            g.switch()
            other = gevent.spawn(lambda: greenlet(late).switch())
            try:
                other.switch(1)
            except error as e:
                say(str(e))
        self.says(main, True, True, 'cannot switch to a greenlet of another host')


if __name__ == '__main__':
    unittest.main()
