"""Small programs over the façade: each runs in all ways, its record replays, and what it says is what gevent says."""
import contextvars
import unittest
from typing import Any, Callable, List

import gvr.gevent as gevent
from gvr.gevent import event, lock, pool, queue
from gvr.gevent.local import local
from gvr.gevent.threadpool import ThreadPool, takes
from gvr.live.errors import Unsupported
from running import in_all_ways

Say = Callable[[Any], None]


class Error(Exception):
    pass


def stays() -> None:
    """Takes a second more to end where it is killed."""
    try:
        gevent.sleep(1)
    finally:
        gevent.sleep(1)


class Facade(unittest.TestCase):
    def says(self, main: Callable[[Say], Any], *expected: Any, again: bool = True) -> None:
        said, outcome, _ = in_all_ways(main, again=again)
        if outcome[0] == 'fault':
            raise outcome[1]
        self.assertEqual(said, list(expected))

    def test_handles_travel(self) -> None:
        def main(say: Say) -> None:
            q = queue.Queue()

            def child() -> Any:
                gevent.sleep(0.01)
                return gevent.getcurrent()

            def other() -> Any:
                g = q.get()
                say(g.get() is g)
                return g
            o, c = gevent.spawn(other), gevent.spawn(child)
            q.put(c)
            say(o.get() is c)
            say(gevent.getcurrent().number)
        self.says(main, True, True, 0)

    def test_finally_calls_under_a_kill(self) -> None:
        def main(say: Say) -> None:
            def f() -> None:
                try:
                    gevent.sleep(1)
                finally:
                    try:
                        gevent.sleep(0.5)
                    finally:
                        say('out')
            g = gevent.spawn(f)
            gevent.sleep(0)
            g.kill(block=False)
            gevent.sleep(0.1)
            g.kill(timeout=0.1)
            say(g.ready())
            g.join()
            say(repr(g.value))
        self.says(main, 'out', True, 'GreenletExit()')

    def test_two_faults_one_of_which_is_raised_at_the_end(self) -> None:
        def main(say: Say) -> None:
            q = queue.Queue()

            def f() -> None:
                with gevent.Timeout(0.01):
                    try:
                        gevent.sleep(1)
                    finally:
                        try:
                            q.get_nowait()
                        except queue.Empty:
                            say('empty')
            g = gevent.spawn(f)
            g.join()
            say(type(g.exception).__name__)
        self.says(main, 'empty', 'Timeout')

    def test_timeout_out_of_a_body(self) -> None:
        def main(say: Say) -> None:
            def f() -> None:
                t = gevent.Timeout.start_new(0.01)
                try:
                    gevent.sleep(1)
                finally:
                    gevent.sleep(0.02)
                    t.close()
            g = gevent.spawn(f)
            try:
                g.get()
            except gevent.Timeout as e:
                say(e is g.exception)
            say(g.successful())
        self.says(main, True, False)

    def test_exceptions_keep_their_identity(self) -> None:
        def main(say: Say) -> None:
            e = Error('x')
            r = event.AsyncResult()

            def f() -> None:
                raise e
            g = gevent.spawn(f)
            g.link(r)
            for get in (g.get, r.get):
                try:
                    get()
                except Error as got:
                    say(got is e)
            h = gevent.spawn(gevent.sleep, 1)
            gevent.sleep(0)
            h.kill(e)
            say(h.exception is e)
        self.says(main, True, True, True)

    def test_links(self) -> None:
        def main(say: Say) -> None:
            def f(x: str) -> str:
                gevent.sleep(0)
                return x
            g = gevent.spawn(f, 'v')

            def callback(ended: Any) -> None:
                say(('any', ended.value))
            g.link(callback)
            g.link_value(lambda ended: say('value'))
            g.link_exception(lambda ended: say('fault'))
            g.unlink(callback)
            say(g.has_links())
            g.join()
            gevent.sleep(0)
            h = gevent.spawn(f, 'w')
            h.link(callback)
            h.link(callback)
            h.unlink_all()
            say(h.has_links())
            h.join()
            gevent.sleep(0)
        self.says(main, True, 'value', False)

    def test_more_links_than_the_language_has_functions(self) -> None:
        def main(say: Say) -> None:
            ended: List[int] = []

            def f(n: int) -> int:
                gevent.sleep((n * 7 % 10) / 1000)
                return n
            gs = [gevent.spawn(f, n) for n in range(150)]
            for g in gs:
                g.link(lambda g: ended.append(g.value))
                g.link(lambda g: ended.append(g.value))
            gevent.joinall(gs)
            gevent.sleep(0)
            say((len(ended), sorted(ended)[::2] == list(range(150))))
            say(sum(pool.Group().imap_unordered(f, range(80))))
        self.says(main, (300, True), 3160, again=False)

    def test_rawlinks_of_events_and_results(self) -> None:
        def main(say: Say) -> None:
            e, r, s = event.Event(), event.AsyncResult(), lock.Semaphore(0)
            e.rawlink(lambda x: say('event'))
            r.rawlink(lambda x: say(x.value))
            s.rawlink(lambda x: say('unit'))
            other = event.Event()

            def never(x: Any) -> None:
                say('unlinked')
            other.rawlink(never)
            other.unlink(never)
            gevent.sleep(0)
            e.set()
            r.set(5)
            s.release()
            other.set()
            gevent.sleep(0.001)
        self.says(main, 'event', 5, 'unit')

    def test_loop_exit(self) -> None:
        def main(say: Say) -> None:
            try:
                event.Event().wait()
            except gevent.LoopExit as e:
                say(str(e))
        self.says(main, 'This operation would block forever')

    def test_queues(self) -> None:
        def main(say: Say) -> None:
            q: Any = queue.PriorityQueue()
            for x in ('m', 'z', 'a', 'b', 'q'):
                q.put(x)
            say(''.join(q.get() for _ in range(5)))
            q = queue.LifoQueue(2, [1, -2])
            say((q.full(), q.get(), q.peek(), q.qsize()))
            try:
                q.get_nowait() and q.get_nowait()
            except queue.Empty:
                say('empty')
            j = queue.JoinableQueue()
            j.put(1)
            say((j.unfinished_tasks, j.join(timeout=0.01)))
            j.task_done()
            say(j.join())
            try:
                j.task_done()
            except ValueError as e:
                say(str(e))
        self.says(main, 'abmqz', (True, -2, 1, 1), 'empty', (1, False), True, 'task_done() called too many times')

    def test_channels(self) -> None:
        def main(say: Say) -> None:
            c = queue.Channel()
            gevent.spawn(c.put, {'k': 1})
            say(c.get())
            for call in (lambda: c.put(1, timeout=0.01), lambda: c.get(timeout=0.01), lambda: c.put_nowait(1)):
                try:
                    call()
                except (queue.Full, queue.Empty) as e:
                    say(type(e).__name__)
            g = gevent.spawn(c.get, timeout=0.05)
            gevent.sleep(0.01)
            c.put(7, timeout=0.01)
            say(g.get())
        self.says(main, {'k': 1}, 'Full', 'Empty', 'Full', 7)

    def test_locks(self) -> None:
        def main(say: Say) -> None:
            s = lock.Semaphore(1)
            say((s.locked(), s.acquire(), s.locked(), s.acquire(blocking=False), s.acquire(timeout=0.01)))
            s.release()
            b = lock.BoundedSemaphore(1)
            try:
                b.release()
            except ValueError as e:
                say(str(e))
            r = lock.RLock()
            with r:
                with r:
                    g = gevent.spawn(r.acquire, timeout=0.01)
                    say(g.get())
            try:
                r.release()
            except RuntimeError as e:
                say(str(e))
            d = lock.DummySemaphore()
            say((d.acquire(), d.acquire(), d.locked()))
        self.says(main, (False, True, True, False, False), 'Semaphore released too many times', False,
                  'cannot release un-acquired lock', (True, True, False))

    def test_with_timeout(self) -> None:
        def main(say: Say) -> None:
            say(gevent.with_timeout(0.01, gevent.sleep, 1, timeout_value='late'))
            say(gevent.with_timeout(1, lambda: 'soon', timeout_value='late'))
            try:
                gevent.with_timeout(0.01, gevent.sleep, 1)
            except gevent.Timeout as e:
                say(str(e))
            try:
                with gevent.Timeout(0.01, Error('own')):
                    gevent.sleep(1)
            except Error as e:
                say(str(e))
        self.says(main, 'late', 'soon', '0.01 seconds', 'own')

    def test_what_is_refused(self) -> None:
        def main(say: Say) -> None:
            a, b = gevent.Timeout(1), gevent.Timeout(2)
            a.start()
            b.start()
            stranger = gevent.spawn(len, 'x')
            calls: List[Callable[[], Any]] = [
                a.close, gevent.idle, lambda: gevent.get_hub().switch(), lambda: pool.Pool(1).add(stranger),
                lambda: gevent.fork(), gevent.wait, lambda: pool.Pool(0), lambda: gevent.sleep(1000001)]
            for call in calls:
                try:
                    call()
                except Unsupported as e:
                    say(len(str(e)) > 10)
            b.close()
            a.close()
        self.says(main, *[True] * 8)

    def test_many(self) -> None:
        def main(say: Say) -> None:
            def f(i: int) -> int:
                gevent.sleep(0.001 * (i % 3))
                return i
            gs = [gevent.spawn(f, i) for i in range(100)]
            say(len(gevent.joinall(gs)))
            say(sum(g.value for g in gs))
        self.says(main, 100, 4950, again=False)

    def test_local_and_contexts(self) -> None:
        v: 'contextvars.ContextVar[int]' = contextvars.ContextVar('v', default=0)

        def main(say: Say) -> None:
            v.set(1)
            here: Any = local()
            here.x = 'main'

            def f(x: int) -> None:
                say(v.get())
                v.set(x)
                here.x = x
                gevent.sleep(0)
                say((v.get(), here.x))
            gevent.joinall([gevent.spawn(f, x) for x in (7, 8)])
            say((v.get(), here.x))
        self.says(main, 1, 1, (7, 7), (8, 8), (1, 'main'))

    def test_thread_pool(self) -> None:
        @takes(0.02)
        def slow(x: int) -> int:
            return x * x

        def main(say: Say) -> None:
            t = ThreadPool(2)
            say(t.map(slow, [1, 2, 3]))
            say(t.apply(slow, (4,)))
            try:
                t.spawn(int, 'x').get()
            except ValueError:
                say('no number')
            t.join()
        self.says(main, [1, 4, 9], 16, 'no number')


class Several(unittest.TestCase):
    """Waits for several, and groups."""

    says = Facade.says

    def test_joinall_answers_in_order_of_readiness(self) -> None:
        def main(say: Say) -> None:
            def f(n: int) -> int:
                gevent.sleep(n / 1000)
                return n
            gs = [gevent.spawn(f, n) for n in (3, 1, 2)]
            say([g.value for g in gevent.joinall(gs, count=2)])
            say([g.value for g in gevent.joinall(gs)])
            more = [gevent.spawn(f, n) for n in (3, 1, 2)]
            say([g.value for g in gevent.iwait(more)])
            say([g.value for g in gevent.wait([gevent.spawn(f, n) for n in (20, 10)], timeout=0.015)])
        # Those that had ended before stand as they stood in the list: 1 and 2 had, 3 had not.
        self.says(main, [1, 2], [1, 2, 3], [1, 2, 3], [10])

    def test_raise_error(self) -> None:
        def main(say: Say) -> None:
            def f() -> None:
                raise Error('f')
            e = event.Event()
            say([x is e for x in gevent.wait([e, gevent.spawn(e.set)])])
            for call in (lambda: gevent.joinall([gevent.spawn(f)], raise_error=True),
                         lambda: group.join(raise_error=True)):
                group = pool.Group()
                group.spawn(f)
                try:
                    call()
                except Error as error:
                    say(str(error))
        self.says(main, [False, True], 'f', 'f')

    def test_killall_raises_its_timeout(self) -> None:
        def main(say: Say) -> None:
            g = gevent.spawn(stays)
            gevent.sleep(0)
            try:
                gevent.killall([g], timeout=0.01)
            except gevent.Timeout:
                say('late')
            gevent.killall([g], block=False)
            g.join()
            gevent.killall([])
            g = gevent.spawn(gevent.sleep, 1)
            gevent.kill(g)
            say(g.ready())
            gevent.sleep(0)
            say(g.ready())
        self.says(main, 'late', True, True)

    def test_group_with_guests(self) -> None:
        def main(say: Say) -> None:
            g = pool.Group()
            a = gevent.spawn(gevent.sleep, 0.02)
            g.add(a)
            b = g.spawn(gevent.sleep, 0.01)
            say((len(g), a in g, b in g, g.full()))
            say(g.join(timeout=0.015))
            say((len(g), a.ready(), b.ready()))
            g.join()
            c, d = gevent.spawn(gevent.sleep, 1), gevent.spawn(gevent.sleep, 1)
            g.add(c)
            g.add(d)
            g.discard(d)
            g.kill()
            say((c.ready(), d.ready(), len(g)))
        self.says(main, (2, True, True, False), False, (1, False, True), (True, False, 0))

    def test_group_kill_with_a_timeout(self) -> None:
        def main(say: Say) -> None:
            g = pool.Group()
            a = g.spawn(stays)
            b = g.spawn(gevent.sleep, 1)
            gevent.sleep(0)
            g.kill(timeout=0.01)
            say((a.ready(), b.ready()))
            g.killone(a)
            say(a.ready())
            g.killone(b)
        self.says(main, (False, True), True)

    def test_pool_places(self) -> None:
        def main(say: Say) -> None:
            p = pool.Pool(2)
            say((p.free_count(), p.full(), p.wait_available()))
            for _ in range(2):
                p.spawn(gevent.sleep, 0.01)
            say((p.free_count(), p.full(), p.wait_available(0.001)))
            say(p.wait_available())
            p.join()
            say((len(p), pool.Pool().free_count(), pool.Group().wait_available()))
            try:
                for _ in range(3):
                    p.add(gevent.Greenlet(gevent.sleep, 1), blocking=False)
            except pool.PoolFull:
                say('full')
        self.says(main, (2, False, 2), (0, True, 0), 2, (0, 1, None), 'full')

    def test_maps(self) -> None:
        def main(say: Say) -> None:
            def f(x: int) -> int:
                gevent.sleep((3 - x) / 1000)
                return x * 10
            p = pool.Pool(2)
            say(p.map(f, [0, 1, 2]))
            say(list(p.imap(f, [0, 1, 2])))
            say(list(pool.Group().imap_unordered(f, [0, 1, 2])))
            say(p.map_async(f, [1, 2], callback=lambda r: say(('called', r))).get())
            say((p.apply(f, (2,)), p.apply_async(f, (1,)).get()))
            say(p.spawn(lambda: p.apply(f, (0,))).get())
        self.says(main, [0, 10, 20], [0, 10, 20], [20, 10, 0], ('called', [10, 20]), [10, 20], (20, 10), 0)

    def test_map_of_more_than_a_list_has(self) -> None:
        self.says(lambda say: say(sum(pool.Pool(2).map(lambda x: x, range(70)))), 2415, again=False)


if __name__ == '__main__':
    unittest.main()
