"""Under patch_all threading and queue are the run's: what Python's own library promises of them."""
import concurrent.futures
import queue
import threading
import time
import unittest
from typing import Any, Callable, List

from gvr.gevent import monkey
from gvr.live.errors import Unsupported
from running import in_all_ways

Say = Callable[[Any], None]


class Threads(unittest.TestCase):
    def says(self, main: Callable[[Say], Any], *expected: Any) -> None:
        def patched(say: Say) -> None:
            monkey.patch_all()
            try:
                main(say)
            finally:
                monkey.restore()
        said, outcome, _ = in_all_ways(patched)
        if outcome[0] == 'fault':
            raise outcome[1]
        self.assertEqual(said, list(expected))

    def test_locks(self) -> None:
        def main(say: Say) -> None:
            lock, again = threading.Lock(), threading.RLock()
            with lock:
                say((lock.locked(), lock.acquire(False), lock.acquire(timeout=0.01)))
            try:
                lock.release()
            except RuntimeError as e:
                say(str(e))
            with again, again:
                say(again.acquire(blocking=False))
            units = threading.BoundedSemaphore(2)
            units.acquire()
            units.acquire()
            units.release(2)
            try:
                units.release()
            except ValueError:
                say('too often')
        self.says(main, (True, False, False), 'release unlocked lock', True, 'too often')

    def test_threads_and_events(self) -> None:
        def main(say: Say) -> None:
            ready, mine = threading.Event(), threading.local()
            mine.x = 'main'

            def work(n: int, more: int = 0) -> None:
                mine.x = n
                ready.wait()
                time.sleep(n / 100)
                say((mine.x + more, time.monotonic()))
            threads = [threading.Thread(target=work, args=(n,), kwargs={'more': 10}, name='t%d' % n) for n in (2, 1)]
            for thread in threads:
                thread.start()
            say([t.name for t in threads if t.is_alive()])
            ready.set()
            for thread in threads:
                thread.join()
            say((mine.x, [t.is_alive() for t in threads]))

            class Own(threading.Thread):
                def run(self) -> None:
                    say('own')
            own = Own()
            own.start()
            own.join()
        self.says(main, ['t2', 't1'], (11, 0.01), (12, 0.02), ('main', [False, False]), 'own')

    def test_conditions(self) -> None:
        def main(say: Say) -> None:
            items: List[int] = []
            full = threading.Condition()

            def take(name: str) -> None:
                with full:
                    while not items:
                        full.wait()
                    say((name, items.pop(0)))
            threads = [threading.Thread(target=take, args=(name,)) for name in 'ab']
            for thread in threads:
                thread.start()
            time.sleep(0.01)
            for n in (1, 2):
                with full:
                    items.append(n)
                    full.notify()
                time.sleep(0.01)
            with full:
                say(full.wait(timeout=0.01))
                full.notify_all()
                say(full.wait_for(lambda: False, timeout=0.01))
        self.says(main, ('a', 1), ('b', 2), False, False)

    def test_queues(self) -> None:
        def main(say: Say) -> None:
            tasks: 'queue.Queue[int]' = queue.Queue(2)

            def work() -> None:
                while True:
                    n = tasks.get()
                    time.sleep(0.01)
                    say(n)
                    tasks.task_done()
            threading.Thread(target=work, daemon=True).start()
            for n in range(4):
                tasks.put(n)
            tasks.join()
            say((tasks.empty(), time.monotonic()))
            try:
                tasks.get(timeout=0.01)
            except queue.Empty:
                say('empty')
            least: 'queue.PriorityQueue[Any]' = queue.PriorityQueue()
            least.put((2, 'b'))
            least.put((1, 'a'))
            say(least.get())
            try:
                least.task_done()
            except Unsupported:
                say('no tasks')
        self.says(main, 0, 1, 2, 3, (True, 0.04), 'empty', (1, 'a'), 'no tasks')

    def test_classes_of_the_program_and_of_the_library(self) -> None:
        def main(say: Say) -> None:
            class Own(queue.Queue):              # type: ignore[type-arg]
                def double(self) -> None:
                    self.put(self.get() * 2)
            own = Own(maxsize=3)
            own.put(4)
            own.double()
            say((own.get(), own.maxsize, isinstance(own, queue.Queue)))
            with concurrent.futures.ThreadPoolExecutor(1) as executor:
                say(executor._work_queue is not None)
        self.says(main, (8, 3, True), True)

    def test_outside_of_a_run_they_are_the_real_ones(self) -> None:
        real = threading.Lock
        self.says(lambda say: say(threading.Lock is real), False)
        self.assertIs(threading.Lock, real)


if __name__ == '__main__':
    unittest.main()
