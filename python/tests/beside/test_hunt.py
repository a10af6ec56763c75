"""Hunts: what they count, a planted change, and a cluster whose worker dies."""
import collections
import concurrent.futures as futures
import importlib.util
import os
import signal
import sys
import threading
import time
import unittest
from typing import Any, Callable, List, Tuple

from gvr.beside.compare import Answer, Part, Task, Verdict, close_sides
from gvr.beside.hunt import Found, Hunt, cluster as cluster_at, parts, processes
from gvr.beside.rules import add_rules, sets
from gvr.beside.sides import Trouble, adapter_words, interpreter

HERE = os.path.dirname(os.path.abspath(__file__))
ORDERED = ('--ordered-groups',)
WHOLE = Part('short', False, 0, 200)


def names_of(whole: Part) -> List[str]:
    return [name for part in parts(whole) for name, _ in part.scenarios()]


class Scripted(futures.Executor):
    """An executor whose first submissions fail as if their worker had died."""

    def __init__(self, failures: int) -> None:
        self.failures = failures

    def submit(self, call: Callable[..., Any], /, *arguments: Any, **named: Any) -> 'futures.Future[Any]':
        future: 'futures.Future[Any]' = futures.Future()
        if self.failures:
            self.failures -= 1
            future.set_exception(futures.BrokenExecutor('gone'))
        else:
            part = arguments[1]
            future.set_result(Answer(part, [Verdict(name, 'same') for name, _ in part.scenarios()], []))
        return future


class Counting(unittest.TestCase):
    def test_parts_cover_the_seeds_once(self) -> None:
        seeds = [seed for part in parts(Part('short', False, 3, 90)) for seed in range(part.low, part.high)]
        self.assertEqual(seeds, list(range(3, 90)))

    def test_a_lost_part_is_done_anew_and_counts_once(self) -> None:
        told: List[str] = []
        executor = Scripted(3)
        hunt = Hunt(Task(('none',), ()), lambda: executor, 1, told.append)
        found = hunt.run(parts(WHOLE))
        self.assertEqual(sorted(found.names), sorted(names_of(WHOLE)))
        self.assertEqual(found.counts['same'], len(names_of(WHOLE)))
        self.assertEqual(len(told), 3)

    def test_a_part_that_is_always_lost_is_told(self) -> None:
        executor = Scripted(1000)
        with self.assertRaisesRegex(Trouble, 'lost 4 times'):
            Hunt(Task(('none',), ()), lambda: executor, 1, lambda line: None).run(parts(WHOLE))

    def test_nothing_is_counted_twice(self) -> None:
        found = Found()
        found.take(Answer(WHOLE, [Verdict('a', 'same')], []))
        with self.assertRaisesRegex(Trouble, 'came twice'):
            found.take(Answer(WHOLE, [Verdict('a', 'same')], []))

    def test_rules_are_counted(self) -> None:
        found = Found()
        found.take(Answer(WHOLE, [Verdict('a', 'different', 'a', ('x', 'y'), ''), Verdict('b', 'different', 'c', ('x',), ''),
                                  Verdict('c', 'different', 'c', None, ''), Verdict('d', 'void: unsupported')], []))
        self.assertEqual(found.rules(), collections.Counter({'x': 2, 'y': 1}))
        self.assertEqual(found.as_json()['unexplained'], ['c'])
        self.assertEqual(found.compared(), 3)


@unittest.skipUnless(interpreter('gevent'), 'no Python here has gevent')
class ByGevent(unittest.TestCase):
    def hunt(self, task: Task) -> Hunt:
        """A hunt in one thread here."""
        executor = futures.ThreadPoolExecutor(1)
        self.addCleanup(executor.shutdown)
        self.addCleanup(lambda: executor.submit(close_sides).result())
        return Hunt(task, lambda: executor, 1, lambda line: None)

    def task(self) -> Task:
        return Task(tuple(adapter_words('gevent', ORDERED)), sets()['gevent'])

    def test_processes_count_what_one_thread_counts(self) -> None:
        whole = Part('short', False, 0, 100)
        one, two = self.hunt(self.task()), Hunt(self.task(), processes(2), 2, lambda line: None)
        self.addCleanup(two.close)
        self.assertEqual(one.run(parts(whole)).as_json(), two.run(parts(whole)).as_json())

    def test_a_planted_change_is_found_minimised_and_named(self) -> None:
        """With all that gevent is known for declared as intended, the change alone is left: within a minute."""
        sys.path.insert(0, HERE)
        self.addCleanup(sys.path.remove, HERE)
        more = add_rules('planted_rule')
        words = (str(interpreter('gevent')), os.path.join(HERE, 'planted.py'), *ORDERED)
        task = Task(words, more, frozenset(sets()['gevent']), modules=('planted_rule',))
        hunt = self.hunt(task)
        began = os.times()
        found = hunt.run(parts(Part('collide', False, 0, 100, ('sem',))))
        case = hunt.cases(1)['overtake_twice.gvr']
        hunt.submit(close_sides).result()                            # the adapter's time counts when it has ended
        self.assertLess(sum(os.times()[:4]) - sum(began[:4]), 60)    # seconds of a processor, whatever else it does
        self.assertGreater(found.classes[('overtake_twice',)], 2)
        scenario = [line for line in case.split('\n') if line and not line.startswith('#')]
        self.assertLessEqual(len(scenario), 12, case)
        self.assertIn('# overtake_twice: ', case)


@unittest.skipUnless(interpreter('gevent') and importlib.util.find_spec('distributed'), 'no distributed here')
class OnACluster(unittest.TestCase):
    def test_a_worker_that_dies_loses_nothing(self) -> None:
        """Three workers, of which one is killed under way: no scenario is lost, none counts twice."""
        distributed: Any = __import__('distributed')
        cluster = distributed.LocalCluster(n_workers=3, threads_per_worker=1, dashboard_address=None, silence_logs=50)
        self.addCleanup(cluster.close)
        client = distributed.Client(cluster)
        self.addCleanup(client.close)
        make, workers = cluster_at(cluster.scheduler_address)
        self.assertEqual(workers, 3)
        whole = Part('short', False, 0, 250)
        task = Task(tuple(adapter_words('gevent', ORDERED)), sets()['gevent'])
        hunt = Hunt(task, make, workers, lambda line: None)
        pid, killed = victim(client), threading.Event()

        def kill() -> None:
            while not hunt.found.names:
                time.sleep(0.01)
            os.kill(pid, signal.SIGKILL)
            killed.set()
        threading.Thread(target=kill, daemon=True).start()
        found = hunt.run(parts(whole))
        self.assertTrue(killed.is_set())
        self.assertEqual(sorted(found.names), sorted(names_of(whole)))
        self.assertEqual(sum(count for kind, count in found.counts.items() if not kind.startswith('different at')),
                         len(names_of(whole)))
        self.assertNotIn('void: died', found.counts)

    def test_no_cluster_is_told(self) -> None:
        with self.assertRaisesRegex(Trouble, 'no cluster answers at tcp://127.0.0.1:1: '):
            cluster_at('tcp://127.0.0.1:1', 0.5)


def victim(client: Any) -> int:
    """The process of one worker."""
    numbers: List[Tuple[str, int]] = sorted(client.run(os.getpid).items())
    return numbers[0][1]


if __name__ == '__main__':
    unittest.main()
