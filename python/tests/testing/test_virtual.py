"""Tests of gvr.testing: virtual time, one order, what a failure tells, what is kept of it, and assert_order."""
import importlib.util
import io
import os
import pathlib
import random
import subprocess
import sys
import tempfile
import textwrap
import time
import traceback
import unittest
from typing import Any, List
from unittest import mock

PYTHON = pathlib.Path(__file__).resolve().parents[2]
HAS_GREENLET = importlib.util.find_spec("greenlet") is not None

if HAS_GREENLET:
    from gvr import testing
    import gevent
    from gevent.lock import Semaphore
    from gevent.queue import Queue

    shared_lock = Semaphore(1)


def python(code: str) -> str:
    """What this code writes in a process of its own."""
    more = {**os.environ, "PYTHONPATH": str(PYTHON)}
    command = [sys.executable, "-B", "-c", textwrap.dedent(code)]
    ended = subprocess.run(command, env=more, capture_output=True, text=True, check=False)
    return ended.stdout + ended.stderr


def third_call_waits() -> List[Any]:
    """Two calls a minute are allowed; the moments at which three calls begin, in seconds."""
    bucket = Semaphore(2)

    def call() -> float:
        bucket.acquire()
        gevent.spawn_later(60, bucket.release)
        return time.monotonic()

    calls = [gevent.spawn(call) for _ in range(3)]
    gevent.joinall(calls)
    return [each.value for each in calls]


def waits_for_nobody() -> None:
    bucket = Semaphore(0)
    waiter = gevent.spawn(bucket.acquire)
    waiter.join()


@unittest.skipUnless(HAS_GREENLET, "needs greenlet, Debian's python3-greenlet")
class Running(unittest.TestCase):
    def test_a_minute_takes_no_minute(self) -> None:
        began = time.perf_counter()
        self.assertEqual(testing.run(third_call_waits), [0, 0, 60])
        self.assertLess(time.perf_counter() - began, 1)

    def test_the_order_and_the_numbers_are_the_same_each_time(self) -> None:
        def shuffled() -> List[int]:
            queue, numbers = Queue(), list(range(20))
            random.shuffle(numbers)
            gevent.joinall([gevent.spawn_later(random.random(), queue.put, n) for n in numbers])
            return [queue.get() for _ in numbers]

        first, trace = testing.run(shuffled), testing.trace()
        self.assertEqual(testing.run(shuffled), first)
        self.assertEqual(testing.trace(), trace)
        other = testing.run(shuffled, options=testing.Options(seed=1))
        self.assertNotEqual(other, first)
        self.assertEqual(sorted(other), sorted(first))

    def test_clock_and_random_are_as_before_afterwards(self) -> None:
        random.seed(7)
        wanted = random.Random(7).random()
        with self.assertRaises(ZeroDivisionError):
            testing.run(lambda: gevent.sleep(1000) or 1 // 0)
        self.assertEqual(random.random(), wanted)
        self.assertGreater(abs(time.monotonic() - 1000), 1e-9)
        before = time.time()
        self.assertLess(abs(time.time() - before), 60)

    def test_a_run_within_a_run_is_a_part_of_it(self) -> None:
        def outer() -> List[float]:
            gevent.sleep(1)
            return [time.monotonic(), a_function(), time.monotonic()]

        self.assertEqual(testing.run(outer), [1, 61, 61])

    def test_what_is_raised_is_the_same_error(self) -> None:
        error = LookupError("none")

        def fails() -> None:
            gevent.sleep(0.01)
            raise error

        with self.assertRaises(LookupError) as caught:
            testing.run(fails)
        self.assertIs(caught.exception, error)

    def test_who_still_waits_ends_with_the_run(self) -> None:
        told: List[str] = []

        def waits() -> None:
            try:
                Semaphore(0).acquire()
            finally:
                told.append("finally")
                gevent.sleep(1)
                told.append("not reached")

        def leaves() -> None:
            gevent.spawn(waits)
            gevent.sleep(1)

        testing.run(leaves)
        self.assertEqual(told, ["finally"])
        testing.run(leaves)
        self.assertEqual(told, ["finally", "finally"])
        self.assertEqual(sum(line.startswith("start") for line in testing.trace()), 2)

    def test_threads_of_a_module_that_patches_are_greenlets_in_each_run(self) -> None:
        code = """
            from gvr import testing
            from gevent import monkey
            monkey.patch_all()
            import threading, time

            def works():
                thread = threading.Thread(target=time.sleep, args=(60,))
                thread.start()
                thread.join()
                return time.monotonic()

            print(testing.run(works), testing.run(works), type(threading.Lock()).__module__)
        """
        self.assertEqual(python(code), "60.0 60.0 _thread\n")

    def test_an_object_that_a_module_makes_is_new_in_each_run(self) -> None:
        def takes() -> bool:
            return bool(shared_lock.acquire(blocking=False))

        self.assertEqual([testing.run(takes), testing.run(takes)], [True, True])


@unittest.skipUnless(HAS_GREENLET, "needs greenlet, Debian's python3-greenlet")
class Telling(unittest.TestCase):
    def failure(self, main: Any, **options: int) -> Any:
        with self.assertRaises(BaseException) as caught:
            testing.run(main, "told", testing.Options(**options))
        return caught.exception

    def test_a_run_that_stands_still_tells_who_waits_where(self) -> None:
        error = self.failure(waits_for_nobody)
        self.assertEqual(type(error).__name__, "LoopExit")
        waiting = error.gvr_report.waiting
        self.assertRegex("\n".join(waiting), r"(?m)^g0 main waits: join g1\b.* in waits_for_nobody$")
        self.assertRegex("\n".join(waiting), r"(?m)^g1 \w+ waits: acquire bucket\b")
        self.assertIn("bucket was not released", [line.strip() for line in waiting])

    def test_the_line_of_the_test_is_told(self) -> None:
        def worker() -> None:
            Semaphore(0).acquire()  # here

        def fails() -> None:
            gevent.spawn(worker)
            gevent.sleep(0)
            raise AssertionError("wrong")

        here = next(n for n, line in enumerate(pathlib.Path(__file__).read_text().splitlines(), 1) if line.endswith("# here"))
        report = self.failure(fails).gvr_report
        self.assertIn(f"test_virtual.py:{here} in worker", report.waiting[0])

    def test_the_last_lines_of_the_trace_are_told(self) -> None:
        def fails() -> None:
            gevent.sleep(0.005)
            raise AssertionError("wrong")

        report = self.failure(fails).gvr_report
        self.assertEqual(report.moment, 5)
        self.assertEqual(report.lines[:5], ["start g0 main", "park g0 sleep until 5", "block 5", "turn 1 elapsed 5", "wake g0"])
        self.assertIn("nobody waits", report.text())

    def test_a_budget_that_is_spent_is_a_failure(self) -> None:
        def spins() -> None:
            while True:
                gevent.sleep(0)

        error = self.failure(spins, turns=20)
        self.assertIsInstance(error, testing.Stopped)
        self.assertIn("no-turns", str(error))

    def test_a_tick_lets_time_pass(self) -> None:
        def polls() -> float:
            while time.monotonic() < 0.02:
                gevent.sleep(0)
            return time.monotonic()

        self.assertEqual(testing.run(polls, options=testing.Options(tick=1)), 0.02)

    @unittest.skipUnless(hasattr(BaseException, "add_note"), "Python has notes from 3.11 on")
    def test_the_report_is_a_note_of_the_error(self) -> None:
        with mock.patch.dict(os.environ):
            os.environ.pop("PYTEST_CURRENT_TEST", None)
            error = self.failure(waits_for_nobody)
        self.assertEqual(error.__notes__, [error.gvr_report.text()])

    def test_without_notes_the_report_stands_on_standard_error(self) -> None:
        class Old(Exception):
            add_note = None

        def fails() -> None:
            raise Old()

        with mock.patch.dict(os.environ), mock.patch("sys.stderr", io.StringIO()) as said:
            os.environ.pop("PYTEST_CURRENT_TEST", None)
            error = self.failure(fails)
        self.assertEqual(said.getvalue(), error.gvr_report.text() + "\n")

    def test_the_traceback_begins_with_the_test(self) -> None:
        def fails() -> None:
            raise AssertionError("wrong")

        try:
            testing.run(fails)
        except AssertionError as error:
            names = [frame.name for frame in traceback.extract_tb(error.__traceback__)]
        self.assertEqual(names, ["test_the_traceback_begins_with_the_test", "run", "fails"])

    def test_a_test_that_is_skipped_tells_nothing(self) -> None:
        def skips() -> None:
            raise unittest.SkipTest("not here")

        self.assertFalse(hasattr(self.failure(skips), "gvr_report"))


@unittest.skipUnless(HAS_GREENLET, "needs greenlet, Debian's python3-greenlet")
class Keeping(unittest.TestCase):
    def test_scenario_trace_and_picture_are_kept(self) -> None:
        from gvr.model import answer

        with tempfile.TemporaryDirectory() as folder, mock.patch.dict(os.environ, GVR_KEEP=folder):
            with self.assertRaises(Exception):
                testing.run(waits_for_nobody, "Some.test (of mine)")
            kept = {file.name: file.read_text() for file in pathlib.Path(folder).iterdir()}
        self.assertEqual(sorted(kept), [f"Some.test_of_mine_.{kind}" for kind in ("gvr", "svg", "trace")])
        trace = kept["Some.test_of_mine_.trace"]
        self.assertEqual(trace.splitlines(), testing.trace())
        self.assertEqual(answer(["run"], kept["Some.test_of_mine_.gvr"].encode()).out.decode(), trace)
        self.assertIn("<svg", kept["Some.test_of_mine_.svg"])

    def test_nothing_is_kept_of_a_test_that_passes(self) -> None:
        with tempfile.TemporaryDirectory() as folder, mock.patch.dict(os.environ, GVR_KEEP=folder):
            testing.run(third_call_waits)
            self.assertEqual(os.listdir(folder), [])


@unittest.skipUnless(HAS_GREENLET, "needs greenlet, Debian's python3-greenlet")
class Ordering(unittest.TestCase):
    def check(self, *wanted: Any) -> None:
        """Of two greenlets that sleep, the second one wakes first."""

        def main() -> None:
            lock = Semaphore(1)

            def holds(seconds: float) -> None:
                with lock:
                    gevent.sleep(seconds)

            self.slow, self.quick, self.lock = gevent.spawn(holds, 0.02), gevent.spawn(gevent.sleep, 0.01), lock
            waiter = gevent.spawn(holds, 0.01)
            waiter.join()
            named = {"slow": self.slow, "quick": self.quick, "waiter": waiter, "lock": lock}
            lines: List[Any] = [it if isinstance(it, str) else tuple(named.get(part, part) for part in it) for it in wanted]
            testing.assert_order(*lines)

        testing.run(main)

    def refused(self, *wanted: Any) -> str:
        with self.assertRaises(AssertionError) as caught:
            self.check(*wanted)
        return str(caught.exception)

    def test_lines_in_order_with_others_between(self) -> None:
        self.check("start g1", "park g1 sleep until 20", "wake g2", "wake g1", "end g3 value none")

    def test_greenlets_and_objects_are_named(self) -> None:
        self.check(("park", "waiter", "acquire", "lock"), ("end", "quick"), ("end", "slow"), ("wake", "waiter"))

    def test_the_wrong_order_is_told(self) -> None:
        told = self.refused(("end", "slow"), ("end", "quick"))
        self.assertTrue(told.startswith("the trace has no line `end g2` behind line "), told)
        self.assertIn("`end g1 value none`", told)

    def test_a_line_that_is_missing_is_told(self) -> None:
        self.assertEqual(self.refused("throw g1"), "the trace has no line `throw g1`")

    def test_a_number_is_a_whole_word(self) -> None:
        self.assertEqual(self.refused("start g"), "the trace has no line `start g`")

    def test_a_line_is_asked_for_once_more(self) -> None:
        self.check("wake g3", "wake g3")
        self.assertIn("behind line", self.refused("wake g2", "wake g2"))


if HAS_GREENLET:

    @testing.virtual
    def a_function() -> float:
        gevent.sleep(60)
        return time.monotonic()

    @testing.virtual(tick=1)
    def with_a_tick() -> bool:
        while time.monotonic() < 0.01:
            gevent.sleep(0)
        return True

    @testing.virtual
    class AClass(unittest.TestCase):
        def setUp(self) -> None:
            self.lock = Semaphore(1)

        def test_time(self) -> None:
            gevent.sleep(60)
            self.assertEqual(time.monotonic(), 60)

        def test_lock(self) -> None:
            self.assertTrue(self.lock.acquire(blocking=False))
            self.assertFalse(self.lock.acquire(timeout=60))

        def helper(self) -> str:
            return "as it is"


@unittest.skipUnless(HAS_GREENLET, "needs greenlet, Debian's python3-greenlet")
class Decorating(unittest.TestCase):
    def test_functions(self) -> None:
        self.assertEqual((a_function(), a_function.__name__), (60, "a_function"))
        self.assertTrue(with_a_tick())

    def test_a_class_has_its_tests_in_runs_and_the_rest_as_it_is(self) -> None:
        self.assertEqual(AClass("helper").helper(), "as it is")
        self.assertTrue(AClass("test_time").run().wasSuccessful())  # type: ignore[union-attr]

    def test_gevent_has_to_come_later(self) -> None:
        code = """
            import sys, types
            sys.modules["gevent"] = types.ModuleType("gevent")
            import gvr.testing
        """
        self.assertIn("gevent was imported before gvr.testing", python(code))


if __name__ == "__main__":
    unittest.main()
