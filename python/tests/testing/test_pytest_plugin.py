"""Tests of gvr.pytest_plugin: pytest itself runs over tests of a user."""
import importlib.util
import os
import pathlib
import re
import subprocess
import sys
import tempfile
import textwrap
import unittest
from typing import Tuple

PYTHON = pathlib.Path(__file__).resolve().parents[2]
LACKING = [name for name in ("greenlet", "pytest") if importlib.util.find_spec(name) is None]

LIMITS = """
    import time
    import gevent
    from gevent.lock import Semaphore

    def begin(patience):
        bucket = Semaphore(2)
        def call():
            bucket.acquire()
            gevent.spawn_later(60, bucket.release)
            return time.monotonic()
        calls = [gevent.spawn(call) for _ in range(3)]
        gevent.joinall(calls, timeout=patience)
        return [call.value for call in calls]

    def test_third_call_waits():
        assert begin(90) == [0, 0, 60]
"""

FAILING = """
    def test_impatient():
        assert begin(30) == [0, 0, 60]
"""


@unittest.skipIf(LACKING, f"needs {' and '.join(LACKING)}")
class Plugin(unittest.TestCase):
    def pytest(self, text: str, *words: str, **more: str) -> Tuple[int, str]:
        """The status and the output of pytest over one file of tests. FOLDER in the words is the folder of the test."""
        with tempfile.TemporaryDirectory() as folder:
            (pathlib.Path(folder) / "test_user.py").write_text(textwrap.dedent(text))
            words = tuple(word.replace("FOLDER", folder) for word in words)
            command = [sys.executable, "-B", "-m", "pytest", "-q", "-p", "no:cacheprovider", "-p", "gvr.pytest_plugin", *words]
            env = {**os.environ, "PYTHONPATH": str(PYTHON), **more}
            ended = subprocess.run(command, cwd=folder, env=env, capture_output=True, text=True, check=False)
            kept = pathlib.Path(folder) / "kept"
            self.kept = {file.name: file.read_text() for file in kept.iterdir()} if kept.is_dir() else {}
        return ended.returncode, ended.stdout + ended.stderr

    def test_each_test_is_a_run(self) -> None:
        status, told = self.pytest(LIMITS, "--gvr")
        self.assertEqual(status, 0, told)
        self.assertIn("1 passed", told)
        seconds = re.search(r"passed in ([\d.]+)s", told)
        self.assertIsNotNone(seconds, told)
        self.assertLess(float(seconds[1]) if seconds else 60, 5)

    def test_a_failure_tells_the_trace_and_who_waits(self) -> None:
        status, told = self.pytest(LIMITS + FAILING, "--gvr")
        self.assertEqual(status, 1, told)
        self.assertIn("1 failed, 1 passed", told)
        section = told.partition(" gvr ---")[2]
        self.assertIn("moment 30000; the last lines of the trace:", section)
        self.assertIn("  park g3 acquire bucket\n", section)
        self.assertRegex(section, r"g3 call_3 waits.* acquire bucket .*at test_user\.py:9 in call")
        self.assertNotIn("kept:", section)

    def test_what_failed_is_kept(self) -> None:
        status, told = self.pytest(LIMITS + FAILING, "--gvr", "--gvr-keep", "FOLDER/kept")
        self.assertEqual(status, 1, told)
        self.assertEqual(sorted(self.kept), [f"test_user.test_impatient.{kind}" for kind in ("gvr", "svg", "trace")])
        self.assertIn("sem bucket 2\n", self.kept["test_user.test_impatient.gvr"])
        self.assertIn("turn 1 elapsed 30000\n", self.kept["test_user.test_impatient.trace"])
        self.assertIn("test_user.test_impatient.svg", told)

    def test_only_what_is_marked(self) -> None:
        text = """
            import time
            import gvr.testing
            import gevent
            import pytest

            @pytest.mark.gvr(tick=1)
            def test_polling():
                while time.monotonic() < 0.01:
                    gevent.sleep(0)
                assert time.monotonic() == 0.01

            def test_plain():
                assert time.monotonic() != 0
        """
        status, told = self.pytest(text, "--strict-markers")
        self.assertEqual(status, 0, told)
        self.assertIn("2 passed", told)

    def test_fixtures_parameters_skips_and_expected_failures(self) -> None:
        text = """
            import gevent
            import pytest
            from gevent.queue import Queue

            @pytest.fixture
            def queue():
                return Queue()

            @pytest.mark.parametrize("pause", [1, 60])
            def test_put(queue, pause):
                gevent.spawn_later(pause, queue.put, pause)
                assert queue.get(timeout=61) == pause

            def test_skips():
                pytest.skip("not today")

            @pytest.mark.xfail(raises=ZeroDivisionError)
            def test_fails():
                gevent.spawn(lambda: 1 // 0).get()

            def test_raises():
                with pytest.raises(gevent.Timeout):
                    with gevent.Timeout(60):
                        gevent.sleep(61)
        """
        status, told = self.pytest(text, "--gvr", "--gvr-keep", "FOLDER/kept")
        self.assertEqual(status, 0, told)
        self.assertIn("3 passed, 1 skipped, 1 xfailed", told)

    def test_unittest_and_tests_that_are_virtual_already(self) -> None:
        text = """
            import time
            import unittest
            import gvr.testing
            import gevent
            from gevent.queue import Queue

            class Queues(unittest.TestCase):
                def setUp(self):
                    self.queue = Queue()

                def test_put(self):
                    gevent.spawn_later(60, self.queue.put, 7)
                    self.assertEqual(self.queue.get(timeout=61), 7)

                def test_waits(self):
                    self.queue.get(timeout=61)

            @gvr.testing.virtual
            def test_virtual():
                gevent.sleep(60)
                assert time.monotonic() == 60
        """
        status, told = self.pytest(text, "--gvr", "--gvr-keep", "FOLDER/kept")
        self.assertEqual(status, 1, told)
        self.assertIn("1 failed, 2 passed", told)
        self.assertIn("moment 61000; the last lines of the trace:", told)
        self.assertEqual(sorted(self.kept)[0], "test_user.Queues.test_waits.gvr")

    def test_the_fixture_runs_what_it_is_given(self) -> None:
        text = """
            import gvr.testing
            import gevent
            import time

            def work(seconds):
                gevent.sleep(seconds)
                return time.monotonic()

            def test_twice(gvr_run):
                assert [gvr_run(work, 60), gvr_run(work, 1)] == [60, 1]
        """
        status, told = self.pytest(text)
        self.assertEqual(status, 0, told)

    def test_nothing_changes_without_its_options(self) -> None:
        status, told = self.pytest("import sys\n\ndef test_plain():\n    assert 'gvr.testing' not in sys.modules\n")
        self.assertEqual(status, 0, told)


if __name__ == "__main__":
    unittest.main()
