"""`./gvr` as a user calls it: over the built program, or the model in its place where none is built, and without one."""
import json
import os
import pathlib
import signal
import subprocess
import sys
import tempfile
import time
import unittest
from typing import Dict, List, Optional

from gvr.front.program import TOP

GVR, BUILT = str(TOP / "gvr"), TOP / "crates/gvr/out/gvr"
HELLO = str(TOP / "examples/hello.gvr")
HELLO_TRACE = (TOP / "examples/hello.trace").read_text()
AS_PROGRAM = f"""#!/bin/sh
PYTHONPATH={TOP}/python exec {sys.executable} -m gvr.model "$@"
"""


def heed_interrupts() -> None:
    """The signal of Ctrl-C ends a process, as in a terminal."""
    signal.signal(signal.SIGINT, signal.SIG_DFL)


class Front(unittest.TestCase):
    """A folder with programs that stand for the built one where there is none, and where one has to fail."""

    def setUp(self) -> None:
        folder = tempfile.TemporaryDirectory()
        self.addCleanup(folder.cleanup)
        self.folder = pathlib.Path(folder.name)
        self.program = str(BUILT) if BUILT.is_file() else self.make("program", AS_PROGRAM)

    def make(self, name: str, text: str) -> str:
        """A program of this text."""
        file = self.folder / name
        file.write_text(text)
        file.chmod(0o755)
        return str(file)

    def write(self, name: str, text: str) -> str:
        """A file of this text."""
        (self.folder / name).write_text(text)
        return str(self.folder / name)

    def environment(self, program: Optional[str]) -> Dict[str, str]:
        """With this program, or with none."""
        return {**os.environ, "GVR_PROGRAM": program or "/nonexistent", "GVR_PYTHON": sys.executable}

    def call(self, *words: str, given: str = "", file: str = "", program: Optional[str] = "") -> "subprocess.CompletedProcess[str]":
        """What `./gvr` does with these words and this standard input, a pipe or a file."""
        env = self.environment(self.program if program == "" else program)
        if file:
            with open(file) as opened:
                return subprocess.run([GVR, *words], stdin=opened, capture_output=True, text=True, env=env, cwd=self.folder)
        return subprocess.run([GVR, *words], input=given, capture_output=True, text=True, env=env, cwd=self.folder)


class Run(Front):
    def test_a_file_or_the_standard_input(self) -> None:
        for ended in (self.call("run", HELLO), self.call("run", file=HELLO), self.call("run", given=pathlib.Path(HELLO).read_text())):
            self.assertEqual((ended.stdout, ended.stderr, ended.returncode), (HELLO_TRACE, "", 0))

    def test_a_first_line_with_words_is_obeyed(self) -> None:
        ticks = str(TOP / "examples/ticks.gvr")
        trace = (TOP / "examples/ticks.trace").read_text()
        self.assertEqual(self.call("run", ticks).stdout, trace)
        self.assertEqual(self.call("run", file=ticks).stdout, trace)
        self.assertEqual(self.call("run", given=pathlib.Path(ticks).read_text()).stdout, trace)

    def test_options_of_the_call_take_its_place(self) -> None:
        ended = self.call("run", "--turns", "3", str(TOP / "examples/ticks.gvr"))
        self.assertEqual(ended.stdout.splitlines()[-1].split()[:4], ["stop", "no-turns", "turns", "3"])
        self.assertEqual((ended.stderr, ended.returncode), ("gvr: budget of turns spent\n", 6))

    def test_a_refusal_is_shown_behind_the_programs_line(self) -> None:
        bad = self.write("bad.gvr", "sem s\ndef main\n  relase s\nend\n")
        for ended in (self.call("run", bad), self.call("run", file=bad), self.call("run", given=pathlib.Path(bad).read_text())):
            self.assertEqual(ended.returncode, 3)
            self.assertEqual(ended.stderr.splitlines()[:4], [
                "gvr: line 1: reason 6: line too short", "  1 | sem s", "    |      ^ wanted: a number from 0 to 1000000",
                "    = a semaphore is declared with its count of units"])
            self.assertIn("did you mean release?", ended.stderr)
            self.assertEqual(ended.stderr.count("line 1: reason 6"), 1)

    def test_a_run_that_is_stuck_tells_who_waits(self) -> None:
        circle = str(TOP / "examples/circle.gvr")
        for ended in (self.call("run", circle), self.call("run", file=circle)):
            self.assertEqual(ended.stderr, "gvr: main ended by LoopExit: This operation would block forever\n"
                             "nobody could go on, trace line 9:\n  g0 wait e\n  g1 acquire s\n  g2 qget q\n  g3 join g2\n")
            self.assertEqual(ended.returncode, 1)

    def test_one_that_catches_it_and_goes_on_tells_it_each_time(self) -> None:
        caught, trace = str(TOP / "examples/loop_exit_caught.gvr"), (TOP / "examples/loop_exit_caught.trace").read_text()
        waits = "  g0 join g1\n  g1 join g2\n  g2 join g1\n"
        told = f"nobody could go on, trace line 8:\n{waits}nobody could go on, trace line 16:\n{waits}"
        for ended in (self.call("run", caught), self.call("run", file=caught), self.call("run", given=pathlib.Path(caught).read_text())):
            self.assertEqual((ended.stdout, ended.stderr, ended.returncode), (trace, told, 0))
        self.assertEqual(self.call("try", caught).stdout, f"== loop_exit_caught\n{trace}{told}")

    def test_what_is_written_nowhere(self) -> None:
        caught = str(TOP / "examples/loop_exit_caught.gvr")
        with open("/dev/full", "w") as full:
            ended = subprocess.run([GVR, "run", caught], stdout=full, stderr=subprocess.PIPE, text=True, env=self.environment(self.program))
        self.assertEqual((ended.stderr, ended.returncode), ("gvr: write fault\n", 5))

    def test_wrong_words(self) -> None:
        for ended in (self.call("run", "--turns=05", HELLO), self.call("run", "--turns=05", file=HELLO)):
            self.assertEqual(ended.returncode, 2)
            self.assertEqual(ended.stderr.splitlines()[:2], [
                "gvr: usage: gvr run, fmt, wsgi, serve, storm or verify",
                "--turns takes a number from 1 to 10000000, with no zero in front, and not 05"])

    def test_what_cannot_be_read(self) -> None:
        ended = self.call("run", "nothing.gvr")
        self.assertEqual((ended.stderr, ended.returncode), ("gvr: read fault\nnothing.gvr: No such file or directory\n", 4))

    def test_without_a_program_the_model_answers_and_says_so(self) -> None:
        ended = self.call("run", HELLO, program=None)
        self.assertEqual((ended.stdout, ended.returncode), (HELLO_TRACE, 0))
        self.assertTrue(ended.stderr.startswith("gvr: a model in Python answers, which nothing proves; "))
        self.assertEqual(len(ended.stderr.splitlines()), 1)

    def test_no_colours_in_a_pipe(self) -> None:
        self.assertNotIn("\x1b", self.call("run", HELLO).stdout)


class Fmt(Front):
    TEXT = "# run --tick 1\n  # of main\ndef main\nif true\n# inside\nprint 1\n# at the end\nend\nend\n# last\n"
    WANTED = "# run --tick 1\n# of main\ndef main\n  if true\n    # inside\n    print 1\n    # at the end\n  end\nend\n# last\n"

    def test_comments_stay(self) -> None:
        self.assertEqual(self.call("fmt", self.write("a.gvr", self.TEXT)).stdout, self.WANTED)
        self.assertEqual(self.call("fmt", given=self.TEXT).stdout, self.WANTED)
        self.assertEqual(self.call("fmt", given=self.WANTED).stdout, self.WANTED)

    def test_check(self) -> None:
        good, bad = self.write("good.gvr", self.WANTED), self.write("bad.gvr", self.TEXT)
        ended = self.call("fmt", "--check", good, bad)
        self.assertEqual((ended.stdout, ended.stderr, ended.returncode), ("", f"{bad}: line 2 is not as gvr fmt writes it\n", 1))
        self.assertEqual(self.call("fmt", "--check", good).returncode, 0)

    def test_all_examples_are_formatted(self) -> None:
        files = sorted(str(it) for it in TOP.glob("examples/*.gvr"))
        ended = self.call("fmt", "--check", *files[:12])
        self.assertEqual((ended.stderr, ended.returncode), ("", 0))

    def test_a_refusal(self) -> None:
        ended = self.call("fmt", given="def main:\nend\n")
        self.assertEqual(ended.returncode, 3)
        self.assertIn("    |     ^^^^^ wanted: the name of the function\n", ended.stderr)


class Verify(Front):
    def test_a_scenario_and_its_trace(self) -> None:
        ended = self.call("verify", HELLO, str(TOP / "examples/hello.trace"))
        self.assertEqual((ended.stdout, ended.stderr, ended.returncode), ("verified lines 11\n", "", 0))

    def test_budgets_of_the_first_line(self) -> None:
        ended = self.call("verify", str(TOP / "examples/no_ticks.gvr"), str(TOP / "examples/no_ticks.trace"))
        self.assertEqual((ended.stderr, ended.returncode), ("", 0))

    def test_another_line_than_the_runs(self) -> None:
        wrong = self.write("wrong.trace", HELLO_TRACE.replace("print g0 2", "print g0 5"))
        ended = self.call("verify", HELLO, wrong)
        self.assertEqual(ended.stderr, "gvr: trace line 2: cause 2: not the line of the run\nthe trace has: print g0 5\n"
                         "the run has:   print g0 2\ngvr explain cause 2 tells more\n")
        self.assertEqual(ended.returncode, 9)

    def test_an_end_too_early_and_too_late(self) -> None:
        short = self.write("short.trace", "".join(HELLO_TRACE.splitlines(True)[:3]))
        self.assertIn("the trace has: no line\nthe run has:   start g1 greets\n", self.call("verify", HELLO, short).stderr)
        long = self.write("long.trace", HELLO_TRACE * 2)
        self.assertIn("the run has:   no line: it has ended\n", self.call("verify", HELLO, long).stderr)

    def test_laws(self) -> None:
        broken = self.write("broken.trace", "start g0 main\nend g0 value none\nend g0 value none\n")
        ended = self.call("verify", "--check", "laws", broken)
        self.assertEqual(ended.stderr.splitlines()[:3], [
            "gvr: trace line 3: law 1", "the line is: end g0 value none", "law 1: a greenlet ends at most once"])
        self.assertEqual(self.call("verify", "--check", "laws", str(TOP / "examples/hello.trace")).stdout, "verified lines 11\n")


class Views(Front):
    def test_json(self) -> None:
        lines = [json.loads(it) for it in self.call("json", HELLO).stdout.splitlines()]
        self.assertEqual((lines[0]["by"], lines[0]["version"]), ("program", 1))
        self.assertEqual(len(lines), 12)
        source = pathlib.Path(HELLO).read_text().splitlines()
        for it in lines[1:]:
            if it["kind"] == "print":
                self.assertIn("print", source[it["line"] - 1])

    def test_diff_of_two_scenarios(self) -> None:
        ended = self.call("diff", HELLO, HELLO)
        self.assertEqual((ended.stdout, ended.returncode), ("", 0))
        other = self.write("other.gvr", pathlib.Path(HELLO).read_text().replace("print 2", "print 5"))
        ended = self.call("diff", HELLO, other)
        self.assertEqual(ended.returncode, 1)
        self.assertIn("g0\n  - print g0 2  (turn 0 at 0)\n  + print g0 5  (turn 0 at 0)\n", ended.stdout)

    def test_stats_of_a_trace(self) -> None:
        ended = self.call("stats", str(TOP / "examples/who_first.trace"))
        self.assertEqual(ended.stdout.splitlines()[1].split(), ["g0", "main", "3", "2", "6", "5", "sleep,", "line", "2"])

    def test_try_shows_each(self) -> None:
        bad = self.write("bad.gvr", "def main:\nend\n")
        ended = self.call("try", HELLO, bad)
        self.assertTrue(ended.stdout.startswith(f"== hello\n{HELLO_TRACE}== bad\ngvr: line 1: reason 10: name not allowed\n  1 | def main:\n"))
        self.assertTrue(ended.stdout.endswith("-- bad ended with status 3\n"))
        self.assertEqual(ended.returncode, 0)

    def test_watch_runs_at_each_save(self) -> None:
        file = self.folder / "w.gvr"
        out = open(self.folder / "out", "w+")
        self.addCleanup(out.close)
        words = [GVR, "watch", str(file)]
        # A test in the background has the signal ignored, and a child would have it so too.
        watching = subprocess.Popen(words, stdout=out, stderr=subprocess.DEVNULL, env=self.environment(self.program), preexec_fn=heed_interrupts)
        try:
            self.wait_for("ended with status 4")
            file.write_text("def main\nprint 1\nend\n")
            self.wait_for("print g0 1")
            file.write_text("def main\nprint 22\nend\n")
            self.wait_for("print g0 22")
        finally:
            watching.send_signal(signal.SIGINT)
            self.assertEqual(watching.wait(10), 130)

    def wait_for(self, line: str) -> None:
        """The line is written within ten seconds."""
        for _ in range(100):
            if line in (self.folder / "out").read_text():
                return
            time.sleep(0.1)
        self.fail(f"no {line}")


class Words(Front):
    def first_line(self, *words: str) -> str:
        ended = self.call(*words)
        return (ended.stdout or ended.stderr).split("\n")[0]

    def test_help(self) -> None:
        self.assertEqual(self.first_line("--help"), "gvr runs scenarios of greenlets and writes the exact trace of each.")
        self.assertEqual(self.first_line(), self.first_line("--help"))
        self.assertEqual(self.first_line("help", "fmt"), "usage: gvr fmt [FILE]")
        for name in ("run", "serve", "wsgi", "storm", "verify", "try", "diff"):
            self.assertTrue(self.first_line(name, "--help").startswith(f"usage: gvr {name} "), name)

    def test_no_words_is_no_command(self) -> None:
        self.assertEqual((self.call().returncode, self.call("--help").returncode), (2, 0))

    def test_version(self) -> None:
        self.assertRegex(self.first_line("--version"), r"^gvr \d+\.\d+$")

    def test_a_word_that_is_no_command(self) -> None:
        ended = self.call("rnu")
        self.assertEqual(ended.returncode, 2)
        self.assertEqual(ended.stderr, "gvr: usage: gvr run, fmt, wsgi, serve, storm or verify\nthere is no command rnu; did you mean run?\n")

    def test_explain(self) -> None:
        self.assertEqual(self.first_line("explain", "8"), "Reason 8 number not in its one spelling")
        self.assertEqual(self.first_line("explain", "status", "6"), "Status 6 budget spent")
        self.assertEqual(self.first_line("explain", "law", "2"), "Law 2 no line of a greenlet follows its end line")
        self.assertEqual(self.call("explain", "77").returncode, 2)


class Serve(Front):
    FAULT = "#!/bin/sh\necho 'gvr: network fault' >&2\nexit 10\n"

    def test_a_network_fault_tells_the_port_and_the_cause(self) -> None:
        import socket
        with socket.socket() as taken:
            taken.bind(("127.0.0.1", 0))
            taken.listen()
            port = taken.getsockname()[1]
            ended = self.call("serve", "--port", str(port), "--conns", "1", program=self.make("fault", self.FAULT))
        self.assertEqual(ended.returncode, 10)
        self.assertEqual(ended.stderr.splitlines()[0], "gvr: network fault")
        self.assertTrue(ended.stderr.splitlines()[1].startswith(f"port {port}: Address already in use; "), ended.stderr)

    def test_a_signal_goes_to_the_program(self) -> None:
        waits = self.make("waits", f"#!/bin/sh\ntrap 'echo ended; exit 7' TERM\necho listening\nwhile :; do sleep 0.05; done\n")
        serving = subprocess.Popen([GVR, "serve", "--port", "0", "--conns", "1"], stdout=subprocess.PIPE, text=True, env=self.environment(waits))
        assert serving.stdout
        self.assertEqual(serving.stdout.readline(), "listening\n")
        serving.terminate()
        self.assertEqual((serving.stdout.read(), serving.wait(10)), ("ended\n", 7))
        serving.stdout.close()

    def test_the_standard_input_goes_to_wsgi(self) -> None:
        echo = self.make("echo", "#!/bin/sh\ncat\n")
        self.assertEqual(self.call("wsgi", given="GET / HTTP/1.0\r\n", program=echo).stdout, "GET / HTTP/1.0\r\n".replace("\r\n", "\n"))


if __name__ == "__main__":
    unittest.main()
