"""The tools that measure proofs, over processes that only spend time: what each crate costs the gate, and what the proof
of one crate spends its time on."""
import os
import pathlib
import re
import signal
import subprocess
import sys
import tempfile
import textwrap
import time
import unittest
from typing import Dict, List

from gvr.front.program import TOP

# Spends so many processor seconds, as a check of the kit would, notes that in a file, and waits to be seen.
SPENDS = """
import pathlib, subprocess, sys, time
seconds, note, *words = sys.argv[1:]
if "--in-parts" in words:
    subprocess.Popen([sys.executable, __file__, "1.6", note + ".part", *words[:2]])
while time.process_time() < float(seconds): pass
pathlib.Path(note).write_text("")
time.sleep(60)
"""


class GateTimes(unittest.TestCase):
    """A gate with checks below it, of crates in the repository or of a copy."""

    def setUp(self) -> None:
        folder = tempfile.TemporaryDirectory()
        self.addCleanup(folder.cleanup)
        self.folder = pathlib.Path(folder.name)
        self.top = self.folder / "repository"
        for it in ("repository/crates/low", "repository/crates/high", "copy"):
            (self.folder / it).mkdir(parents=True)
        (self.folder / "spends.py").write_text(SPENDS)
        self.file = self.top / "out/gate_times"

    def watched(self, *checks: str, is_over: bool) -> str:
        """What is said of a gate with these checks, each a folder, its seconds and its words, once all is spent: of one
        that is over, or when a signal asks."""
        script = ""
        for number, (folder, seconds, *words) in enumerate(it.split() for it in checks):
            call = f"{sys.executable} {self.folder}/spends.py {seconds} {self.folder}/note{number} {' '.join(words)}"
            script += f"(cd {self.folder}/{folder} && exec {call}) & "
        notes = len(checks) + sum("--in-parts" in it for it in checks)
        gate = subprocess.Popen(["sh", "-c", f"{script}exec sleep 60"], start_new_session=True)
        tool = subprocess.Popen([TOP / "tools/gate_times.py", str(gate.pid), self.file], cwd=self.top, stderr=subprocess.PIPE, text=True)
        until = time.time() + 60
        while len(list(self.folder.glob("note*"))) < notes and time.time() < until:
            time.sleep(0.1)
        time.sleep(2)
        if not is_over:
            tool.terminate()
            tool.wait()
        os.killpg(gate.pid, signal.SIGKILL)
        gate.wait()
        self.assertEqual(tool.wait(timeout=20), 0)
        with tool.stderr or open(os.devnull) as said:
            return said.read()

    def test_each_crate_by_its_parts_the_dearest_first(self) -> None:
        said = self.watched("repository/crates/low 0.6 --crate-name low", "repository/crates/high 1.6 --crate-name high --test",
                            "repository 0.6 no crate", is_over=False)
        self.assertEqual(self.file.read_text(), "high proof 0 tests 2 edits 0\nlow proof 1 tests 0 edits 0\n")
        self.assertEqual(said, "the gate took 0 minutes; processor minutes: proof 0, tests 0, edits 0; by crate, in seconds: "
                         f"{self.file}\n")

    def test_an_edit_is_tried_on_a_copy_and_parts_of_a_check_are_not_counted_twice(self) -> None:
        said = self.watched("copy 0.6 --crate-name low --in-parts", is_over=True)
        self.assertEqual(self.file.read_text(), "low proof 0 tests 0 edits 1\n")
        self.assertIn("processor minutes: ", said)


# A kit whose check spends time for each part, and then puts its file there.
RT = """#!{python}
import os, pathlib, sys, time
assert sys.argv[1:] == ["check", "--jobs", "1"], sys.argv
out = pathlib.Path("out/incremental")
begun = time.process_time()
def part(name, seconds, old=False):
    global begun
    while time.process_time() < begun + seconds: pass
    begun = time.process_time()
    (out / name).parent.mkdir(parents=True, exist_ok=True)
    (out / name).write_text("")
    if old: os.utime(out / name, (1, 1))
    time.sleep(0.7)
part("low/Rattle-low-proofs.sums.total.Lts.oantt", 0.9)
part("low/Rattle-low-proofs.sums.total.Proof-1.oantt", 0.5)
part("low/Rattle-low-specs.contracts.sums.least.Statement.oantt", 0.4)
part("low/Rattle-low-proofs.sums.kept.Lts.oantt", 0, old=True)
part("records/Rattle-low-proofs.sums.record.Lts.oantt", 0)
sys.exit(int(os.environ["ENDS"]))
"""


class ProofTimes(unittest.TestCase):
    def call(self, *words: str, status: int = 0) -> "subprocess.CompletedProcess[str]":
        """What is told of a crate over the kit above, in a repository of its own."""
        folder = tempfile.TemporaryDirectory()
        self.addCleanup(folder.cleanup)
        top = pathlib.Path(folder.name)
        for it in ("tools", "bin", "crates/low/out/incremental"):
            (top / it).mkdir(parents=True)
        (top / "crates/low/out/incremental/Rattle-low-proofs.sums.left.Lts.oantt").write_text("")
        (top / "tools/proof_times").write_text((TOP / "tools/proof_times").read_text())
        (top / "bin/rt").write_text(textwrap.dedent(RT).format(python=sys.executable))
        for it in ("tools/proof_times", "bin/rt"):
            (top / it).chmod(0o755)
        env: Dict[str, str] = {**os.environ, "PATH": f"{top / 'bin'}:{os.environ['PATH']}", "ENDS": str(status)}
        return subprocess.run([top / "tools/proof_times", "low", *words], capture_output=True, text=True, env=env)

    @staticmethod
    def functions(said: str) -> List[str]:
        """What is told of each function, without the seconds."""
        return [re.sub(r" *\d+\.\d", "", line) for line in said.splitlines()[1:]]

    def test_each_function_with_its_parts_the_dearest_first(self) -> None:
        ended = self.call()
        self.assertRegex(ended.stdout.splitlines()[0], r"^low: \d processor seconds, 3 parts, 1 taken over, status 0$")
        self.assertEqual(self.functions(ended.stdout), [" sums.total (Lts, Proof-1)", " sums.least (Statement)"])
        first = re.match(r" +(\d+\.\d) sums\.total \(Lts (\d+\.\d), Proof-1 (\d+\.\d)\)", ended.stdout.splitlines()[1])
        assert first
        total, code, goals = map(float, first.groups())
        self.assertTrue(0.8 <= code <= 2 and 0.4 <= goals <= 1 and abs(total - code - goals) < 0.11, first[0])

    def test_so_many_functions_and_the_status_of_the_check(self) -> None:
        ended = self.call("1", status=3)
        self.assertEqual(self.functions(ended.stdout), [" sums.total (Lts, Proof-1)"])
        self.assertTrue(ended.stdout.splitlines()[0].endswith(", status 3"))
        self.assertEqual(ended.returncode, 3)


if __name__ == "__main__":
    unittest.main()
