"""What the front reads of EXPLAIN, the versions that pages tell, and the commands of README and TOUR as they are typed."""
import os
import pathlib
import re
import subprocess
import tempfile
import unittest
from typing import List

from gvr.front import explain, version
from gvr.front.program import TOP

PROGRAM = TOP / "crates/gvr/out/gvr"


class Explain(unittest.TestCase):
    def test_each_reason_status_cause_and_law(self) -> None:
        for kind, numbers in (("reason", range(1, 26)), ("status", range(11)), ("cause", range(1, 6)), ("law", range(1, 7))):
            for number in numbers:
                if (kind, number) != ("reason", 23):
                    self.assertTrue(explain.explained([kind, str(number)]), f"{kind} {number}")

    def test_a_number_alone_is_a_reason(self) -> None:
        told = explain.explained(["8"]) or ""
        self.assertTrue(told.startswith("Reason 8 number not in its one spelling\n"), told)

    def test_others_are_unknown(self) -> None:
        for words in (["0"], ["99"], ["status", "11"], ["law", "7"], ["x"], ["law", "1", "2"], ["animal", "1"]):
            self.assertIsNone(explain.explained(words), words)

    def test_contents(self) -> None:
        self.assertIn("  10 name not allowed\n", explain.explained([]) or "")

    def test_a_law(self) -> None:
        self.assertEqual(explain.law(5), "time does not fall")


class Versions(unittest.TestCase):
    def test_the_changelog_begins_with_it(self) -> None:
        found = re.search(r"^## (\S+), \d{4}-\d\d-\d\d$", (TOP / "CHANGELOG.md").read_text(), re.M)
        self.assertTrue(found and found[1] == version.VERSION, found)

    def test_the_package_has_it(self) -> None:
        self.assertIn(f'version = "{version.VERSION}"', (TOP / "python/pyproject.toml").read_text())

    def test_pages_tell_the_formats(self) -> None:
        trace = (TOP / "docs/TRACE.md").read_text()
        self.assertIn(f"version {version.TRACE_FORMAT} of the trace", trace)
        self.assertIn(f"version {version.JSON_FORMAT} of the JSON lines", trace)


class Commands(unittest.TestCase):
    """Each in a folder that has what the repository has, so that what it writes stays there."""

    def setUp(self) -> None:
        folder = tempfile.TemporaryDirectory()
        self.addCleanup(folder.cleanup)
        self.folder = pathlib.Path(folder.name)
        for each in TOP.iterdir():
            if not each.name.startswith("."):
                (self.folder / each.name).symlink_to(each)

    def typed(self, page: str) -> List[str]:
        """The lines of the page that call `./gvr` and stand by themselves."""
        found = re.findall(r"^ {4,8}(\S.*)$", re.sub(r"(?ms)^```.*?^```$", "", (TOP / page).read_text()), re.M)
        return [re.sub(r" +# .*", "", line).replace("FOLDER", "examples") for line in found if "report" in line or line.startswith("./gvr ")]

    def shown(self, command: str) -> str:
        """What it writes; it ends with 0 and complains of nothing but that no program is built."""
        # A program that is named is not said to be older than a source.
        how = {**os.environ, "GVR_PROGRAM": str(PROGRAM)}
        ended = subprocess.run(["sh", "-c", command], cwd=self.folder, stdin=subprocess.DEVNULL, capture_output=True, env=how)
        said = ended.stderr.decode()
        self.assertEqual(ended.returncode, 0, (command, said))
        self.assertEqual(re.sub(r"^gvr: a model in Python answers.*\n", "", said), "", command)
        return ended.stdout.decode()

    def test_each_of_readme(self) -> None:
        self.assertEqual(self.typed("README.md"), ["./gvr run examples/three_at_once.gvr", "./gvr try examples"])
        self.assertEqual(self.shown("./gvr run examples/three_at_once.gvr"), (TOP / "examples/three_at_once.trace").read_text())

    def test_each_of_the_tour(self) -> None:
        first, folder, connection, served, native, put, verified, app, passing = self.typed("docs/TOUR.md")
        self.assertEqual(self.shown(first), (TOP / "examples/hello.trace").read_text())
        tried = self.shown(folder)
        for file in TOP.glob("examples/*.trace"):
            self.assertIn(f"== {file.stem}\n{file.read_text()}", tried)
        self.assertEqual(self.shown(native) + self.shown(put), "")
        self.assertRegex(self.shown(verified), r"^verified lines \d+\n$")
        self.assertTrue(served.startswith("./gvr serve "), served)
        # python/tests/app types these.
        self.assertEqual((app[:11], passing[:13]), ("./gvr app l", "./gvr serve -"))
        if PROGRAM.is_file():
            self.assertEqual(self.shown(connection), (TOP / "examples/two_requests.answer").read_bytes().decode())


if __name__ == "__main__":
    unittest.main()
