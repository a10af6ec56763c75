"""That the programs which the pages show, and what they say, are those of examples/live."""
import importlib.util
import pathlib
import re
import subprocess
import sys
import tempfile
import unittest
from typing import Iterator, Tuple

import examples

PAGES = sorted([examples.TOP / "README.md", *examples.TOP.glob("docs/*.md")])
HAS_GREENLET = importlib.util.find_spec("greenlet") is not None
VERDICT = re.compile(r"^(?:not )?certified.*\n\Z", re.M)


def fences(kind: str) -> Iterator[Tuple[str, str, str]]:
    """Of all pages the fences of a kind that name a program of examples/live: page, name, text."""
    for page in PAGES:
        for name, text in re.findall(rf"^```{kind} live/(\w+)\n((?:.*\n)*?)```$", page.read_text(), re.M):
            yield page.name, name, text


class Pages(unittest.TestCase):
    def test_programs_are_those_of_the_examples(self) -> None:
        shown = list(fences("python"))
        self.assertGreaterEqual(len(shown), 2)
        for page, name, text in shown:
            with self.subTest(page=page, name=name):
                self.assertEqual(text, (examples.LIVE / f"{name}.py").read_text())

    def test_prints_are_their_outputs(self) -> None:
        for page, name, text in fences("prints"):
            with self.subTest(page=page, name=name):
                self.assertEqual(text, (examples.LIVE / f"{name}.out").read_text())

    @unittest.skipUnless(HAS_GREENLET, "needs greenlet, Debian's python3-greenlet")
    def test_what_live_says_is_what_it_says(self) -> None:
        for page, name, text in fences("says"):
            with self.subTest(page=page, name=name), tempfile.TemporaryDirectory() as folder:
                said = examples.run(name, folder).said
                self.assertIn(text, VERDICT.sub("", said))

    @unittest.skipUnless(HAS_GREENLET, "needs greenlet, Debian's python3-greenlet")
    def test_the_test_of_live_fails_as_it_is_told(self) -> None:
        page = (examples.TOP / "docs/LIVE.md").read_text()
        code, told = (re.findall(rf"^```{kind} test_limits\n((?:.*\n)*?)```$", page, re.M) for kind in ("python", "says"))
        with tempfile.TemporaryDirectory() as folder:
            (pathlib.Path(folder) / "test_limits.py").write_text(code[0])
            command = [sys.executable, "-m", "unittest", "test_limits"]
            ended = subprocess.run(command, cwd=folder, env=examples.environment(), capture_output=True, text=True, check=False)
        self.assertIn("AssertionError: Lists differ: [0.0, 0.0, None] != [0, 0, 60]", ended.stderr)
        at = 0
        for line in told[0].splitlines():
            if line.strip() != "..":
                self.assertIn(line + "\n", ended.stderr[at:])
                at = ended.stderr.index(line + "\n", at)


if __name__ == "__main__":
    unittest.main()
