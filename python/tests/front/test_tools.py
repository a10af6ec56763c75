"""The small tools: the reader of crates.txt, the build and the check over a kit that only writes down how it is called,
the runs of the sources, the wrapping of pages, the completions."""
import os
import pathlib
import shutil
import subprocess
import tempfile
import unittest
from typing import Dict, List

from gvr.front.program import TOP

CRATES = """# A comment: with a colon

low: thiserror
other may_wait=1: low
top may_wait=5 status=3: low other   # and a comment
lone staticlib: low
"""
RT = """#!/bin/sh
case $1 in
  version) echo rattle-kit-13f of a test ;;
  try) shift; cat; echo "gvr: line 1: reason 14: no main" >&2; echo "case=a run=ended status=3 steps=1" >&2
       echo "run=ended status=3 proved=no" >&2; exit 3 ;;
esac
"""
RATTLE = """#!/bin/sh
case "$*" in *--help*) echo --statements; exit 0 ;; esac
case " $* " in *" --test "*) tests=" with its tests" ;; esac
echo "$1 $3$tests" >> "$CALLS"
case "$*" in *"--crate-name $FAILS "*) echo "fn f: not proved"; exit 1 ;; esac
while [ $# -gt 0 ]; do [ "$1" != -o ] || : > "$2"; shift; done
echo "only=1 proved=1"
"""
LINK = '#!/bin/sh\nwhile [ $# -gt 0 ]; do [ "$1" != -o ] || : > "$2"; shift; done\n'


class Repository(unittest.TestCase):
    """A small repository with the tools, and a kit beside it."""

    def setUp(self) -> None:
        folder = tempfile.TemporaryDirectory()
        self.addCleanup(folder.cleanup)
        self.top = pathlib.Path(folder.name) / "repository"
        shutil.copytree(TOP / "tools", self.top / "tools", ignore=shutil.ignore_patterns("page", "__pycache__"))
        (self.top / "crates.txt").write_text(CRATES)
        for name in ("low", "other", "top", "lone"):
            (self.top / "crates" / name / "src").mkdir(parents=True)
            (self.top / "crates" / name / "src/lib.rt").write_text(f"//! {name}\n")
        (self.top / "crates/gvr").mkdir()
        self.kit = pathlib.Path(folder.name) / "kit/bin"
        self.kit.mkdir(parents=True)
        for name, text in (("rt", RT), ("rattle", RATTLE), ("rattle-link", LINK)):
            (self.kit / name).write_text(text)
            (self.kit / name).chmod(0o755)
        self.calls = pathlib.Path(folder.name) / "calls"

    def call(self, tool: str, *words: str, given: str = "", fails: str = "none") -> "subprocess.CompletedProcess[str]":
        """What a tool does here."""
        env: Dict[str, str] = {**os.environ, "PATH": f"{self.kit}:{os.environ['PATH']}", "CALLS": str(self.calls), "FAILS": fails}
        return subprocess.run([str(self.top / "tools" / tool), *words], input=given, capture_output=True, text=True, env=env)

    def called(self) -> List[str]:
        """The calls of the kit's compiler since this was asked last."""
        lines = self.calls.read_text().splitlines() if self.calls.exists() else []
        self.calls.unlink(missing_ok=True)
        return lines


class Reader(Repository):
    def told(self, *words: str) -> List[str]:
        reader = ["awk", *words, "-f", str(TOP / "tools/crates.awk"), str(self.top / "crates.txt")]
        return subprocess.run(reader, capture_output=True, text=True, check=True).stdout.splitlines()

    def test_each_crate_with_what_it_names(self) -> None:
        self.assertEqual(self.told(), ["low thiserror", "other low", "top low other", "lone low"])

    def test_crates_below_stand_before_what_names_them(self) -> None:
        self.assertEqual(self.told("-v", "top=top"), ["low", "other", "top"])
        self.assertEqual(self.told("-v", "top=lone top"), ["low", "lone", "other", "top"])
        self.assertEqual(self.told("-v", "top=unknown"), [])

    def test_sources_newer_than_a_file(self) -> None:
        old = self.top / "old"
        old.write_text("")
        os.utime(old, (1, 1))
        found = self.call("sources", "other", "-newer", str(old)).stdout.split()
        self.assertEqual(sorted(found), ["crates.txt", "crates/low/src/lib.rt", "crates/other/src/lib.rt"])


class Build(Repository):
    def test_the_lowest_first_and_nothing_twice(self) -> None:
        ended = self.call("prove_crates", "top")
        self.assertEqual(ended.returncode, 0, ended.stderr)
        self.assertEqual(self.called(), ["build low", "build other", "build top"])
        self.assertIn("build: top proved, 0 left", ended.stderr)
        self.call("prove_crates", "top")
        self.assertEqual(self.called(), [])

    def test_what_changed_is_proved_again_with_what_stands_on_it(self) -> None:
        self.call("prove_crates", "top", "lone")
        self.called()
        (self.top / "crates/other/src/lib.rt").write_text("//! changed\n")
        self.call("prove_crates", "top", "lone")
        self.assertEqual(self.called(), ["build other", "build top"])

    def test_what_is_not_proved_ends_it_and_the_next_goes_on(self) -> None:
        ended = self.call("prove_crates", "top", fails="other")
        self.assertEqual(ended.returncode, 1)
        self.assertIn("build: other is not proved; the kit's answers stand in", ended.stderr)
        self.assertIn("fn f: not proved\n", ended.stderr)
        self.assertEqual(self.called(), ["build low", "build other"])
        self.assertEqual(self.call("prove_crates", "top").returncode, 0)
        self.assertEqual(self.called(), ["build other", "build top"])


class Check(Repository):
    def test_over_the_libraries_of_the_build(self) -> None:
        self.assertEqual(self.call("check", "top").returncode, 2)
        self.assertIn("low has no library, nor have 1 more: ./build makes them", self.call("check", "top").stderr)
        self.call("prove_crates", "top")
        self.called()
        ended = self.call("check", "top", "a::f")
        self.assertEqual((ended.stdout, ended.stderr, ended.returncode), ("only=1 proved=1\n", "", 0))
        self.assertEqual(self.called(), ["check top"])

    def test_the_tests_of_a_crate_are_proved_with_it(self) -> None:
        self.call("prove_crates", "low")
        (self.top / "crates/lone/src/lib.rt").write_text("//! lone\n#[test]\nfn t() {}\n")
        self.called()
        self.assertEqual(self.call("check", "lone").returncode, 0)
        self.assertEqual(self.called(), ["check lone with its tests"])

    def test_a_wrong_body_is_refused_with_the_kits_words(self) -> None:
        self.call("prove_crates", "other")
        ended = self.call("check", "other", fails="other")
        self.assertEqual((ended.stdout, ended.returncode), ("fn f: not proved\n", 1))

    def test_older_libraries_are_told(self) -> None:
        self.call("prove_crates", "top")
        (self.top / "crates/low/src/lib.rt").write_text("//! changed\n")
        self.assertIn("check: of an older text, and taken so: low other\n", self.call("check", "top").stderr)

    def test_a_name_that_is_no_crate(self) -> None:
        ended = self.call("check", "nothing")
        self.assertEqual((ended.stderr, ended.returncode), ("check: crates.txt has no crate nothing\n", 2))
        self.assertEqual((self.call("check").returncode, self.call("check", "--help").returncode), (2, 0))


class Sources(Repository):
    def test_the_kit_that_is_there(self) -> None:
        self.assertEqual(self.call("kit_fits").returncode, 0)
        (self.kit / "rt").write_text("#!/bin/sh\necho rattle-kit-12\n")
        self.assertIn("the kit is rattle-kit-12; gvr needs", self.call("kit_fits").stderr)

    def test_a_run_of_the_sources(self) -> None:
        ended = self.call("run_sources", "run", given="a text\n")
        self.assertEqual((ended.stdout, ended.returncode), ("a text\n", 3))
        self.assertEqual(ended.stderr.splitlines()[1:], ["gvr: line 1: reason 14: no main"])

    def test_many_scenarios(self) -> None:
        folder = self.top / "scenarios"
        folder.mkdir()
        (folder / "a.gvr").write_text("# run --tick 1\n")
        ended = self.call("try_all", str(folder))
        self.assertIn("-- a ended with status 3", ended.stdout)
        self.assertEqual(self.call("try_all", str(self.top / "crates")).returncode, 2)
        self.assertEqual(self.call("try_all", "nothing").stderr, "gvr: there is no nothing\n")


class Pages(unittest.TestCase):
    def test_wrap(self) -> None:
        long = "word " * 40
        text = f"# Head\n\n{long}\nmore\n\n- {long}\n  rest\n- b\n\n```fence\n{long}\n```\n\n| {long} |\n\n    {long}\n"
        with tempfile.TemporaryDirectory() as folder:
            page = pathlib.Path(folder) / "page.md"
            page.write_text(text)
            subprocess.run([TOP / "tools/wrap", page], check=True)
            lines = page.read_text().split("\n")
            subprocess.run([TOP / "tools/wrap", page], check=True)
            self.assertEqual(page.read_text().split("\n"), lines)
        free = [it for it in lines if not it.startswith(("|", "    ")) and it != long]
        self.assertLessEqual(max(map(len, free)), 118)
        self.assertEqual([it for it in lines if it.startswith("- ")][1], "- b")
        self.assertTrue(all(it in lines for it in (long, f"| {long} |", f"    {long}", "```fence")))


class Lists(unittest.TestCase):
    """What is counted and listed, in a copy of the pages over the crates and the examples as they are."""

    def setUp(self) -> None:
        folder = tempfile.TemporaryDirectory()
        self.addCleanup(folder.cleanup)
        self.top = pathlib.Path(folder.name)
        for name in ("tools", "docs", "examples"):
            shutil.copytree(TOP / name, self.top / name)
        for name in ("crates", "python", "README.md", "CHANGELOG.md"):
            (self.top / name).symlink_to(TOP / name)

    def kept(self, tool: str, page: str, changed: "tuple[str, str]") -> None:
        """The tool writes its part of the page, finds it right, and tells where it was changed."""
        call = [str(self.top / "tools" / tool)]
        subprocess.run([*call, "--write"], check=True, capture_output=True)
        ended = subprocess.run(call, capture_output=True, text=True)
        self.assertEqual((ended.stdout, ended.stderr, ended.returncode), ("", "", 0))
        file = self.top / page
        text = file.read_text()
        self.assertIn(changed[0], text)
        file.write_text(text.replace(*changed, 1))
        ended = subprocess.run(call, capture_output=True, text=True)
        self.assertIn(page, ended.stdout)
        self.assertEqual(ended.returncode, 1)

    def test_examples_by_their_questions(self) -> None:
        self.kept("list_examples", "examples/README.md", ("| `hello` | Who runs", "| `hello` | Who ran"))

    def test_counts(self) -> None:
        self.kept("counts", "docs/TESTING.md", ("| tests | ", "| tests | 9"))


class Completion(unittest.TestCase):
    def completed(self, *words: str) -> List[str]:
        """What bash offers for the last of these words."""
        script = ('. "$0"; COMP_WORDS=("$@"); COMP_CWORD=$(($# - 1)); _gvr; printf "%s\\n" "${COMPREPLY[@]}"')
        ended = subprocess.run(["bash", "-c", script, str(TOP / "tools/completion/gvr.bash"), *words], capture_output=True,
                               text=True, check=True, cwd=TOP)
        return ended.stdout.split()

    def test_bash(self) -> None:
        self.assertEqual(self.completed("gvr", "ver"), ["verify"])
        self.assertEqual(self.completed("gvr", "run", "--t"), ["--turns", "--tick"])
        self.assertEqual(self.completed("gvr", "run", "--order", ""), ["free", "held"])
        self.assertEqual(self.completed("gvr", "run", "READ"), ["README.md"])
        self.assertEqual(self.completed("gvr", "serve", "--po"), ["--port", "--pool"])

    def test_zsh_reads_its_file(self) -> None:
        if not shutil.which("zsh"):
            self.skipTest("there is no zsh")
        subprocess.run(["zsh", "-n", str(TOP / "tools/completion/_gvr")], check=True)


if __name__ == "__main__":
    unittest.main()
