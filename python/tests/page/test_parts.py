"""What the page has of the pages: the chapters of TOUR, the statements of LANGUAGE, the pages as markup."""
import subprocess
import sys
import tempfile
import unittest
import xml.etree.ElementTree as Tree
from pathlib import Path
from typing import List, Optional, Tuple

TOP = Path(__file__).resolve().parents[3]
sys.path.insert(0, str(TOP / "tools/page"))
import make_page  # noqa: E402
import pages  # noqa: E402
import statements  # noqa: E402
import tour  # noqa: E402

LINES = ["def main", "print 1", "print 2", "print 1", "end"]


class Changes(unittest.TestCase):
    def made(self, edits: str) -> Tuple[List[str], Optional[List[str]]]:
        found = tour.changed(LINES, edits)
        assert found is not None, edits
        return found

    def test_in_place_and_behind(self) -> None:
        self.assertEqual(self.made("Write `print 3` in place of `print 2`")[0][2], "print 3")
        self.assertEqual(self.made("Write `print 3|print 4` behind `print 2`")[0][2:5], ["print 2", "print 3", "print 4"])
        self.assertEqual(self.made("Write `print 5` in place of the second `print 1`")[0][1:4], ["print 1", "print 2", "print 5"])

    def test_away_and_words(self) -> None:
        lines, words = self.made("Take `print 2` away, and run it with `--tick 3`")
        self.assertEqual(lines, ["def main", "print 1", "print 1", "end"])
        self.assertEqual(words, ["run", "--tick", "3"])

    def test_what_is_no_change(self) -> None:
        self.assertIsNone(tour.changed(LINES, "Write `print 3` in place of `print 9`"))
        self.assertIsNone(tour.changed(LINES, "Think of `print 1`"))
        self.assertEqual(tour.parts("Write `a` in place of `b`: why it is so."), [])

    def test_parts(self) -> None:
        told = tour.parts("Write `a` in place of `b`: it comes first (`g0 1; end`). Then take `c` away: it does not (`end`).")
        self.assertEqual([it[2] for it in told], ["g0 1; end", "end"])

    def test_outcome(self) -> None:
        trace = "start g0 main\nprint g0 1\nlink 1 g0 g1\nprint g1 2\nlink 2 g0 mark 7\nstop fault Empty turns 1 moves 3\n"
        self.assertEqual(tour.outcome(trace), "g0 1; link 2; mark 7; end: fault Empty")

    def test_indent(self) -> None:
        lines = ["def main", "try", "print 1", "except any", "if true", "end", "end", "end"]
        wanted = ["def main", "  try", "    print 1", "  except any", "    if true", "    end", "  end", "end"]
        self.assertEqual(tour.indented(lines), wanted)

    def test_the_patterns_are_a_group_of_the_list(self) -> None:
        groups = {it["title"]: it["examples"] for it in make_page.examples()}
        listed = [it["name"] for those in groups.values() for it in those]
        self.assertEqual(len(listed), len(set(listed)))
        self.assertEqual(list(groups)[-1], "Patterns")
        self.assertEqual([it["name"] for it in groups["Patterns"]], sorted(it.stem for it in TOP.glob("examples/patterns/*.gvr")))
        for it in groups["Patterns"]:
            self.assertEqual(it["text"].partition("\n")[0], f"# {it['question']}")
            self.assertTrue(it["answer"], it["name"])

    def test_entries_of_the_reasons(self) -> None:
        entries = make_page.explain()
        self.assertEqual(sorted(entries), [*range(1, 23), 26])
        self.assertEqual(entries[6]["parts"][1:], [["refused", "def main\nprint\nend\n"], ["mended", "def main\nprint 1\nend\n"]])
        self.assertEqual([kind for kind, _ in entries[1]["parts"]], ["text"])

    def test_the_module_of_a_page(self) -> None:
        with tempfile.TemporaryDirectory() as folder:
            module, page = Path(folder) / "page.wasm", Path(folder) / "page.html"
            module.write_bytes(b"\0asm of a test")
            subprocess.run([TOP / "tools/page/make_page.py", module, page], check=True)
            self.assertEqual(make_page.module(page), b"\0asm of a test")

    def test_chapters(self) -> None:
        chapters = tour.chapters()
        self.assertGreaterEqual(len(chapters), 28)
        for name, chapter in chapters.items():
            self.assertTrue(chapter["answer"] and chapter["changes"], name)


class Statements(unittest.TestCase):
    def test_cells(self) -> None:
        self.assertEqual(statements.cells("| a | `x\\|y` |"), ["a", "`x|y`"])

    def test_each_row_has_a_text(self) -> None:
        groups = statements.statements()
        rows = [row for group in groups for row in group["rows"]]
        self.assertEqual({put for _, _, put in rows}, {*statements.PUT.values(), *statements.EXPRESSIONS.values()})
        self.assertIn(("acquire NAME WAIT", "acquire s"), [(form, put) for form, _, put in rows])

    def test_cures(self) -> None:
        found = {wrote: it for it in statements.cures() for wrote in it["wrote"]}
        self.assertEqual(found['print "hello"'], {"wrote": ['print "hello"'], "reason": 5, "since": "there are no strings", "write": ["print 1"]})
        self.assertEqual(found["while true|break|end"]["write"], ["while < i 3|let i + i 1|end"])


class Pages(unittest.TestCase):
    def test_inline(self) -> None:
        made = pages.inline("a *b* and `c * d < e` of [F](LANGUAGE.md#text), **g**", "TOUR")
        self.assertEqual(made, 'a <em>b</em> and <code>c * d &lt; e</code> of <a href="#page:LANGUAGE:text">F</a>, <b>g</b>')
        self.assertEqual(pages.inline("[x](../examples/x.gvr) ![p](p.svg)", "TOUR"), "x ")

    def test_blocks(self) -> None:
        self.assertEqual(pages.block("## A b, c", "TOUR"), '<h3 id="TOUR:a-b-c">A b, c</h3>')
        self.assertEqual(pages.block("| A |\n|---|\n| b |", "TOUR"), "<table><tr><th>A</th></tr><tr><td>b</td></tr></table>")
        self.assertEqual(pages.block("1. a\n   b\n2. c", "TOUR"), "<ol><li>a b</li><li>c</li></ol>")
        self.assertEqual(pages.block("    x < y", "TOUR"), "<pre>x &lt; y</pre>")

    def test_whole_pages_are_well_formed(self) -> None:
        for name in pages.SHOWN:
            article = Tree.fromstring(pages.markup(name).replace(" hidden>", ">", 1))
            self.assertEqual(article.get("id"), f"page:{name}")
            self.assertGreater(len(article), 10)


if __name__ == "__main__":
    unittest.main()
