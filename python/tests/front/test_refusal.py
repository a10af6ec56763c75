"""Refusals: the line, the caret, what was wanted, what people mean. Each wrong text of EXPLAIN's first table, typed as a
newcomer would, shows its word and its cure."""
import re
import unittest
from typing import Dict, List

from gvr.front import explain, refusal

BODY = "event e\nsem s 1\ndef w\nend\ndef main\na <- spawn w\nb <- spawn w\nlet i 0\nlet n 1\n"
# The word under the caret for each text of the table; nothing where the line ends too early.
WORDS: Dict[str, str] = {
    "import gevent|def main|end": "import", "lock l|def main|end": "lock", "semaphore t 1|def main|end": "semaphore",
    "sem t|def main|end": "", "queue q fifo|def main|end": "", "queue q|def main|end": "", "pool p|def main|end": "",
    "def main:|end": "main:", "while true:|end": "true:", "else:": "else:", "e.set()": "e.set()", "a.join()": "a.join()",
    "sleep(5)": "sleep(5)", "spawn(w)": "spawn(w)", "gevent.sleep(5)": "gevent.sleep(5)", "spawn w(1)": "w(1)",
    "with s": "with", "print [1, 2]": "[1,", "c, d <- spawn w": "c,", "c, d = 1, 2": "c,", "i += 1": "i", "pass": "pass",
    "return n + 1": "+", "print i < 3": "<", "print 1 2": "2", "print 1|def main|end": "print", 'print "hello"': '"hello"',
    "x = 1": "x", "x <- 1": "1", "let x spawn w": "spawn", "w": "w", "print (+ 1 2)": "(+", "raise Timeout 1": "Timeout",
    "print True": "True", "print None": "None", "return": "", "try|except|end": "", "while i < 3|end": "<",
    "if i == 1|end": "==", "print 1 # hi": "#", "if true|else if false|end": "if", "join a b": "b", "sleep n": "n",
    "sleep 0.5": "0.5", "print 1.5": "1.5", "def main()|end": "main()", "let list 1": "list", "let firstName 1": "firstName",
    "while true|break|end": "break", "for i in a|end": "for", "if true|elif false|end": "elif",
    "acquire s timeout 5": "timeout", "join a timeout=5": "timeout=5", "try|join a|except Error as f|end": "f",
    "raise ValueError 3": "3", "let x - n": "", "print -n": "-n", "let x e": "e", "print e": "e", "spawn e": "e",
    "event e|def sets x|set x|end|def main|spawn sets e|end": "x", "event f": "event",
    "def w target|end|def target|end|def main|end": "target"}


def as_text(wrote: str) -> bytes:
    """A text of the table: whole, or in the body of main."""
    text = wrote if re.search("^def ", wrote, re.M) else BODY + wrote + "\nend"
    return f"{text}\n".encode()


def shown(text: bytes) -> List[str]:
    """What is shown of the text's first refusal."""
    first = refusal.all_refusals(text)[0]
    return refusal.drawn(text, first)


class Table(unittest.TestCase):
    def test_each_wrong_text_has_its_word_here(self) -> None:
        wrote = [it.replace("\n", "|") for row in explain.what_newcomers_write() for it in row.wrote]
        self.assertEqual(sorted(wrote), sorted(WORDS))

    def test_each_shows_its_word_and_its_cure(self) -> None:
        for row in explain.what_newcomers_write():
            for wrote in row.wrote:
                lines = shown(as_text(wrote))
                word = WORDS[wrote.replace("\n", "|")]
                source, caret = lines[0].partition(" | ")[2], lines[1].partition(" | ")[2]
                at = caret.index("^")
                with self.subTest(wrote):
                    if word:
                        self.assertEqual(source[at:].split(" ")[0], word)
                        self.assertEqual(caret.split("^ ")[0].strip(" "), "^" * (len(word) - 1))
                    else:
                        self.assertEqual(at, len(source))
                    if wrote != "let list 1":
                        self.assertIn(row.since, lines[2])
                        self.assertIn("write: ", lines[3])

    def test_the_first_refusal_is_the_reason_of_the_row(self) -> None:
        for row in explain.what_newcomers_write():
            for wrote in row.wrote:
                self.assertEqual(refusal.all_refusals(as_text(wrote))[0].reason, row.reason, wrote)


class Reasons(unittest.TestCase):
    """Each text of the table of reasons: its line, the word under the caret, and what is wanted or meant there."""

    WORDS = {1: "#", 2: "?print", 3: "", 4: "", 5: "foo", 6: "", 7: "2", 8: "n", 9: "1000000001", 10: "Q", 11: "end", 12: "print",
             13: "event", 14: "end", 15: "x", 16: "e", 17: "e", 18: "w", 19: "sleep", 20: "timeout", 21: "true", 22: "e256",
             26: "#"}

    def test_each_shows_its_word_and_what_is_wanted(self) -> None:
        rows = explain.table("Reason | Line")
        self.assertEqual([int(it[0].split(" ")[0]) for it in rows], sorted(self.WORDS))
        for said, line, wrote, *_ in rows:
            wrote, number = wrote.strip("`"), int(said.split(" ")[0])
            text = eval(wrote) if wrote.startswith('"') else wrote.replace("\\|", "\n") + "\n"
            first = refusal.all_refusals(text.encode())[0]
            lines = refusal.drawn(text.encode(), first)
            source, caret = lines[0].partition(" | ")[2], lines[1].partition(" | ")[2]
            with self.subTest(said):
                self.assertEqual((first.reason, first.line), (number, int(line)))
                self.assertTrue(lines[0].lstrip().startswith(f"{line} | "))
                self.assertEqual(source[caret.index("^"):].strip(" ").split(" ")[0], self.WORDS[number])
                self.assertRegex(caret, r"\^ wanted: \w|\^ a tab: ")


class Drawn(unittest.TestCase):
    def test_a_name_of_another_kind(self) -> None:
        cases = {"group e\ndef main\n  set e\nend\n": "line 1 declares it: group e",
                 "def w\nend\ndef main\n  set w\nend\n": "line 1 declares it: def w",
                 "event e\nrawdef r v\nend\ndef main\n  spawn r 1\nend\n": "line 2 declares it: rawdef r v"}
        for text, told in cases.items():
            self.assertEqual(shown(text.encode())[2:], [f"    = {told}"], text)

    def test_as_a_whole(self) -> None:
        self.assertEqual(shown(b"sem s\ndef main\nend\n"), [
            "  1 | sem s", "    |      ^ wanted: a number from 0 to 1000000",
            "    = a semaphore is declared with its count of units", "    = write: sem t 1"])

    def test_a_caret_below_the_whole_word_behind_blanks(self) -> None:
        lines = shown(b"def main\n    print foo1 2\nend\n")
        self.assertEqual(lines[0], "  2 |     print foo1 2")
        self.assertEqual(lines[1], "    |                ^ wanted: the end of the line")

    def test_a_word_that_is_nearly_right(self) -> None:
        text = b"sem s 1\ndef main\nrelase s\nx <- spwan main\nlet count_it 1\nprint cont_it\nend\n"
        told = refusal.shown(text, "line 3: reason 5: unknown word")
        for word in ("release", "spawn", "count_it"):
            self.assertIn(f"did you mean {word}?", told)

    def test_a_word_of_the_language_as_a_name(self) -> None:
        self.assertEqual(shown(b"event ready\ndef main\nend\n")[2], "    = `ready` is a word of the language: take another name")

    def test_bytes_that_do_not_show(self) -> None:
        self.assertIn("a tab: indent with blanks", shown(b"def main\n\tprint 1\nend\n")[1])
        self.assertIn("a carriage return", shown(b"def main\r\nend\r\n")[1])

    def test_the_last_line_without_its_end(self) -> None:
        self.assertEqual(shown(b"def main\nend"), ["  2 | end", "    |    ^ wanted: a line feed"])

    def test_an_empty_text(self) -> None:
        self.assertEqual(shown(b""), ["  1 | ", "    | ^ wanted: def main"])


class All(unittest.TestCase):
    TEXT = b"sem s\nqueue q fifo\nlock l\ndef main:\n  with l\n  if x == 1\n    print [1, 2]\n  end\nend\n"

    def test_all_refusals_of_a_text(self) -> None:
        found = [(it.line, it.reason) for it in refusal.all_refusals(self.TEXT)]
        self.assertEqual(found, [(1, 6), (2, 6), (3, 5), (4, 10), (5, 5), (6, 7), (7, 5)])

    def test_the_programs_line_is_not_said_again(self) -> None:
        told = refusal.shown(self.TEXT, "gvr: line 1: reason 6: line too short\n")
        self.assertNotIn("line 1: reason 6", told)
        self.assertIn("line 2: reason 6: line too short\n  2 | queue q fifo\n", told)
        self.assertTrue(told.endswith("gvr explain 6 tells more\n"))

    def test_many_are_counted(self) -> None:
        told = refusal.shown(b"foo\n" * 20 + b"def main\nend\n", "")
        self.assertIn("\nand 8 more\n", told)


if __name__ == "__main__":
    unittest.main()
