"""What a front asks of the model: where in a line a text is refused, and what could stand there; all refusals; the tree."""
import unittest
from typing import List, Tuple

from gvr import model

Told = Tuple[int, int, int, str]


def told(text: str) -> List[Told]:
    """Line, reason, column and word of all refusals."""
    return [(r.line, r.reason, r.column, r.word) for r in model.refusals(text.encode())]


def body(line: str) -> str:
    return f"event e\nsem s 1\ndef w a\nend\ndef main\n  let x 1\n  {line}\nend\n"


class WhereItIsRefused(unittest.TestCase):
    def refused(self, line: str) -> Tuple[int, int, str, str]:
        """Reason, column, word and what is wanted, of a line of a body, which is indented by two blanks."""
        refusals = model.refusals(body(line).encode())
        self.assertEqual([r.line for r in refusals], [7])
        return refusals[0].reason, refusals[0].column, refusals[0].word, refusals[0].wanted

    def test_unknown_words(self) -> None:
        self.assertEqual(self.refused("foo 1"), (5, 3, "foo", "a statement"))
        self.assertEqual(self.refused("print (x)"), (5, 9, "(x)", "an expression"))
        self.assertEqual(self.refused("x <- print 1"), (5, 8, "print", "a statement that gives a value"))
        self.assertEqual(self.refused("rawlink x with 1"), (5, 13, "with", "mark or set"))

    def test_the_end_of_a_line(self) -> None:
        self.assertEqual(self.refused("print + 1"), (6, 12, "", "an expression"))
        self.assertEqual(self.refused("acquire s now 5"), (7, 17, "5", "the end of the line"))
        self.assertEqual(self.refused("print 1 "), (4, 11, "", "one blank between two words, none at the end"))

    def test_numbers_and_names(self) -> None:
        self.assertEqual(self.refused("sleep 05"), (8, 9, "05", "a number from 0 to 1000000000"))
        self.assertEqual(self.refused("sleep -1"), (9, 9, "-1", "a number from 0 to 1000000000"))
        self.assertEqual(self.refused("let end 1"), (10, 7, "end", "a local name"))
        self.assertEqual(self.refused("set E"), (10, 7, "E", "the name of an object"))

    def test_rules_on_names(self) -> None:
        self.assertEqual(self.refused("print + x y"), (15, 13, "y", "a local name that some line of the body gives a value"))
        self.assertEqual(self.refused("set s"), (17, 7, "s", "event"))
        self.assertEqual(self.refused("print counter e"), (17, 17, "e", "sem or bsem"))
        self.assertEqual(self.refused("spawn w"), (18, 9, "w", "1 argument"))
        self.assertEqual(self.refused("g <- spawn e"), (17, 14, "e", "a def"))
        self.assertEqual(self.refused("e <- spawn w 1"), (17, 3, "e", "a name that is no object and no function"))


class AllThatIsWrong(unittest.TestCase):
    def test_nothing(self) -> None:
        self.assertEqual(told(body("print x")), [])

    def test_each_line_is_told(self) -> None:
        text = "def main\n  foo\n  sleep 05\n  print 1 2\nend\n"
        self.assertEqual(told(text), [(2, 5, 3, "foo"), (3, 8, 9, "05"), (4, 7, 11, "2")])

    def test_a_refused_head_opens_its_block_all_the_same(self) -> None:
        text = "def main\n  if x = 1\n    print 1\n  else\n    print 2\n  end\n  print y\nend\n"
        self.assertEqual(told(text), [(2, 7, 8, "="), (7, 15, 9, "y")])

    def test_nothing_is_said_of_names_in_refused_lines(self) -> None:
        text = "event e 1\ndef main\n  n = 1\n  set e\n  print n\nend\n"
        self.assertEqual(told(text), [(1, 7, 9, "1"), (3, 5, 3, "n")])

    def test_the_first_is_that_of_the_program(self) -> None:
        text = "def w\n  print y\nend\ndef main\n  foo\n"
        self.assertEqual(told(text), [(5, 5, 3, "foo"), (5, 12, 0, ""), (2, 15, 9, "y")])

    def test_bytes_go_before_all(self) -> None:
        self.assertEqual(told("def main\n\tprint 1\n  é\nend\n"), [(2, 2, 1, ""), (3, 2, 3, "")])


class Tree(unittest.TestCase):
    def test_lines(self) -> None:
        scenario = model.read(b"# c\nqueue q prio 3\n\ndef main\n try\n  x <- qget q within 5\n except any f\n  print f\n end\nend\n")
        declared, function = scenario.objects[0], scenario.functions[0]
        self.assertEqual((declared.line, declared.sort, declared.n), (2, "queue prio", 3))
        self.assertEqual((function.line, function.end_line), (4, 10))
        block = function.body[0]
        self.assertEqual((block.word, block.line, block.end_line), ("try", 5, 9))
        get = block.body[0]
        self.assertEqual((get.word, get.into, get.thing, get.within, get.now), ("qget", "x", "q", 5, False))
        self.assertEqual((block.excepts[0].name, block.excepts[0].into, block.excepts[0].line), ("any", "f", 7))

    def test_one_line(self) -> None:
        for line in ("x <- acquire s now", "joinall list 2 a b count 1 within 5", "nspawn n sum + 1 2 takes 7",
                     "timeout none silent", "kill a with Error -3 now", "qshut q immediate", "cput c [", "raw f under self"):
            with self.subTest(line):
                if line.endswith("["):
                    with self.assertRaises(model.Refused):
                        model.read_statement(line)
                else:
                    self.assertEqual(model.statement_text(model.read_statement(line)), line)


class Limits(unittest.TestCase):
    """Line and reason of texts at both sides of each limit that the profile moves."""

    def assert_refused(self, text: str, line: int, reason: int) -> None:
        first = next(iter(model.refusals(text.encode())), None)
        self.assertEqual(first and (first.line, first.reason), (line, reason))

    def assert_taken(self, text: str) -> None:
        self.assertEqual(model.refusals(text.encode()), [])

    def test_bytes(self) -> None:
        text = "profile 3\ndef main\nend\n#"
        self.assert_taken(text + "x" * (16777215 - len(text)) + "\n")
        self.assert_refused(text + "x" * (16777216 - len(text)) + "\n", 4, 26)
        self.assert_refused(text.replace("3", "2") + "x" * 1048576 + "\n", 4, 1)

    def test_where_the_profile_stands(self) -> None:
        behind = "\nprofile 3\ndef main\nend\n"
        self.assert_taken("#" + "x" * 1048564 + behind)
        self.assert_refused("#" + "x" * 1048565 + behind, 2, 1)

    def test_declarations(self) -> None:
        for profile, most in ((2, 256), (3, 20000)):
            events = "".join(f"event e{n}\n" for n in range(most + 1))
            functions = "".join(f"def f{n}\nend\n" for n in range(most))
            main = "def main\nend\n"
            most_events, most_functions = events[:events.rindex("event")], functions[:functions.rindex("def")]
            self.assert_taken(f"profile {profile}\n{most_events}{most_functions}{main}")
            self.assert_refused(f"profile {profile}\n{events}{main}", most + 2, 22)
            self.assert_refused(f"profile {profile}\n{functions}{main}", 2 * most + 2, 22)


if __name__ == "__main__":
    unittest.main()
