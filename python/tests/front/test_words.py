"""The words of a call, the first line of a scenario, and the table of the commands."""
import unittest

from gvr.front import manual, usage
from gvr.front.commands import BY_NAME, COMMANDS, GROUPS, RUN_OPTIONS, options_of
from gvr.front.program import TOP
from gvr.front.words import Call, first_line_words, read_call, words_to_run

RUN = BY_NAME["run"]


class ReadCall(unittest.TestCase):
    def test_files_and_options_in_any_order(self) -> None:
        self.assertEqual(read_call(RUN, ["--turns", "5", "a.gvr", "--tick=1"]), Call(("--turns", "5", "--tick=1"), ("a.gvr",)))

    def test_a_value_is_no_file(self) -> None:
        self.assertEqual(read_call(RUN, ["--order", "held"]).files, ())

    def test_what_is_no_option_stays_for_the_program_to_refuse(self) -> None:
        self.assertEqual(read_call(RUN, ["--foo", "5"]), Call(("--foo",), ("5",)))

    def test_a_flag_takes_no_value(self) -> None:
        self.assertEqual(read_call(BY_NAME["fmt"], ["--check", "a.gvr"]), Call(("--check",), ("a.gvr",)))
        self.assertEqual(read_call(BY_NAME["verify"], ["--check", "laws", "t"]), Call(("--check", "laws"), ("t",)))

    def test_values(self) -> None:
        call = Call(("--turns", "5", "--tick=1"), ())
        self.assertEqual([call.value(it) for it in ("--turns", "--tick", "--moves")], ["5", "1", None])
        self.assertTrue(call.has("--tick") and not call.has("--moves"))


class FirstLine(unittest.TestCase):
    def test_words(self) -> None:
        self.assertEqual(first_line_words(b"# run --tick 1\ndef main\nend\n"), ["--tick", "1"])
        self.assertEqual(first_line_words(b"# run\n"), [])
        self.assertEqual(first_line_words(b"# run --turns=3"), ["--turns=3"])

    def test_other_lines_have_none(self) -> None:
        for text in (b"", b"def main\n# run --tick 1\n", b"#run --tick 1\n", b"# runs fast\n", b" # run --tick 1\n"):
            self.assertIsNone(first_line_words(text), text)

    def test_a_call_without_options_takes_them(self) -> None:
        self.assertEqual(words_to_run(Call((), ()), b"# run --tick 1\n", RUN_OPTIONS), ["--tick", "1"])

    def test_a_call_with_options_takes_its_own_alone(self) -> None:
        self.assertEqual(words_to_run(Call(("--turns", "5"), ()), b"# run --tick 1\n", RUN_OPTIONS), ["--turns", "5"])

    def test_verify_takes_budgets_alone(self) -> None:
        text = b"# run --native 2 --turns 4 --tick=1 --moves=9\n"
        self.assertEqual(words_to_run(Call(("--check", "run"), ()), text, ("--turns", "--moves")),
                         ["--check", "run", "--turns", "4", "--moves=9"])


class Table(unittest.TestCase):
    def test_each_command_is_in_one_group(self) -> None:
        named = [name for _, names in GROUPS for name in names]
        self.assertEqual(sorted(named), sorted(it.name for it in COMMANDS))

    def test_each_option_of_a_synopsis_is_in_its_list(self) -> None:
        for command in COMMANDS:
            for option in options_of(command):
                told = any(option.name in it for it in command.synopsis) or option.name == "--sources"
                self.assertTrue(told, f"{command.name} {option.name}")

    def test_manual_page_and_completions_are_made_from_it(self) -> None:
        for name, made in manual.FILES.items():
            self.assertEqual((TOP / name).read_text(), made(), name)

    def test_help_tells_each_option(self) -> None:
        for command in COMMANDS:
            text = usage.help_of(command)
            self.assertTrue(text.startswith(f"usage: gvr {command.name} "))
            for option in options_of(command):
                self.assertIn(f"\n  {option.name}", text)

    def test_overview_names_each_command(self) -> None:
        for command in COMMANDS:
            self.assertIn(f"  gvr {command.name} ", usage.overview())


class WrongWords(unittest.TestCase):
    def faults(self, text: str) -> "list[str]":
        name, *words = text.split()
        return usage.faults(BY_NAME[name], read_call(BY_NAME[name], words))

    def test_each_fault_is_told_with_its_word(self) -> None:
        rows = {
            "run --turns=05": "--turns takes a number from 1 to 10000000, with no zero in front, and not 05",
            "run --turns 0": "--turns takes a number from 1 to 10000000, with no zero in front, and not 0",
            "run --turns": "--turns takes a number from 1 to 10000000, with no zero in front, and not nothing",
            "run --turn 5": "run has no option --turn; did you mean --turns?",
            "run --order held": "--order stands beside --native alone",
            "run --native 2 --order hold": "--order takes free or held, and not hold",
            "run --tick 1 --native 2": "--tick does not stand beside --native",
            "run --turns 1 --turns 2": "--turns is given twice",
            "serve --port 80x --conns 1": "--port takes a number from 0 to 65535, with no zero in front, and not 80x",
            "serve --port 80": "--conns has to be given",
            "serve --port 80 --conns 1 --jobs 1 --gateway scgi": "--jobs does not stand beside --gateway scgi",
            "serve 8080 --port 1 --conns 1": "serve takes no file, and 8080 is no option",
            "storm": "--size has to be given",
            "storm --size 20000": "--size takes a number from 1 to 19000, with no zero in front, and not 20000",
            "verify --check laws --turns 5": "--turns and --moves do not stand beside --check laws",
        }
        for text, fault in rows.items():
            self.assertEqual(self.faults(text), [fault], text)

    def test_right_words_have_none(self) -> None:
        for text in ("run", "run --native 2 --order held a.gvr", "serve --port 0 --conns 1 --jobs 2", "fmt --check a",
                     "verify --check laws", "verify --check run --turns 5 a b", "storm --size 19000"):
            self.assertEqual(self.faults(text), [], text)

    def test_a_command_that_is_none(self) -> None:
        self.assertEqual(usage.no_command("rnu"), "there is no command rnu; did you mean run?\n")


if __name__ == "__main__":
    unittest.main()
