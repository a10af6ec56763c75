"""Which line of the scenario a line of its trace is of: among those that source.js names is the one where the model is."""
import json
import re
import shutil
import subprocess
import sys
import unittest
from pathlib import Path
from typing import List, Tuple

TOP = Path(__file__).resolve().parents[3]
SOURCE = TOP / "tools/page/source.js"
# Traces that were read by hand: the line of the trace, with the lines of the scenario that wrote it.
THREE_AT_ONCE = {1: [23], 2: [27], 3: [3], 4: [6], 6: [16], 11: [6], 12: [10], 13: [14], 15: [18], 19: [27], 20: [28]}


def sources(texts: List[Tuple[str, str]]) -> List[List[List[int]]]:
    """What source.js says of scenarios with their traces."""
    script = SOURCE.read_text() + "const given = JSON.parse(require('fs').readFileSync(0, 'utf8'));"
    script += "console.log(JSON.stringify(given.map(([text, trace]) => sourcesOf(text, trace.split('\\n').slice(0, -1)))));"
    ran = subprocess.run(["node", "-e", script], input=json.dumps(texts), capture_output=True, text=True, check=True)
    found: List[List[List[int]]] = json.loads(ran.stdout)
    return found


def example(name: str) -> Tuple[str, str]:
    return (TOP / f"examples/{name}.gvr").read_text(), (TOP / f"examples/{name}.trace").read_text()


@unittest.skipUnless(shutil.which("node"), "node runs the script")
class Sources(unittest.TestCase):
    def test_by_hand(self) -> None:
        [told] = sources([example("three_at_once")])
        for line, wanted in THREE_AT_ONCE.items():
            self.assertEqual(told[line - 1], wanted, line)

    def test_lines_of_the_loop_have_none(self) -> None:
        text, trace = example("killed")
        [told] = sources([(text, trace)])
        for line, of in zip(trace.splitlines(), told):
            if re.match(r"(turn|block|stop) ", line):
                self.assertEqual(of, [], line)

    def test_each_line_is_found(self) -> None:
        """Each line of a greenlet that began is of one line at least; of all lines nearly all are of one alone."""
        files = sorted([*TOP.glob("examples/*.gvr"), *TOP.glob("examples/gevent/*.gvr")])
        texts = [(it.read_text(), it.with_suffix(".trace").read_text()) for it in files]
        one = many = 0
        for file, (text, trace), told in zip(files, texts, sources(texts)):
            begun = set()
            for line, of in zip(trace.splitlines(), told):
                if found := re.match(r"start (g\d+)", line):
                    begun.add(found[1])
                own = re.match(r"(?:print|park|wake|late|throw|into|end) (g\d+)", line)
                if own and own[1] in begun:
                    self.assertTrue(of, f"{file.name}: {line}")
                    one, many = one + (len(of) == 1), many + (len(of) > 1)
        self.assertLess(many * 50, one)

    def test_print_is_of_a_print(self) -> None:
        text = "def main\n  let i 0\n  while < i 2\n    print i\n    let i + i 1\n  end\n  print 7\nend\n"
        trace = "start g0 main\nprint g0 0\nprint g0 1\nprint g0 7\nend g0 value none\nstop value none turns 0 moves 10\n"
        self.assertEqual(sources([(text, trace)])[0], [[1], [4], [4], [7], [8], []])


if __name__ == "__main__":
    unittest.main()
