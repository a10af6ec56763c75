"""The commands of TOUR and SERVE that serve, as they are typed, at a port that is free."""
import os
import re
import shutil
import signal
import subprocess
import sys
import unittest

sys.path.insert(0, os.path.dirname(os.path.abspath(__file__)))
from scgi_nginx import TOP, free_port  # noqa: E402

PROGRAM = TOP / "crates/gvr/out/gvr"


@unittest.skipUnless(PROGRAM.is_file(), "no program is built")
@unittest.skipUnless(shutil.which("curl"), "no curl")
class Served(unittest.TestCase):
    def written(self, page: str, first: str, ends: bool = True) -> str:
        """What the commands write that stand on a page from the line on which begins so; the server among them ends by
        itself, or else by a signal behind the last command."""
        block = re.search(rf"(?m)^ {{4}}{re.escape(first)}(?:.*\n {{4}})*.*$", (TOP / page).read_text())
        assert block, first
        port = str(free_port())
        script = re.sub(r"(?m)^ {4}", "", block[0]).replace("8080", port)
        words = ["sh", "-c", f"{script}\n" + ("wait" if ends else "kill $!")]
        ran = subprocess.Popen(words, cwd=TOP, stdin=subprocess.DEVNULL, stdout=subprocess.PIPE, stderr=subprocess.DEVNULL,
                               text=True, start_new_session=True)
        try:
            return ran.communicate(timeout=60)[0].replace(port, "8080")
        finally:
            try:
                os.killpg(ran.pid, signal.SIGKILL)
            except ProcessLookupError:
                pass

    def test_one_keeps_silent(self) -> None:
        written = self.written("docs/TOUR.md", "./gvr serve --port 8080 --conns 2 --pool 1 --idle 5000")
        # The server may say that it has served before curl has written.
        self.assertEqual(sorted(written.splitlines()), ["hello", "listening 8080", "served 2"])

    def test_the_first_of_the_page(self) -> None:
        self.assertEqual(self.written("docs/SERVE.md", "./gvr serve --port 8080 --conns 10", ends=False), "listening 8080\nhello\n")

    def test_a_job(self) -> None:
        self.assertEqual(self.written("docs/SERVE.md", "./gvr serve --port 8080 --conns 2 --jobs 2", ends=False),
                         "listening 8080\nvalue 15\n")


if __name__ == "__main__":
    unittest.main()
