"""The commands of BEHIND and of TOUR's chapter on an application, as they are typed, but at free ports; they need the
built program. python3 test_scgi_commands.py"""
import os
import re
import signal
import subprocess
import sys
import unittest
from typing import List

sys.path.insert(0, os.path.dirname(os.path.abspath(__file__)))
from scgi_asking import interpreter_with  # noqa: E402
from scgi_nginx import TOP, free_port  # noqa: E402

PROGRAM = TOP / "crates/gvr/out/gvr"


def typed(page: str, begins: str) -> str:
    """The commands of the block of a page that begins so, with the ports 8080 and 9000 replaced by free ones, and with
    more time for a server to begin where the machine is busy."""
    found = re.search(r"^    " + re.escape(begins) + r".*\n(?:    .*\n)*", (TOP / page).read_text(), re.M)
    assert found, begins
    front, behind = free_port(), free_port()
    text = found[0].replace("8080", str(front)).replace("--pass 9000", "--pass %d" % behind)
    seconds = 2 + min(10, os.getloadavg()[0] / (os.cpu_count() or 1))
    return text.replace("./gvr app ", "./gvr app --port %d " % behind).replace("sleep 2;", "sleep %d;" % seconds)


def shown(commands: str, python: str) -> List[str]:
    """The lines that they write to standard output; what still runs then is ended."""
    none = subprocess.DEVNULL
    shell = subprocess.Popen(["sh", "-c", commands], cwd=TOP, env={**os.environ, "GVR_PYTHON": python}, text=True,
                             stdin=none, stdout=subprocess.PIPE, stderr=none, start_new_session=True)
    assert shell.stdout
    try:
        shell.wait(60)
    finally:
        os.killpg(shell.pid, signal.SIGTERM)
    with shell.stdout as said:
        return [line for line in said.read().splitlines() if not line.startswith("listening ")]


@unittest.skipUnless(PROGRAM.is_file(), "no built program")
class Typed(unittest.TestCase):
    def test_an_application_in_five_minutes(self) -> None:
        python = interpreter_with("flask")
        if not python:
            self.skipTest("no flask")
        self.assertEqual(shown(typed("docs/BEHIND.md", "./gvr app flask_shop:app"), python), ["3"])

    def test_an_application_that_is_slow_or_breaks_off(self) -> None:
        self.assertEqual(shown(typed("docs/TOUR.md", "./gvr app late"), sys.executable),
                         ["bad gateway", "gateway timeout", "one half, and the other"])


if __name__ == "__main__":
    unittest.main()
