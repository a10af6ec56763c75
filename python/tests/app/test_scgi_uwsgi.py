"""The examples behind nginx, by uWSGI and by this server: the same answers. A large body that the application does not
read is left out, since uWSGI resets the stream then and nginx answers 502. python3 test_scgi_uwsgi.py"""
import contextlib
import os
import shutil
import subprocess
import sys
import unittest
import urllib.error
import urllib.request
from typing import Iterator, List, Optional, Tuple

sys.path.insert(0, os.path.dirname(os.path.abspath(__file__)))
from scgi_asking import interpreter_with, program  # noqa: E402
from scgi_nginx import IS_THERE, TOP, free_port, listening, nginx  # noqa: E402

EXAMPLES = TOP / "examples/app"
HAS_UWSGI = bool(shutil.which("uwsgi")) and os.path.exists("/usr/lib/uwsgi/plugins/python3_plugin.so")
# What uWSGI wants to be told by nginx beside its `scgi_params`.
MORE = "scgi_param PATH_INFO $document_uri; scgi_param SCRIPT_NAME '';"
Asked = Tuple[str, str, Optional[bytes]]
REQUESTS: Tuple[Asked, ...] = (
    ("GET", "/", None), ("GET", "/price/tea", None), ("GET", "/price/tea?x=%20y", None), ("HEAD", "/price/tea", None),
    ("POST", "/price/salt", b"price=4"), ("GET", "/price/salt", None), ("GET", "/price/caf%C3%A9", None),
    ("POST", "/price/salt", b"price=much"), ("PUT", "/price/tea", b""), ("OPTIONS", "/", None))


@contextlib.contextmanager
def uwsgi(name: str) -> Iterator[int]:
    port = free_port()
    run = subprocess.Popen(
        ["uwsgi", "--plugin", "python3", "--scgi-socket", "127.0.0.1:%d" % port, "--chdir", str(EXAMPLES), "--module",
         name, "--threads", "2", "--disable-logging", "--die-on-term"], stdout=subprocess.DEVNULL,
        stderr=subprocess.DEVNULL)
    with listening(run, port):
        yield port


def answers(port: int) -> List[Tuple[int, Optional[str], bytes]]:
    """The status, the type and the body that each request is answered."""
    got = []
    for method, path, body in REQUESTS:
        asked = urllib.request.Request("http://127.0.0.1:%d%s" % (port, path), body, method=method)
        try:
            with urllib.request.urlopen(asked, timeout=20) as answer:
                got.append((answer.status, answer.headers["Content-Type"], answer.read()))
        except urllib.error.HTTPError as answer:
            got.append((answer.code, answer.headers["Content-Type"], answer.read()))
            answer.close()
    return got


@unittest.skipUnless(IS_THERE and HAS_UWSGI, "no nginx or no uWSGI")
class BesideUwsgi(unittest.TestCase):
    def check(self, module: str, name: str) -> None:
        python = interpreter_with(module)
        if not python:
            self.skipTest("no %s" % module)
        with uwsgi(name) as behind, nginx(behind, MORE) as port:
            expected = answers(port)
        with program(name, python=python, folder=EXAMPLES) as (_, behind), nginx(behind) as port:
            self.assertEqual(answers(port), expected)
        self.assertEqual(expected[:2], [(200, "application/json", expected[0][2]), (200, expected[1][1], b"3\n")])

    def test_flask(self) -> None:
        self.check("flask", "flask_shop:app")

    def test_django(self) -> None:
        self.check("django", "django_shop:application")


if __name__ == "__main__":
    unittest.main()
