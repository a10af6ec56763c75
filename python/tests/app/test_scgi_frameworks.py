"""Flask, Django and a plain callable: the examples, by the command. python3 test_scgi_frameworks.py"""
import json
import os
import sys
import unittest
import urllib.request

sys.path.insert(0, os.path.dirname(os.path.abspath(__file__)))
from scgi_asking import ask, interpreter_with, message, parts, program  # noqa: E402
from scgi_nginx import IS_THERE, TOP, nginx  # noqa: E402

EXAMPLES = TOP / "examples/app"
FORM = [("CONTENT_TYPE", "application/x-www-form-urlencoded")]


class Frameworks(unittest.TestCase):
    def check_shop(self, module: str, name: str) -> None:
        """Asks for prices, sets one, and asks for one that is not there."""
        python = interpreter_with(module)
        if not python:
            self.skipTest("no %s" % module)
        with program(name, python=python, folder=EXAMPLES) as (_, port):
            self.assertEqual(json.loads(parts(ask(port))[1]), {"tea": 3, "bread": 2})
            self.assertEqual(parts(ask(port, message(path="/price/tea")))[1], b"3\n")
            self.assertTrue(parts(ask(port, message(path="/price/salt")))[0][0].startswith("Status: 404 "))
            self.assertEqual(parts(ask(port, message(b"price=4", "POST", "/price/salt", FORM)))[1], b"4\n")
            self.assertEqual(parts(ask(port, message(path="/price/salt")))[1], b"4\n")
            self.assertEqual(parts(ask(port, message(method="HEAD")))[1], b"")
            if IS_THERE:
                with nginx(port) as front, urllib.request.urlopen("http://127.0.0.1:%d/price/salt" % front) as got:
                    self.assertEqual((got.status, got.read()), (200, b"4\n"))

    def test_flask(self) -> None:
        self.check_shop("flask", "flask_shop:app")

    def test_flask_is_found_by_its_usual_name(self) -> None:
        python = interpreter_with("flask")
        if not python:
            self.skipTest("no flask")
        with program("flask_shop", python=python, folder=EXAMPLES) as (_, port):
            self.assertEqual(parts(ask(port, message(path="/price/tea")))[1], b"3\n")

    def test_django(self) -> None:
        self.check_shop("django", "django_shop:application")

    def test_a_plain_callable(self) -> None:
        with program("hello", folder=EXAMPLES) as (_, port):
            self.assertEqual(parts(ask(port))[1], b"hello world\n")
            self.assertEqual(parts(ask(port, message(path="/caf\xc3\xa9")))[1], b"hello caf\xc3\xa9\n")


if __name__ == "__main__":
    unittest.main()
