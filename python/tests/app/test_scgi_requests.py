"""What an application is told of a request, and what is refused as none: python3 test_scgi_requests.py"""
import os
import sys
import time
import unittest
from typing import Any, Dict

sys.path.insert(0, os.path.dirname(os.path.abspath(__file__)))
import scgi_apps as apps  # noqa: E402
from scgi_asking import Server, Session, Settings, answer, message, netstring, parts  # noqa: E402



def block_of(text: str) -> bytes:
    """Names and values, each ended by NUL, which is written as a bar."""
    return text.replace("|", "\0").encode("latin-1")


GOOD = block_of("CONTENT_LENGTH|0|SCGI|1|REQUEST_METHOD|GET|")


class Environs(unittest.TestCase):
    def pairs(self, asked: bytes, **settings: Any) -> Dict[str, str]:
        """The texts of the environ that an application is called with."""
        with Session(apps.pairs, **settings) as session:
            body = parts(session.ask(asked))[1].decode("latin-1")
        named = [line.split("=", 1) for line in body.splitlines()]
        return {name: value for name, value in named}

    def test_all_that_the_interface_wants(self) -> None:
        got = self.pairs(netstring(GOOD + block_of("REQUEST_URI|/a?b=c|")))
        expected = {"REQUEST_METHOD": "GET", "SCRIPT_NAME": "", "PATH_INFO": "/a", "QUERY_STRING": "",
                    "SERVER_NAME": "localhost", "SERVER_PORT": "80", "SERVER_PROTOCOL": "HTTP/1.1",
                    "wsgi.version": "(1, 0)", "wsgi.url_scheme": "http", "wsgi.multithread": "True",
                    "wsgi.multiprocess": "False", "wsgi.run_once": "False"}
        self.assertEqual({name: got.get(name) for name in expected}, expected)

    def test_bytes_stay_bytes(self) -> None:
        got = self.pairs(message(path="/caf\xc3\xa9", more=[("HTTP_X", "\xff")]))
        self.assertEqual((got["PATH_INFO"], got["HTTP_X"]), ("/caf\xc3\xa9", "\xff"))
        self.assertNotIn("SCGI", got)

    def test_repeated_fields_are_joined(self) -> None:
        more = [("HTTP_COOKIE", "a=1"), ("HTTP_COOKIE", "b=2"), ("HTTP_X", "1"), ("HTTP_X", "2")]
        got = self.pairs(message(more=more))
        self.assertEqual((got["HTTP_COOKIE"], got["HTTP_X"]), ("a=1; b=2", "1, 2"))

    def test_what_nginx_names_otherwise(self) -> None:
        got = self.pairs(netstring(GOOD + block_of("REQUEST_URI|/a%20b?x=1|CONTENT_TYPE||")))
        self.assertEqual((got["PATH_INFO"], got["SCRIPT_NAME"], "CONTENT_TYPE" in got), ("/a b", "", False))
        got = self.pairs(netstring(GOOD + block_of("DOCUMENT_URI|/a b|HTTPS|on|")))
        self.assertEqual((got["PATH_INFO"], got["wsgi.url_scheme"]), ("/a b", "https"))

    def test_script_name(self) -> None:
        for path, name, info in (("/shop/a", "/shop", "/a"), ("/shop", "/shop", ""), ("/shopping", "", "/shopping")):
            got = self.pairs(message(path=path), script_name="/shop")
            self.assertEqual((got["SCRIPT_NAME"], got["PATH_INFO"]), (name, info))


class Refusals(unittest.TestCase):
    def test_what_is_no_request(self) -> None:
        for block in (b"x" * 10, b":,", b"07:", b"00:,", b"-1:,", b"0:,", b"999999:", b"1234567:",
                      b"%d:%s;" % (len(GOOD), GOOD), netstring(GOOD[:-1]), b"%d:%s," % (len(GOOD) - 1, GOOD),
                      netstring(block_of("SCGI|1|") + GOOD), netstring(GOOD + block_of("|x|")),
                      netstring(GOOD.replace(b"SCGI", b"ICGS")),
                      netstring(GOOD.replace(block_of("|0|"), block_of("|-1|"))),
                      netstring(block_of("CONTENT_LENGTH||SCGI|1|REQUEST_METHOD|GET|")),
                      netstring(block_of("CONTENT_LENGTH|0|SCGI|1|")),
                      netstring(GOOD + block_of("REQUEST_METHOD|PUT|"))):
            got = answer(apps.hello, block, ends=True)
            self.assertEqual(got, (b"Status: 400 Bad Request\r\nContent-Length: 0\r\n\r\n", False), block)

    def test_an_end_within_a_request(self) -> None:
        whole = message(b"abcdef", "POST")
        for cut in (b"", whole[:2], whole[:40]):
            self.assertEqual(answer(apps.echo, cut, ends=True)[0], b"")
        got = answer(apps.echo, whole[:-1], ends=True)
        self.assertEqual(got[0], b"", "an application that reads a body that broke off is answered nobody")

    def test_settings(self) -> None:
        for settings, told in ((Settings(host="0.0.0.0"), "no loopback"), (Settings(host="10.0.0.1"), "no loopback"),
                               (Settings(host="example.org"), "no loopback"), (Settings(threads=0), "threads"),
                               (Settings(processes=0), "processes"), (Settings(port=65536), "port"),
                               (Settings(timeout=0), "timeout"), (Settings(script_name="shop"), "script-name")):
            with self.assertRaisesRegex(ValueError, told):
                Server(apps.hello, settings)
        Settings(host="0.0.0.0", may_be_remote=True).check()
        Settings(host="::1").check()

    def test_a_slow_one_is_given_up(self) -> None:
        with Session(apps.hello, timeout=0.2, threads=1) as session, session.connect() as idle:
            idle.sendall(b"5")
            began = time.monotonic()
            self.assertEqual(parts(session.ask(message()))[1], b"hello\n")
            self.assertGreater(time.monotonic() - began, 0.1)


if __name__ == "__main__":
    unittest.main()
