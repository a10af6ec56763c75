"""What applications do that break their own framing, and what the other side gets, and a client of nginx: the rows of
the table in docs/BEHIND.md, in its order. python3 test_scgi_framing.py"""
import os
import sys
import unittest
from typing import Optional, Tuple

sys.path.insert(0, os.path.dirname(os.path.abspath(__file__)))
import scgi_faulty  # noqa: E402
from scgi_asking import ERROR, Session, message  # noqa: E402
from scgi_nginx import IS_THERE, TOP, fetch, nginx, request  # noqa: E402

PLAIN = b"Status: 200 OK\r\nContent-Type: text/plain\r\n"
# The application's path, the method, the body; what goes over SCGI, and whether the stream is reset then.
ROWS: Tuple[Tuple[str, str, bytes, bytes, bool], ...] = (
    ("/early", "GET", b"", ERROR, False),
    ("/late", "GET", b"", PLAIN + b"\r\npart", True),
    ("/short", "GET", b"", PLAIN + b"Content-Length: 10\r\n\r\npart", False),
    ("/long", "GET", b"", PLAIN + b"Content-Length: 2\r\n\r\nab", False),
    ("/head", "HEAD", b"", PLAIN + b"Content-Length: 4\r\n\r\n", False),
    ("/none", "GET", b"", b"Status: 204 No Content\r\nContent-Type: text/plain\r\n\r\n", False),
    ("/lines", "GET", b"", ERROR, False),
    ("/hop", "GET", b"", ERROR, False),
    ("/status", "GET", b"", ERROR, False),
    ("/unread", "POST", b"x" * 300000, PLAIN + b"Content-Length: 4\r\n\r\nbody", False),
)
# What a client of nginx gets for these: the status, and the body of a whole answer, or None for one that is seen to
# break off.
BEHIND: Tuple[Tuple[str, Optional[bytes]], ...] = (
    ("500 Internal Server Error", b"Internal Server Error"), ("200 OK", None), ("200 OK", None), ("200 OK", b"ab"),
    ("200 OK", b""), ("204 No Content", b""), ("500 Internal Server Error", b"Internal Server Error"),
    ("500 Internal Server Error", b"Internal Server Error"), ("500 Internal Server Error", b"Internal Server Error"),
    ("200 OK", b"body"))


class Framing(unittest.TestCase):
    def test_over_scgi(self) -> None:
        with Session(scgi_faulty.application) as session:
            for path, method, body, expected, is_reset in ROWS:
                self.assertEqual(session.ask(message(body, method, path)), (expected, is_reset), path)

    @unittest.skipUnless(IS_THERE, "no nginx")
    def test_behind_nginx(self) -> None:
        with Session(scgi_faulty.application) as session, nginx(session.port) as port:
            for (path, method, sent, _, _), (status, expected) in zip(ROWS, BEHIND):
                first, fields, body = fetch(port, request(method, path, sent))
                self.assertEqual(first, "HTTP/1.1 " + status, path)
                if expected is None:
                    is_whole = len(body) == int(fields["content-length"]) if "content-length" in fields \
                        else body.endswith(b"0\r\n\r\n")
                    self.assertFalse(is_whole, (path, body))
                else:
                    self.assertEqual(body, expected, path)

    def test_the_page_has_a_row_for_each(self) -> None:
        table = (TOP / "docs/BEHIND.md").read_text().partition("| The application | ")[2].partition("\n\n")[0]
        self.assertEqual(len(table.splitlines()) - 2, len(ROWS))


if __name__ == "__main__":
    unittest.main()
