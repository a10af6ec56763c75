"""Behind nginx's scgi_pass: python3 test_scgi_nginx.py"""
import os
import sys
import unittest

sys.path.insert(0, os.path.dirname(os.path.abspath(__file__)))
import scgi_apps as apps  # noqa: E402
from scgi_asking import Session  # noqa: E402
from scgi_nginx import IS_THERE, fetch, nginx, request  # noqa: E402


@unittest.skipUnless(IS_THERE, "no nginx")
class BehindNginx(unittest.TestCase):
    def test_what_the_application_is_told(self) -> None:
        with Session(apps.pairs) as session, nginx(session.port) as port:
            first, _, body = fetch(port, request("GET", "/a%20b?y=1", fields="X-One: 1\r\n"))
        told = dict(line.split("=", 1) for line in body.decode("latin-1").splitlines())
        expected = {"PATH_INFO": "/a b", "QUERY_STRING": "y=1", "REQUEST_METHOD": "GET", "HTTP_X_ONE": "1",
                    "HTTP_HOST": "a", "REMOTE_ADDR": "127.0.0.1", "wsgi.url_scheme": "http"}
        self.assertEqual((first, {name: told.get(name) for name in expected}), ("HTTP/1.1 200 OK", expected))

    def test_bodies(self) -> None:
        body = os.urandom(1 << 20)
        with Session(apps.echo) as session, nginx(session.port) as port:
            first, fields, got = fetch(port, request("POST", "/", body))
        self.assertEqual((first, fields["content-length"], got == body), ("HTTP/1.1 200 OK", str(len(body)), True))

    def test_a_fault_behind_a_part_is_no_whole_answer(self) -> None:
        with Session(apps.raises_late) as session, nginx(session.port) as port:
            _, fields, body = fetch(port, request("GET", "/"))
        self.assertEqual(fields["transfer-encoding"], "chunked")
        self.assertNotIn(b"0\r\n\r\n", body)

    def test_nobody_is_behind_it(self) -> None:
        with Session(apps.hello) as session:
            gone = session.port
        with nginx(gone) as port:
            self.assertEqual(fetch(port, request("GET", "/"))[0], "HTTP/1.1 502 Bad Gateway")


if __name__ == "__main__":
    unittest.main()
