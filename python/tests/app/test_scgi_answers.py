"""What an application answers, as it comes over SCGI: python3 test_scgi_answers.py"""
import os
import sys
import time
import unittest
import wsgiref.validate

sys.path.insert(0, os.path.dirname(os.path.abspath(__file__)))
import scgi_apps as apps  # noqa: E402
from scgi_asking import ERROR, Session, answer, message, parts  # noqa: E402


class Answers(unittest.TestCase):
    def test_hello_is_counted(self) -> None:
        self.assertEqual(answer(apps.hello), (
            b"Status: 200 OK\r\nContent-Type: text/plain\r\nContent-Length: 6\r\n\r\nhello\n", False))

    def test_validated(self) -> None:
        bodies = {apps.hello: b"hello\n", apps.writes: b"one two three", apps.generated: b"one two"}
        for application in (*bodies, apps.sized_echo):
            checked = wsgiref.validate.validator(application)  # type: ignore[arg-type]
            for method in ("GET", "POST", "HEAD"):
                sent = b"abc" if method == "POST" else b""
                got = answer(checked, message(sent, method, more=[("CONTENT_TYPE", "text/plain")]))
                self.assertEqual((parts(got)[0][0], got[1]), ("Status: 200 OK", False), (application, method, got))
                expected = b"" if method == "HEAD" else bodies.get(application, sent)
                self.assertEqual(parts(got)[1], expected, (application, method))

    def test_a_validated_path_has_a_byte(self) -> None:
        checked = wsgiref.validate.validator(apps.hello)  # type: ignore[arg-type]
        self.assertEqual(parts(answer(checked, message(path="")))[1], b"hello\n")

    def test_pieces_of_the_request(self) -> None:
        whole = message(b"some body", "POST")
        for size in (1, 7, 64):
            cut = [whole[at:at + size] for at in range(0, len(whole), size)]
            self.assertEqual(parts(answer(apps.echo, *cut))[1], b"some body")

    def test_large_bodies(self) -> None:
        for size in (1 << 20, 8 << 20):
            body = os.urandom(size)
            head, got = parts(answer(apps.echo, message(body, "POST")))
            self.assertIn("Content-Length: %d" % size, head)
            self.assertTrue(got == body)

    def test_reads_by_lines(self) -> None:
        got = answer(apps.lines, message(b"one\ntwo\nthree\nfour", "POST"))
        self.assertEqual(parts(got)[1], b"one\n|tw|o\n|three\n|four|")

    def test_what_lies_behind_the_body_is_no_part_of_it(self) -> None:
        self.assertEqual(parts(answer(apps.echo, message(b"abc", "POST") + b"more"))[1], b"abc")

    def test_errors(self) -> None:
        with Session(apps.errors) as session:
            session.ask(message())
        self.assertEqual(session.err.getvalue(), "one line\ntwo\nthree\n")

    def test_write(self) -> None:
        self.assertEqual(parts(answer(apps.writes))[1], b"one two three")

    def test_more_is_written_than_was_stated(self) -> None:
        with Session(apps.writes_too_much) as session:
            self.assertEqual(session.ask(message()), (b"Status: 200 OK\r\nContent-Length: 3\r\n\r\nabc", False))
        self.assertIn("more than the 3 bytes", session.err.getvalue())

    def test_generated_without_a_length(self) -> None:
        self.assertEqual(parts(answer(apps.generated)), (["Status: 200 OK", "Content-Type: text/plain"], b"one two"))

    def test_head_has_no_body(self) -> None:
        for application in (apps.hello, apps.generated, apps.writes, apps.no_piece):
            head, body = parts(answer(application, message(method="HEAD")))
            self.assertEqual((head[0], body), ("Status: 200 OK", b""))
        self.assertEqual(parts(answer(apps.no_piece, message(method="HEAD")))[0], ["Status: 200 OK"])
        self.assertEqual(parts(answer(apps.hello, message(method="HEAD")))[0][2], "Content-Length: 6")

    def test_no_piece(self) -> None:
        self.assertEqual(answer(apps.no_piece)[0], b"Status: 200 OK\r\nContent-Length: 0\r\n\r\n")

    def test_no_content(self) -> None:
        self.assertEqual(answer(apps.no_content)[0], b"Status: 204 No Content\r\n\r\n")

    def test_no_more_than_stated(self) -> None:
        self.assertEqual(parts(answer(apps.too_long))[1], b"abc")

    def test_exc_info_takes_the_place_of_what_is_not_out(self) -> None:
        self.assertEqual(parts(answer(apps.recovers)), (
            ["Status: 503 Sorry", "Content-Type: text/plain", "Content-Length: 5"], b"sorry"))

    def test_each_answer_is_closed(self) -> None:
        apps.Closes.count = 0
        with Session(apps.Closes) as session:
            session.ask(message())
            session.ask(message(path="/raise"))
            with session.connect() as sock:
                sock.sendall(message(path="/long"))
                sock.recv(10)
            for _ in range(100):
                if apps.Closes.count == 3:
                    break
                time.sleep(0.05)
        self.assertEqual(apps.Closes.count, 3)

    def test_unread_body_loses_no_answer(self) -> None:
        with Session(apps.hello) as session:
            for _ in range(20):
                got = session.ask(message(b"x" * 300000, "POST"))
                self.assertEqual((parts(got)[1], got[1]), (b"hello\n", False))


class Faults(unittest.TestCase):
    def test_before_the_first_byte(self) -> None:
        for application in (
                apps.raises_first, apps.exits, apps.twice, apps.never_starts, apps.gives_text, apps.too_short,
                apps.sends("200", []), apps.sends("200  ", []), apps.sends("200 OK\r\nX: y", []),
                apps.sends(b"200 OK", []), apps.sends("100 Continue", []), apps.sends("200 OK", [("X", "a\r\nY: b")]),
                apps.sends("200 OK", [("X Y", "a")]), apps.sends("200 OK", [("Connection", "close")]),
                apps.sends("200 OK", [("Status", "404")]), apps.sends("200 OK", [("Content-Length", "-1")]),
                apps.sends("200 OK", [("X", "\u20ac")]), apps.sends("200 OK", (("X", "a"),)),
                apps.sends("200 OK", [("Content-Length", "1"), ("content-length", "1")])):
            self.assertEqual(answer(application), (ERROR, False))
        self.assertEqual(answer(apps.raises_first, message(method="HEAD"))[0], ERROR[:-21])

    def test_no_fault_ends_a_thread(self) -> None:
        with Session(apps.exits, threads=1) as session:
            for _ in range(3):
                self.assertEqual(session.ask(message()), (ERROR, False))

    def test_behind_a_part_it_resets(self) -> None:
        for application in (apps.raises_late, apps.recovers_too_late):
            got = answer(application)
            self.assertEqual((parts(got)[1], got[1]), (b"part", True))

    def test_behind_a_part_of_a_stated_length_it_ends_short(self) -> None:
        for application, path in ((apps.raises_late_counted, "/"), (apps.too_short, "/part")):
            got = answer(application, message(path=path))
            self.assertEqual((parts(got)[1], got[1]), (b"part", False))

    def test_behind_the_whole_it_changes_nothing(self) -> None:
        got = answer(apps.Closes, message(path="/close"))
        self.assertEqual((parts(got)[1], got[1]), (b"x", False))

    def test_its_traceback_is_told(self) -> None:
        with Session(apps.raises_first) as session:
            session.ask(message())
        self.assertIn("ValueError: before the first byte", session.err.getvalue())


if __name__ == "__main__":
    unittest.main()
