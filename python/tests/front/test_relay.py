"""What the tools read of servers: answers of HTTP, requests of SCGI, the report of wrk."""
import socket
import sys
import threading
import unittest
from typing import Dict, List, Optional, Tuple

from gvr.front.program import TOP

sys.path.insert(0, str(TOP / "tools"))
import servers  # noqa: E402
from relay import answers, asking, reading, rows, scripted, upset  # noqa: E402

REPORT = """Running 2s test @ http://127.0.0.1:8080/
  1 threads and 64 connections
  Thread Stats   Avg      Stdev     Max   +/- Stdev
    Latency     1.90ms    3.83ms  51.75ms   99.50%
    Req/Sec    50.17k     9.97k   69.10k    70.00%
  Latency Distribution
     50%  812.00us
     75%    1.42ms
     90%    3.98ms
     99%    1.20s 
  100061 requests in 2.10s, 8.97MB read
  Socket errors: connect 1, read 2, write 3, timeout 4
  Non-2xx or 3xx responses: 5
Requests/sec:  47658.61
Transfer/sec:      4.27MB
"""


class Answers(unittest.TestCase):
    """Answers as they are sent, and how a client takes them."""

    def taken(self, sent: bytes, asked: bytes = b"GET / HTTP/1.1\r\n\r\n", ends: bool = False) -> asking.Answer:
        """What a client takes from a peer that sends this, byte by byte, and then ends, or keeps silent."""
        stream, peer = socket.socketpair()

        def serve() -> None:
            with peer:
                peer.recv(1000)
                for byte in sent:
                    peer.send(bytes([byte]))
                if not ends:
                    # Until the client goes.
                    peer.recv(1)
        thread = threading.Thread(target=serve)
        thread.start()
        with asking.Client(stream, 0.3) as client:
            answer = client.ask(asked)
        thread.join()
        return answer

    def check(self, sent: bytes, status: str, body: bytes, ending: str, ends: bool = False,
              asked: bytes = b"GET / HTTP/1.1\r\n\r\n") -> None:
        answer = self.taken(sent, asked, ends)
        self.assertEqual((answer.status, answer.body, answer.raw, answer.ending), (status, body, sent, ending))

    def test_lengths(self) -> None:
        head = b"HTTP/1.1 200 OK\r\nContent-Length: 4\r\n\r\n"
        self.check(head + b"body", "200 OK", b"body", asking.KEPT)
        self.check(head + b"bo", "200 OK", b"bo", asking.CUT_OFF, ends=True)
        self.check(head + b"bo", "200 OK", b"bo", asking.SILENT)
        self.check(head, "200 OK", b"", asking.KEPT, asked=b"HEAD / HTTP/1.1\r\n\r\n")

    def test_chunks(self) -> None:
        head = b"HTTP/1.1 200 OK\r\nTransfer-Encoding: chunked\r\n\r\n"
        self.check(head + b"3\r\none\r\nA\r\n0123456789\r\n0\r\n\r\n", "200 OK", b"one0123456789", asking.KEPT)
        self.check(head + b"3\r\none\r\n", "200 OK", b"one", asking.CUT_OFF, ends=True)
        self.check(head + b"0\r\n\r\n", "200 OK", b"", asking.KEPT)

    def test_no_body_and_no_head(self) -> None:
        self.check(b"HTTP/1.1 204 No Content\r\n\r\n", "204 No Content", b"", asking.KEPT)
        self.check(b"HTTP/1.1 304\r\nContent-Length: 4\r\n\r\n", "304", b"", asking.KEPT)
        self.check(b"HTTP/1.1 200", "", b"", asking.CUT_OFF, ends=True)
        self.check(b"", "", b"", asking.SILENT)

    def test_ends_of_connections(self) -> None:
        self.check(b"HTTP/1.0 200 OK\r\n\r\nall of it", "200 OK", b"all of it", asking.CLOSED, ends=True)
        self.check(b"HTTP/1.1 400 No\r\nConnection: close\r\nContent-Length: 0\r\n\r\n", "400 No", b"", asking.CLOSED)

    def test_what_comes_behind_an_answer_is_the_next_ones(self) -> None:
        first, second = b"HTTP/1.1 204 No\r\n\r\n", b"HTTP/1.1 200 OK\r\nContent-Length: 1\r\n\r\na"
        stream, peer = socket.socketpair()
        with asking.Client(stream, 5) as client, peer:
            peer.sendall(first + second)
            self.assertEqual([client.answer().raw, client.answer().raw], [first, second])

    def test_a_request(self) -> None:
        self.assertEqual(asking.request("POST", "/a", b"body", "X: y\r\n"),
                         b"POST /a HTTP/1.1\r\nHost: a\r\nContent-Length: 4\r\nX: y\r\n\r\nbody")


class Scripted(unittest.TestCase):
    """The SCGI server of scripts."""

    def test_a_head_in_pieces(self) -> None:
        # The request of SCGI's own page (N. Schemenauer, "SCGI", section 4).
        whole = (b"70:CONTENT_LENGTH\x0027\0SCGI\x001\0REQUEST_METHOD\0POST\0REQUEST_URI\0/deepthought\0,"
                 b"What is the answer to life?")
        expected: Tuple[Dict[str, str], bytes] = ({
            "CONTENT_LENGTH": "27", "SCGI": "1", "REQUEST_METHOD": "POST", "REQUEST_URI": "/deepthought"}, b"")
        front, peer = socket.socketpair()
        came: List[Optional[Tuple[Dict[str, str], bytes]]] = []
        with front, peer:
            reader = threading.Thread(target=lambda: came.append(scripted.read_head(peer)))
            reader.start()
            for byte in whole[:74]:
                front.send(bytes([byte]))
            reader.join()
        self.assertEqual(came, [expected])

    def test_an_end_within_a_head(self) -> None:
        front, peer = socket.socketpair()
        with peer:
            with front:
                front.sendall(b"70:CONTENT")
            self.assertIsNone(scripted.read_head(peer))

    def test_how_a_path_is_named(self) -> None:
        self.assertEqual(scripted.path_of({"PATH_INFO": "/a"}), "/a")
        self.assertEqual(scripted.path_of({"DOCUMENT_URI": "/b"}), "/b")

    def test_a_script_and_what_has_none(self) -> None:
        server = scripted.Scripted({"/a": scripted.script(b"one", 0.01, b"two")})
        own = b"Status: 200 OK\r\nContent-Type: text/plain\r\nContent-Length: 7\r\n\r\n/b body"
        self.assertEqual([self.said(server, path) for path in (b"/a", b"/b")], [b"onetwo", own])
        self.assertEqual(dict(server.asked), {"/a": 1, "/b": 1})

    def said(self, server: scripted.Scripted, path: bytes) -> bytes:
        """What the server sends for a request of this path."""
        block = b"CONTENT_LENGTH\x004\0SCGI\x001\0PATH_INFO\0" + path + b"\0"
        front, peer = socket.socketpair()
        with front:
            front.sendall(b"%d:%s,body" % (len(block), block))
            with peer:
                scripted.read_and_answer(peer, server)
            return front.recv(1000)

    def test_bytes_one_by_one(self) -> None:
        self.assertEqual(scripted.slowly(b"ab", 0.5), (0.5, b"a", 0.5, b"b"))


class Rows(unittest.TestCase):
    """What rows are made of."""

    def test_answers_of_gvr(self) -> None:
        self.assertEqual(rows.sized(b"200 OK", b"ab", b"X: y"),
                         b"HTTP/1.1 200 OK\r\nContent-Type: text/plain\r\nX: y\r\nContent-Length: 2\r\n\r\nab")
        self.assertEqual(rows.in_chunks(b"200 OK", b"onetwo", b"X: y"),
                         b"HTTP/1.1 200 OK\r\nX: y\r\nTransfer-Encoding: chunked\r\n\r\n6\r\nonetwo\r\n0\r\n\r\n")

    def test_heads_of_a_length(self) -> None:
        for length in (rows.MOST_HEAD, rows.MOST_HEAD + 1):
            self.assertEqual(rows.reply(b"", rows.filling(length)).index(b"\r\n\r\n") + 4, length)

    def test_each_row_is_there_once(self) -> None:
        whats = [row.what for row in rows.ROWS]
        self.assertEqual(len(set(whats)), len(whats))

    def test_whose_an_answer_is(self) -> None:
        def answer(body: bytes, status: str = "200 OK", ending: str = asking.KEPT) -> asking.Answer:
            return asking.Answer(status, (), body, b"", ending)
        self.assertEqual(upset.kind_of(answer(b"mine"), b"mine"), "own")
        self.assertEqual(upset.kind_of(answer(b"mine"), b"other"), "another's")
        self.assertEqual(upset.kind_of(answer(b"", "502 Bad Gateway")._replace(raw=rows.BAD_GATEWAY), b"mine"), "502")
        self.assertEqual(upset.kind_of(answer(b"mi", ending=asking.CUT_OFF), b"mine"), "200 OK, 'mi', cut off")

    def test_what_is_told_of_servers_out_of_step(self) -> None:
        late, short = answers.FRAMING[1], answers.FRAMING[2]
        chunked = asking.Answer("200 OK", (("Transfer-Encoding", "chunked"),), b"part", b"", asking.CUT_OFF)
        self.assertEqual(answers.cell(late, chunked, b""), "no last chunk, closed")
        silent = asking.Answer("200 OK", (("Content-Length", "10"),), b"part", b"", asking.SILENT)
        self.assertEqual(answers.cell(short, silent, b""), "4 bytes, stays open")
        kept = asking.Answer("204 No Content", (), b"", b"", asking.KEPT)
        self.assertEqual(answers.cell(answers.FRAMING[5], kept, b"body"), "204, and 4 more")


class Reading(unittest.TestCase):
    """The second opinion on a reply, by hand."""

    def check(self, said: bytes, expected: bytes, ending: str = scripted.ENDS, is_for_head: bool = False) -> None:
        self.assertEqual(reading.sent(reading.read_reply(said, ending, is_for_head), is_for_head), expected, said)

    def test_the_rows_of_the_other_tool(self) -> None:
        for row in rows.ROWS:
            if row not in rows.LATE:
                said = b"".join(part for part in row.does.says if isinstance(part, bytes))
                self.check(said, row.gvr, row.does.ends, row.method == "HEAD")

    def test_defaults_of_a_status(self) -> None:
        chunked = b"Transfer-Encoding: chunked\r\n\r\n"
        self.check(b"Location: /x\n\n", b"HTTP/1.1 302 Found\r\nLocation: /x\r\n" + chunked + b"0\r\n\r\n")
        self.check(b"A: b\r\n\r\nc", b"HTTP/1.1 200 OK\r\nA: b\r\n" + chunked + b"1\r\nc\r\n0\r\n\r\n")

    def test_what_is_cut_off(self) -> None:
        for ending, answer in ((scripted.ENDS, rows.BAD_GATEWAY), (scripted.RESETS, rows.BAD_GATEWAY),
                               (scripted.STAYS, rows.TIMEOUT)):
            for said in (b"", b"A: b\r\n", b"A: b\r\nContent-Length: 2\r\n\r\nc"):
                self.check(said, answer, ending)
        self.check(b"A: b\r\n\r\nc", rows.BAD_GATEWAY, scripted.RESETS)

    def test_blanks_and_tokens(self) -> None:
        whole = b"HTTP/1.1 200 OK\r\nA: b\r\nContent-Length: 1\r\n\r\nc"
        self.check(b"status:  200 OK\r\nA:\tb\r\nContent-Length: 1\r\n\r\ncd", whole)
        for line in (b"A b: c", b": c", b"A: \x7f", b"TE: x", b"Content-Length: 1 ", b"no colon"):
            self.check(b"Status: 200 OK\r\n" + line + b"\r\n\r\nc", rows.BAD_GATEWAY)


class Wrk(unittest.TestCase):
    """The report of wrk."""

    def test_a_report(self) -> None:
        self.assertEqual(servers.said_by_wrk(REPORT), servers.Loaded(100061, 47658.61, 1200, 0.812, 15))

    def test_a_report_of_no_answer(self) -> None:
        said = "  0 requests in 2.00s, 0.00B read\nRequests/sec:      0.00\n"
        self.assertEqual(servers.said_by_wrk(said), servers.Loaded(0, 0.0, 0.0, 0.0, 0))


if __name__ == "__main__":
    unittest.main()
