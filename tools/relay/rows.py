"""What an SCGI server may do, row by row: all bytes that gvr has to answer, and what nginx 1.22 answers, in a word."""
from typing import NamedTuple

from relay.scripted import RESETS, STAYS, Script, script, slowly

# How many bytes of a reply's head and of its body are taken (docs/LANGUAGE.md, "Limits").
MOST_HEAD, MOST_BODY = 32768, 1048576
EMPTY = b"\r\n"
OK = b"Status: 200 OK\r\nContent-Type: text/plain\r\n"
# What comes before an end that is a reset, so that it has been read by then.
PAUSE = 0.1


def reply(body: bytes, *fields: bytes) -> bytes:
    """A reply of the SCGI server, with these fields behind its status and type."""
    return OK + b"".join(field + EMPTY for field in fields) + EMPTY + body


def sized(status: bytes, body: bytes, *fields: bytes) -> bytes:
    """An answer of gvr whose length is stated behind these fields."""
    head = [b"HTTP/1.1 " + status, b"Content-Type: text/plain", *fields, b"Content-Length: %d" % len(body)]
    return EMPTY.join([*head, EMPTY]) + body


def in_chunks(status: bytes, body: bytes, *fields: bytes) -> bytes:
    """One whose length nobody stated: it has these fields alone, and one chunk where it has a byte."""
    head = [b"HTTP/1.1 " + status, *fields, b"Transfer-Encoding: chunked"]
    chunk = b"%x\r\n%s\r\n" % (len(body), body) if body else b""
    return EMPTY.join([*head, EMPTY]) + chunk + b"0\r\n\r\n"


PLAIN = b"Content-Type: text/plain"
BAD_GATEWAY = sized(b"502 Bad Gateway", b"bad gateway\n")
TIMEOUT = sized(b"504 Gateway Timeout", b"gateway timeout\n")
REFUSED = sized(b"400 Bad Request", b"bad request\n")
AB = sized(b"200 OK", b"ab")
# Replies: whole, short of what they state, and of no stated length.
WHOLE, PART, OPEN = reply(b"ab", b"Content-Length: 2"), reply(b"part", b"Content-Length: 10"), reply(b"part")
HALF_A_HEAD = b"Status: 200 OK\r\nConte"
MOST = b"x" * MOST_BODY
# A request with a large body.
LARGE = "POST", b"x" * 1000000


def filling(length: int) -> bytes:
    """The field with which a head has so many bytes."""
    return b"X: " + b"x" * (length - len(OK) - len(b"X: ") - 2 * len(EMPTY))


class Row(NamedTuple):
    """What the SCGI server does, all bytes that gvr has to answer, and what nginx 1.22 does, in a word."""
    what: str
    does: Script
    gvr: bytes
    nginx: str
    method: str = "GET"
    body: bytes = b""


BROKEN = [
    Row("ends at once", script(), BAD_GATEWAY, "502, kept"),
    Row("resets at once", script(ends=RESETS), BAD_GATEWAY, "502, kept"),
    Row("ends within the head", script(HALF_A_HEAD), BAD_GATEWAY, "502, kept"),
    Row("resets within the head", script(HALF_A_HEAD, PAUSE, ends=RESETS), BAD_GATEWAY, "502, kept"),
    Row("ends short of its stated length", script(PART), BAD_GATEWAY, "200, cut off"),
    Row("resets short of its stated length", script(PART, PAUSE, ends=RESETS), BAD_GATEWAY, "200, cut off"),
    Row("ends with no length stated", script(OPEN), in_chunks(b"200 OK", b"part", PLAIN), "200, kept"),
    Row("resets with no length stated", script(OPEN, PAUSE, ends=RESETS), BAD_GATEWAY, "200, cut off"),
    Row("resets behind the whole of its stated length", script(WHOLE, PAUSE, ends=RESETS), AB, "200, kept"),
    Row("reads nothing of 1 MB, and resets", script(ends=RESETS, reads=False), BAD_GATEWAY, "502, kept", *LARGE),
    Row("answers before it reads 1 MB, and stays", script(WHOLE, 3.0, reads=False), AB, "200, kept", *LARGE),
]
LATE = [
    Row("says nothing, and stays", script(ends=STAYS), TIMEOUT, "504, kept"),
    Row("says half a head, and stays", script(HALF_A_HEAD, ends=STAYS), TIMEOUT, "504, kept"),
    Row("says a part of its stated length, and stays", script(PART, ends=STAYS), TIMEOUT, "200, cut off"),
    Row("states no length, and stays", script(OPEN, ends=STAYS), TIMEOUT, "200, cut off"),
    Row("is slower than the limit", script(2.5, WHOLE), TIMEOUT, "504, kept"),
    Row("says a byte each 100 ms, 6 seconds long", script(*slowly(WHOLE, 0.1)), TIMEOUT, "504, kept"),
    Row("says a byte each 5 ms, and is done in time", script(*slowly(WHOLE, 0.005)), AB, "200, kept"),
    Row("says its whole, and stays", script(WHOLE, ends=STAYS), AB, "200, kept"),
]
NO_REPLY = [
    Row("sends no field but an empty line", script(b"\r\nab"), BAD_GATEWAY, "200, kept"),
    Row("sends a line that is no field", script(b"hello there\r\n\r\nbody"), BAD_GATEWAY, "502, kept"),
    Row("sends such a line behind its Status", script(reply(b"ab", b"hello there")), BAD_GATEWAY, "502, kept"),
    Row("sends the first line of HTTP", script(b"HTTP/1.1 201 Created\r\nX: y\r\n\r\nab"), BAD_GATEWAY, "201, kept"),
    Row("sends Status: fine", script(b"Status: fine\r\n\r\nab"), BAD_GATEWAY, "502, kept"),
    Row("sends Status: 404", script(b"Status: 404\r\n\r\nab"), BAD_GATEWAY, "404, kept"),
    Row("sends two Status", script(reply(b"ab", b"Status: 404 No")), BAD_GATEWAY, "200, kept"),
    Row("sends Connection: keep-alive", script(reply(b"ab", b"Connection: keep-alive")), BAD_GATEWAY, "200, kept"),
    Row("sends Transfer-Encoding: chunked, and chunks",
        script(reply(b"2\r\nab\r\n0\r\n\r\n", b"Transfer-Encoding: chunked")), BAD_GATEWAY, "200, kept"),
    Row("sends Upgrade", script(reply(b"ab", b"Upgrade: h2c")), BAD_GATEWAY, "200, kept"),
    Row("states a length that is none", script(reply(b"ab", b"Content-Length: two")), BAD_GATEWAY, "200, kept"),
    Row("states two lengths", script(reply(b"ab", *[b"Content-Length: 2"] * 2)), BAD_GATEWAY, "200, kept"),
    Row("states a length beside 204", script(b"Status: 204 No Content\r\nContent-Length: 2\r\n\r\nab"), BAD_GATEWAY,
        "204, kept"),
    Row("has a control byte in a field", script(reply(b"ab", b"X: a\x01b")), BAD_GATEWAY, "200, kept"),
    Row("sends a head of 32769 bytes", script(reply(b"ab", filling(MOST_HEAD + 1))), BAD_GATEWAY, "502, kept"),
    Row("sends a head of 40000 bytes that has no end", script(OK + b"X: " + b"x" * 40000, ends=STAYS), BAD_GATEWAY,
        "502, kept"),
    Row("states a body of 1048577 bytes", script(reply(MOST + b"x", b"Content-Length: 1048577")), BAD_GATEWAY,
        "200, kept"),
    Row("sends a body of 1048577 bytes, and states no length", script(reply(MOST + b"x")), BAD_GATEWAY, "200, kept"),
]
REPLIES = [
    Row("sends a Location and no Status", script(b"Location: http://a/x\r\n\r\n"),
        in_chunks(b"302 Found", b"", b"Location: http://a/x"), "302, kept"),
    Row("sends neither", script(PLAIN + b"\r\n\r\nab"), in_chunks(b"200 OK", b"ab", PLAIN), "200, kept"),
    Row("sends more than it states", script(WHOLE + b"cdef"), AB, "200, kept"),
    Row("ends its lines by LF alone", script(WHOLE.replace(b"\r\n", b"\n")), AB, "200, kept"),
    Row("sends a head of 20 KB", script(reply(b"ab", b"X: " + b"x" * 20000, b"Content-Length: 2")),
        sized(b"200 OK", b"ab", b"X: " + b"x" * 20000), "502, kept"),
    Row("sends a head of 32768 bytes", script(reply(b"ab", filling(MOST_HEAD))),
        in_chunks(b"200 OK", b"ab", PLAIN, filling(MOST_HEAD)), "502, kept"),
    Row("sends a body of 1048576 bytes", script(reply(MOST)), in_chunks(b"200 OK", MOST, PLAIN), "200, kept"),
    Row("sends a body for HEAD", script(WHOLE), AB.removesuffix(b"ab"), "200, kept", "HEAD"),
    Row("sends a body for 204", script(b"Status: 204 No Content\r\n\r\nab"), b"HTTP/1.1 204 No Content\r\n\r\n",
        "204, kept"),
    Row("sends a body for 304", script(b"Status: 304 Not Modified\r\n\r\nab"), b"HTTP/1.1 304 Not Modified\r\n\r\n",
        "304, kept"),
]
ROWS = [*BROKEN, *LATE, *NO_REPLY, *REPLIES]
NOBODY = Row("can't be reached: nobody listens", script(), BAD_GATEWAY, "502, kept")
# Paths whose decoded bytes would make pairs of their own of an SCGI head.
WITH_NUL = ("/a%00REMOTE_USER%00root", "/%00", "/a%00", "/a%00b?x=%00")
