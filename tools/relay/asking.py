"""Asks over HTTP, one request after the other on a connection, and tells each answer byte for byte."""
import re
import socket
import time
from typing import NamedTuple, Optional

# How an answer ended: its bytes were counted and the connection stayed open; the connection ended or was reset behind
# it, or within it; or nothing more came in time.
KEPT, CLOSED, CUT_OFF, SILENT = "kept", "closed", "cut off", "silent"


class Answer(NamedTuple):
    """What one request was answered."""
    # The status with its reason, as `200 OK`; empty where no head came.
    status: str
    # The fields in order.
    fields: tuple[tuple[str, str], ...]
    # The body, with no chunks around it.
    body: bytes
    # All its bytes as they came.
    raw: bytes
    ending: str

    def field(self, name: str) -> Optional[str]:
        """The value of a field, the first of this name."""
        return next((value for each, value in self.fields if each.lower() == name), None)

    def told(self) -> str:
        """In a few words: status, body where it is short, ending."""
        body = repr(self.body)[1:] if len(self.body) <= 40 else f"{len(self.body)} bytes"
        return f"{self.status or 'no head'}, {body}, {self.ending}"


class Parted(NamedTuple):
    """The bytes of a whole answer, its body, and whether what came by now is all of it."""
    length: int
    body: bytes
    is_whole: bool


def head_of(came: bytes) -> Optional[tuple[str, tuple[tuple[str, str], ...], int]]:
    """The status and the fields of the head that these bytes begin with, and its length, if it is whole."""
    end = came.find(b"\r\n\r\n")
    if end < 0:
        return None
    first, *lines = came[:end].decode("latin-1").split("\r\n")
    fields = tuple((name, value.strip()) for name, _, value in (line.partition(":") for line in lines))
    return first.partition(" ")[2], fields, end + 4


def chunks_of(came: bytes) -> Parted:
    """The body that is sent in these chunks, with no lines behind the last one."""
    at = 0
    pieces: list[bytes] = []
    while True:
        line = re.compile(rb"([0-9a-fA-F]+)\r\n").match(came, at)
        if not line:
            return Parted(len(came), b"".join(pieces), False)
        size, begins = int(line[1], 16), line.end()
        if len(came) < begins + size + 2:
            return Parted(len(came), b"".join([*pieces, came[begins:begins + size]]), False)
        at = begins + size + 2
        if not size:
            return Parted(at, b"".join(pieces), True)
        pieces.append(came[begins:begins + size])


def body_of(status: str, fields: tuple[tuple[str, str], ...], is_for_head: bool, came: bytes) -> Parted:
    """The body behind a head, by RFC 9112, section 6.3."""
    by_name = {name.lower(): value for name, value in fields}
    if is_for_head or status[:3] in ("204", "304"):
        return Parted(0, b"", True)
    if by_name.get("transfer-encoding", "").lower() == "chunked":
        return chunks_of(came)
    if "content-length" in by_name:
        length = int(by_name["content-length"])
        return Parted(min(length, len(came)), came[:length], len(came) >= length)
    # The end of the connection ends it.
    return Parted(len(came), came, False)


class Client:
    """A connection. What comes behind an answer is kept for the next one."""

    def __init__(self, stream: socket.socket, longest: float) -> None:
        """Nothing is waited for longer than so many seconds."""
        self.stream, self.longest, self.came = stream, longest, b""
        self.has_ended = False

    def __enter__(self) -> "Client":
        return self

    def __exit__(self, *_: object) -> None:
        self.close()

    def close(self) -> None:
        """Goes away."""
        self.stream.close()

    def send(self, asked: bytes) -> None:
        """Sends this; that the other side has closed is seen when it is read."""
        try:
            self.stream.sendall(asked)
        except OSError:
            pass

    def ask(self, asked: bytes) -> Answer:
        """The answer to this request; those to the requests before it were taken."""
        self.send(asked)
        return self.answer(asked.startswith(b"HEAD "))

    def answer(self, is_for_head: bool = False) -> Answer:
        """The next answer."""
        until = time.monotonic() + self.longest
        while not (found := self.whole(is_for_head)):
            if self.has_ended or not self.read(until):
                return self.broken(is_for_head, CUT_OFF if self.has_ended else SILENT)
        return found

    def read(self, until: float) -> bool:
        """Takes what comes next, or the end; False where nothing came in time."""
        self.stream.settimeout(max(0.001, until - time.monotonic()))
        try:
            piece = self.stream.recv(1 << 18)
        except socket.timeout:
            return False
        except OSError:
            piece = b""
        self.came += piece
        self.has_ended = not piece
        return True

    def whole(self, is_for_head: bool) -> Optional[Answer]:
        """The answer that came, if it is whole. One whose end the connection's end tells is whole there."""
        head = head_of(self.came)
        if not head:
            return None
        status, fields, begins = head
        parted = body_of(status, fields, is_for_head, self.came[begins:])
        is_counted = any(name.lower() in ("content-length", "transfer-encoding") for name, _ in fields)
        if not parted.is_whole and not (self.has_ended and not is_counted):
            return None
        raw, self.came = self.came[:begins + parted.length], self.came[begins + parted.length:]
        closes = self.has_ended or ("connection", "close") in [(name.lower(), value.lower()) for name, value in fields]
        return Answer(status, fields, parted.body, raw, CLOSED if closes else KEPT)

    def broken(self, is_for_head: bool, ending: str) -> Answer:
        """What came of an answer that isn't whole."""
        status, fields, begins = head_of(self.came) or ("", (), len(self.came))
        body = body_of(status, fields, is_for_head, self.came[begins:]).body
        raw, self.came = self.came, b""
        return Answer(status, fields, body, raw, ending)


def connect(port: int, longest: float = 20.0) -> Client:
    """A connection to a server of this machine."""
    return Client(socket.create_connection(("127.0.0.1", port), timeout=longest), longest)


def request(method: str = "GET", path: str = "/", body: bytes = b"", fields: str = "") -> bytes:
    """A request of HTTP/1.1 that goes on."""
    length = f"Content-Length: {len(body)}\r\n" if body else ""
    return f"{method} {path} HTTP/1.1\r\nHost: a\r\n{length}{fields}\r\n".encode("latin-1") + body
