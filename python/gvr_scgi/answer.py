"""An answer in CGI's form (RFC 3875, section 6), written as an application gives it (PEP 3333)."""
import re
import socket
from types import TracebackType
from typing import Callable, Iterable, List, Optional, Tuple, Type, Union

from .wire import GoneAway

TOKEN = re.compile(r"[!#$%&'*+\-.^_`|~0-9A-Za-z]+\Z")
# What a value or a reason may have: no control bytes but tab, as no CR and LF (they would be headers of their own).
VALUE = re.compile(r"[\t\x20-\x7e\x80-\xff]*\Z")
STATUS = re.compile(r"[2-9][0-9][0-9] [\x20-\x7e]*[\x21-\x7e]\Z")
LENGTH = re.compile(r"[0-9]{1,19}\Z")
HOP_BY_HOP = {"connection", "keep-alive", "proxy-authenticate", "proxy-authorization", "te", "trailer",
              "transfer-encoding", "upgrade"}
WITHOUT_BODY = ("204", "304")

ExcInfo = Union[Tuple[Type[BaseException], BaseException, Optional[TracebackType]], Tuple[None, None, None]]
Headers = List[Tuple[str, str]]


class Answer:
    """What is written for one request: nothing before the first byte of the body or the end of it, so that an
    application that fails until then is answered 500."""

    def __init__(self, sock: socket.socket, is_head: bool) -> None:
        self._sock, self._is_head = sock, is_head
        self._head: Optional[bytes] = None
        # The length that is stated, and whether the status has a body.
        self._length: Optional[int] = None
        self._has_body = True
        # Whether the head is out, whether all of the answer is, and how many bytes of the body went by.
        self.is_begun = self.is_ended = False
        self._given = 0

    def start_response(self, status: str, headers: Headers,
                       exc_info: Optional[ExcInfo] = None) -> Callable[[bytes], None]:
        """Takes the status and the headers; with `exc_info` in place of those before, if these are not out."""
        if exc_info and exc_info[1] is not None:
            try:
                if self.is_begun:
                    raise exc_info[1].with_traceback(exc_info[2])
            finally:
                exc_info = None
        elif self._head is not None:
            raise AssertionError("start_response was called before, and no exc_info is given")
        self._head, self._length = head_of(status, headers)
        self._has_body = status[:3] not in WITHOUT_BODY
        return self.write

    def write(self, piece: bytes) -> None:
        """What `start_response` answers: sends a piece at once. More than was stated is a fault of the application."""
        self.take(piece)
        if self._length is not None and self._given > self._length:
            raise ValueError("more than the %d bytes that Content-Length states are written" % self._length)

    def take(self, piece: bytes) -> None:
        """Sends the next piece of the body, as much of it as was stated."""
        if self._head is None:
            raise AssertionError("a piece of the body came before start_response")
        if not isinstance(piece, bytes):
            raise TypeError("a piece of the body is %s and not bytes" % type(piece).__name__)
        if not piece:
            return
        room = len(piece) if self._length is None else max(0, self._length - self._given)
        self._given += len(piece)
        self._send(self._head, piece[:room] if self._has_body and not self._is_head else b"")

    def _send(self, head: bytes, piece: bytes) -> None:
        """Sends a piece, behind the head if that is not out."""
        if not self.is_begun:
            self.is_begun = True
            piece = head + b"\r\n" + piece
        if piece:
            try:
                self._sock.sendall(piece)
            except OSError as error:
                raise GoneAway("the other side takes no more of the answer") from error

    def state_length(self, pieces: Iterable[bytes]) -> None:
        """States the length where all of the body is one piece that is there already (PEP 3333, "Handling the
        Content-Length Header"), so that the other side knows its end. For HEAD no piece says nothing of a length."""
        if self._head is None or self.is_begun or self._length is not None or not self._has_body:
            return
        if not isinstance(pieces, (list, tuple)) or len(pieces) > 1 or (self._is_head and not pieces):
            return
        if all(isinstance(it, bytes) for it in pieces):
            self._length = sum(map(len, pieces))
            self._head += b"Content-Length: %d\r\n" % self._length

    def is_full(self) -> bool:
        """Whether as much of the body went by as was stated."""
        return self.is_begun and self._length is not None and self._given >= self._length

    def end(self) -> None:
        """Sends the head if nothing is out. A body that is shorter than was stated is a fault of the application."""
        if self._head is None:
            raise AssertionError("the application did not call start_response")
        if self._length is not None and self._given < self._length and self._has_body and not self._is_head:
            raise ValueError("Content-Length states %d bytes, and %d came" % (self._length, self._given))
        self._send(self._head, b"")
        self.is_ended = True

    def tells_its_end(self) -> bool:
        """Whether the other side knows by the bytes how much of this answer is to come."""
        return self._is_head or not self._has_body or self._length is not None


def head_of(status: str, headers: Headers) -> Tuple[bytes, Optional[int]]:
    """The head as bytes, and the length that is stated. What is no status or no header raises."""
    if not isinstance(status, str) or not STATUS.match(status):
        raise ValueError("the status %r" % (status,))
    if not isinstance(headers, list):
        raise TypeError("the headers are no list")
    lines = ["Status: %s\r\n" % status]
    length: Optional[int] = None
    for name, value in headers:
        check_header(name, value)
        if name.lower() == "content-length":
            if length is not None or not LENGTH.match(value):
                raise ValueError("the Content-Length %r" % value)
            length = int(value)
        lines.append("%s: %s\r\n" % (name, value))
    return "".join(lines).encode("latin-1"), length


def check_header(name: str, value: str) -> None:
    """Raises where this is no header that an application may send."""
    if not isinstance(name, str) or not TOKEN.match(name):
        raise ValueError("the header name %r" % (name,))
    if not isinstance(value, str) or not VALUE.match(value):
        raise ValueError("the value %r of the header %s" % (value, name))
    if name.lower() in HOP_BY_HOP or name.lower() == "status":
        raise ValueError("the header %s is not the application's to send" % name)
