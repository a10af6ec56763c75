"""An SCGI server that does what a script says, whatever a reply should be."""
import collections
import socket
import struct
import threading
import time
from typing import NamedTuple, Optional, Union

# How a stream ends: by its end, by a reset, or not until the other side ends it.
ENDS, RESETS, STAYS = "ends", "resets", "stays"
# SO_LINGER with no time: closing sends a reset.
AT_ONCE = struct.pack("ii", 1, 0)
# For how long the other side's end is waited for.
LONGEST = 30.0


class Script(NamedTuple):
    """What is sent for a request, where a number is a pause in seconds, and how the stream ends then."""
    says: tuple[Union[bytes, float], ...] = ()
    ends: str = ENDS
    # Whether the whole body of the request is read before.
    reads: bool = True


def script(*says: Union[bytes, float], ends: str = ENDS, reads: bool = True) -> Script:
    """A script that says this."""
    return Script(says, ends, reads)


def slowly(said: bytes, pause: float) -> tuple[Union[bytes, float], ...]:
    """The bytes one by one, with this pause before each."""
    parts: list[Union[bytes, float]] = []
    for byte in said:
        parts += [pause, bytes([byte])]
    return tuple(parts)


def pairs_of(block: bytes) -> dict[str, str]:
    """The names and values of a head, each ended by NUL."""
    texts = block.decode("latin-1").split("\0")
    return dict(zip(texts[::2], texts[1::2]))


def path_of(pairs: dict[str, str]) -> str:
    """The path that is asked for, as gvr names it or as nginx's own `scgi_params` do."""
    return pairs.get("PATH_INFO") or pairs["DOCUMENT_URI"]


class Scripted:
    """The server, until the end of the block. Each stream is served by a thread of its own, by the script of its path;
    a path that has none is answered its own path and body, with a length."""

    def __init__(self, scripts: dict[str, Script]) -> None:
        self.scripts = scripts
        # How often each path was asked for, and how many streams are open.
        self.asked: collections.Counter[str] = collections.Counter()
        self.most_at_once = 0
        self._at_once = 0
        self._lock = threading.Lock()

    def __enter__(self) -> "Scripted":
        self._listener = socket.create_server(("127.0.0.1", 0), backlog=4096)
        self.port: int = self._listener.getsockname()[1]
        self._thread = threading.Thread(target=self._accept, daemon=True)
        self._thread.start()
        return self

    def __exit__(self, *_: object) -> None:
        # Ends the accept that waits.
        self._listener.shutdown(socket.SHUT_RDWR)
        self._thread.join()
        self._listener.close()

    def _accept(self) -> None:
        while True:
            try:
                stream, _ = self._listener.accept()
            except OSError:
                return
            threading.Thread(target=self._serve, args=(stream,), daemon=True).start()

    def _count(self, more: int) -> None:
        with self._lock:
            self._at_once += more
            self.most_at_once = max(self.most_at_once, self._at_once)

    def _serve(self, stream: socket.socket) -> None:
        self._count(1)
        try:
            with stream:
                stream.settimeout(LONGEST)
                stream.setsockopt(socket.IPPROTO_TCP, socket.TCP_NODELAY, 1)
                read_and_answer(stream, self)
        except OSError:
            # The other side went away.
            pass
        finally:
            self._count(-1)

    def script_of(self, path: str) -> Optional[Script]:
        """What is done for a path, which is counted."""
        with self._lock:
            self.asked[path] += 1
        return self.scripts.get(path)


def read_and_answer(stream: socket.socket, server: Scripted) -> None:
    """Serves one stream. Raises OSError where the other side goes away."""
    head = read_head(stream)
    if head is None:
        return
    pairs, body = head
    path, length = path_of(pairs), int(pairs["CONTENT_LENGTH"])
    found = server.script_of(path)
    if not found or found.reads:
        while len(body) < length and (piece := stream.recv(1 << 18)):
            body += piece
    perform(stream, found or script(own(path, body)))


def read_head(stream: socket.socket) -> Optional[tuple[dict[str, str], bytes]]:
    """The pairs of a request, and what came behind them; nothing where the other side ends before."""
    came = b""
    while b":" not in came[:8]:
        piece = stream.recv(1 << 16)
        if not piece:
            return None
        came += piece
    digits, _, came = came.partition(b":")
    while len(came) <= int(digits):
        piece = stream.recv(1 << 16)
        if not piece:
            return None
        came += piece
    return pairs_of(came[:int(digits)]), came[int(digits) + 1:]


def own(path: str, body: bytes) -> bytes:
    """The reply that has what its request has."""
    said = path.encode("latin-1") + b" " + body
    return b"Status: 200 OK\r\nContent-Type: text/plain\r\nContent-Length: %d\r\n\r\n" % len(said) + said


def perform(stream: socket.socket, wanted: Script) -> None:
    """Says what the script says, and ends the stream as it says."""
    for part in wanted.says:
        if isinstance(part, bytes):
            stream.sendall(part)
        else:
            time.sleep(part)
    if wanted.ends == RESETS:
        stream.setsockopt(socket.SOL_SOCKET, socket.SO_LINGER, AT_ONCE)
    if wanted.ends == STAYS:
        while stream.recv(1 << 16):
            pass
