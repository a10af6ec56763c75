"""An application that breaks its own framing, a way for each path."""
from typing import Any, Callable, Dict, Iterable, Iterator, List, Tuple

PLAIN = ("Content-Type", "text/plain")
# For each path that is answered by one piece: the status, the headers beside Content-Type, the piece.
HEADS: Dict[str, Tuple[str, List[Tuple[str, str]], bytes]] = {
    "/short": ("200 OK", [("Content-Length", "10")], b"part"),
    "/long": ("200 OK", [("Content-Length", "2")], b"abcdef"),
    "/head": ("200 OK", [], b"body"),
    "/none": ("204 No Content", [], b"body"),
    "/lines": ("200 OK", [("X", "a\r\nY: b")], b"body"),
    "/hop": ("200 OK", [("Transfer-Encoding", "chunked")], b"4\r\nbody\r\n0\r\n\r\n"),
    "/status": ("200", [], b"body"),
    "/unread": ("200 OK", [], b"body"),
    "/whole": ("200 OK", [], b"body"),
}


def application(environ: Dict[str, Any], start_response: Callable[..., object]) -> Iterable[bytes]:
    path = environ["PATH_INFO"]
    if path == "/early":
        raise ValueError("before it starts")
    if path == "/late":
        start_response("200 OK", [PLAIN])
        return breaking_off()
    status, headers, piece = HEADS[path]
    start_response(status, [PLAIN, *headers])
    return [piece]


def breaking_off() -> Iterator[bytes]:
    yield b"part"
    raise ValueError("behind a part")
