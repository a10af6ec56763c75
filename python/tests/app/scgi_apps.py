"""Applications that the tests serve."""
import sys
import time
from typing import Any, Callable, Dict, Iterable, Iterator, List, Tuple

Environ = Dict[str, Any]
Start = Callable[..., Callable[[bytes], None]]
Application = Callable[[Environ, Start], Iterable[bytes]]

PLAIN = [("Content-Type", "text/plain")]


def hello(environ: Environ, start_response: Start) -> List[bytes]:
    start_response("200 OK", list(PLAIN))
    return [b"hello\n"]


def echo(environ: Environ, start_response: Start) -> List[bytes]:
    body = environ["wsgi.input"].read()
    start_response("200 OK", [("Content-Type", "application/octet-stream"), ("Content-Length", str(len(body)))])
    return [body]


def sized_echo(environ: Environ, start_response: Start) -> List[bytes]:
    body = environ["wsgi.input"].read(1 << 20)
    start_response("200 OK", [("Content-Type", "application/octet-stream"), ("Content-Length", str(len(body)))])
    return [body]


def pairs(environ: Environ, start_response: Start) -> List[bytes]:
    start_response("200 OK", list(PLAIN))
    texts = ["%s=%s\n" % (name, value) for name, value in environ.items() if isinstance(value, (str, bool, tuple))]
    return ["".join(texts).encode("latin-1")]


def lines(environ: Environ, start_response: Start) -> Iterator[bytes]:
    start_response("200 OK", list(PLAIN))
    stream = environ["wsgi.input"]
    first, part, two, rest = stream.readline(), stream.readline(2), stream.read(2), stream.readlines()
    yield b"|".join([first, part, two, *rest]) + b"|" + stream.read() + stream.readline()


def errors(environ: Environ, start_response: Start) -> List[bytes]:
    stream = environ["wsgi.errors"]
    stream.write("one line\n")
    stream.writelines(["two\n", "three\n"])
    stream.flush()
    return hello(environ, start_response)


def writes(environ: Environ, start_response: Start) -> Iterator[bytes]:
    write = start_response("200 OK", list(PLAIN))
    write(b"one ")
    write(b"two ")
    return iter([b"", b"three"])


def writes_too_much(environ: Environ, start_response: Start) -> List[bytes]:
    write = start_response("200 OK", [("Content-Length", "3")])
    write(b"ab")
    write(b"cd")
    return []


def generated(environ: Environ, start_response: Start) -> Iterator[bytes]:
    start_response("200 OK", list(PLAIN))
    for piece in (b"one ", b"", b"two"):
        yield piece


def raises_first(environ: Environ, start_response: Start) -> List[bytes]:
    start_response("200 OK", list(PLAIN))
    raise ValueError("before the first byte")


def exits(environ: Environ, start_response: Start) -> List[bytes]:
    sys.exit("no way to end a server")


def raises_late(environ: Environ, start_response: Start) -> Iterator[bytes]:
    start_response("200 OK", list(PLAIN))
    yield b"part"
    raise ValueError("behind a part")


def raises_late_counted(environ: Environ, start_response: Start) -> Iterator[bytes]:
    start_response("200 OK", PLAIN + [("Content-Length", "8")])
    yield b"part"
    raise ValueError("behind a part")


def recovers(environ: Environ, start_response: Start) -> List[bytes]:
    try:
        start_response("200 OK", PLAIN + [("Content-Length", "3")])
        raise ValueError("before the first byte")
    except ValueError:
        start_response("503 Sorry", list(PLAIN), sys.exc_info())
    return [b"sorry"]


def recovers_too_late(environ: Environ, start_response: Start) -> Iterator[bytes]:
    start_response("200 OK", list(PLAIN))
    yield b"part"
    try:
        raise ValueError("behind a part")
    except ValueError:
        start_response("503 Sorry", list(PLAIN), sys.exc_info())
    yield b"never"


def twice(environ: Environ, start_response: Start) -> List[bytes]:
    start_response("200 OK", [])
    start_response("200 OK", [])
    return []


def never_starts(environ: Environ, start_response: Start) -> List[bytes]:
    return [b"x"]


def gives_text(environ: Environ, start_response: Start) -> Any:
    start_response("200 OK", [])
    return ["text"]


def too_long(environ: Environ, start_response: Start) -> Iterator[bytes]:
    start_response("200 OK", [("Content-Length", "3")])
    return iter([b"ab", b"cd", b"ef"])


def too_short(environ: Environ, start_response: Start) -> List[bytes]:
    start_response("200 OK", [("Content-Length", "10")])
    return [b"part"] if environ["PATH_INFO"] == "/part" else []


def no_content(environ: Environ, start_response: Start) -> List[bytes]:
    start_response("204 No Content", [])
    return [b"not sent"]


def no_piece(environ: Environ, start_response: Start) -> List[bytes]:
    start_response("200 OK", [])
    return []


class Closes:
    """An answer that notes how often it was closed."""
    count = 0

    def __init__(self, environ: Environ, start_response: Start) -> None:
        self.start_response, self.how = start_response, environ["PATH_INFO"]

    def __iter__(self) -> Iterator[bytes]:
        self.start_response("200 OK", list(PLAIN))
        yield b"x"
        if self.how == "/raise":
            raise ValueError("closed all the same")
        if self.how == "/long":
            for _ in range(4096):
                yield b"x" * 65536

    def close(self) -> None:
        Closes.count += 1
        if self.how == "/close":
            raise ValueError("the answer was whole")


def sends(status: Any, headers: Any) -> Application:
    """An application that sends such a head."""
    def application(environ: Environ, start_response: Start) -> List[bytes]:
        start_response(status, headers)
        return [b"x"]
    return application


def slow(environ: Environ, start_response: Start) -> List[bytes]:
    time.sleep(0.2)
    return hello(environ, start_response)


def make() -> Application:
    return hello


def fails_to_make() -> Application:
    raise ValueError("not made")


NUMBER = 5
HEADERS: List[Tuple[str, str]] = []
