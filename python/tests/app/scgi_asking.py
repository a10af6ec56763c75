"""Asks servers over SCGI."""
import contextlib
import io
import os
import pathlib
import socket
import subprocess
import sys
import threading
import time
from types import TracebackType
from typing import Any, Dict, Iterator, List, Optional, Sequence, Tuple, Type

HERE = pathlib.Path(__file__).resolve().parent
PACKAGES = HERE.parent.parent
sys.path[:0] = [str(HERE), str(PACKAGES)]
from gvr_scgi import Server as Server, Settings as Settings  # noqa: E402

# What came until the end of the stream, and whether the stream was reset then.
Answered = Tuple[bytes, bool]

ERROR = (b"Status: 500 Internal Server Error\r\nContent-Type: text/plain\r\nContent-Length: 21\r\n\r\n"
         b"Internal Server Error")


def netstring(block: bytes) -> bytes:
    return b"%d:%s," % (len(block), block)


def message(body: bytes = b"", method: str = "GET", path: str = "/", more: Sequence[Tuple[str, str]] = ()) -> bytes:
    """A request as gvr's environ has it."""
    named = [("CONTENT_LENGTH", str(len(body))), ("SCGI", "1"), ("REQUEST_METHOD", method), ("SCRIPT_NAME", ""),
             ("PATH_INFO", path), ("QUERY_STRING", ""), ("SERVER_NAME", "localhost"), ("SERVER_PORT", "80"),
             ("SERVER_PROTOCOL", "HTTP/1.1"), *more]
    block = b"".join(b"%s\0%s\0" % (name.encode("latin-1"), value.encode("latin-1")) for name, value in named)
    return netstring(block) + body


def read_all(sock: socket.socket) -> Answered:
    got = b""
    while True:
        try:
            piece = sock.recv(65536)
        except ConnectionResetError:
            return got, True
        if not piece:
            return got, False
        got += piece


def parts(answered: Answered) -> Tuple[List[str], bytes]:
    """The lines of the head, and the body."""
    head, _, body = answered[0].partition(b"\r\n\r\n")
    return head.decode("latin-1").split("\r\n"), body


class Session:
    """A server in this process, and what it wrote to standard error."""

    def __init__(self, application: Any, **settings: Any) -> None:
        chosen: Dict[str, Any] = {"port": 0, "threads": 4, **settings}
        self.server = Server(application, Settings(**chosen))
        self.port = self.server.start() or 0
        self.err = io.StringIO()
        self.thread = threading.Thread(target=self.server.run)

    def __enter__(self) -> "Session":
        self.before, sys.stderr = sys.stderr, self.err
        self.thread.start()
        return self

    def __exit__(self, kind: Optional[Type[BaseException]], error: Optional[BaseException],
                 trace: Optional[TracebackType]) -> None:
        self.server.stop()
        self.thread.join(10)
        self.server.close()
        sys.stderr = self.before

    def connect(self) -> socket.socket:
        return socket.create_connection(("127.0.0.1", self.port), timeout=10)

    def ask(self, *pieces: bytes, ends: bool = False) -> Answered:
        """What is answered to these pieces."""
        with self.connect() as sock:
            for piece in pieces:
                sock.sendall(piece)
                if len(pieces) > 1:
                    time.sleep(0.01)
            if ends:
                sock.shutdown(socket.SHUT_WR)
            return read_all(sock)


def answer(application: Any, *pieces: bytes, ends: bool = False) -> Answered:
    """What an application is seen to answer to one request."""
    with Session(application) as session:
        return session.ask(*(pieces or [message()]), ends=ends)


def ask(port: int, asked: Optional[bytes] = None) -> Answered:
    """What one request is answered; nothing, and a reset, where the process that accepted it ended meanwhile."""
    with socket.create_connection(("127.0.0.1", port), timeout=10) as sock:
        try:
            sock.sendall(message() if asked is None else asked)
        except (ConnectionResetError, BrokenPipeError):
            return b"", True
        return read_all(sock)


def interpreter_with(module: str) -> Optional[str]:
    """A Python that has the module, or None."""
    for python in (sys.executable, "/usr/bin/python3"):
        with contextlib.suppress(OSError):
            if subprocess.run([python, "-c", "import " + module], stderr=subprocess.DEVNULL).returncode == 0:
                return python
    return None


def environ_of_program() -> "dict[str, str]":
    return {**os.environ, "PYTHONPATH": str(PACKAGES), "PYTHONDONTWRITEBYTECODE": "1"}


@contextlib.contextmanager
def program(*words: str, python: str = sys.executable,
            folder: pathlib.Path = HERE) -> Iterator[Tuple["subprocess.Popen[str]", int]]:
    """The command with these words, and its port."""
    run = subprocess.Popen([python, "-m", "gvr_scgi", "--port", "0", "--chdir", str(folder), *words],
                           stdout=subprocess.PIPE, stderr=subprocess.PIPE, text=True, env=environ_of_program())
    assert run.stdout and run.stderr
    try:
        line = run.stdout.readline()
        assert line.startswith("listening "), line or run.stderr.read()
        yield run, int(line.split()[1])
    finally:
        if run.poll() is None:
            run.terminate()
            with contextlib.suppress(subprocess.TimeoutExpired):
                run.wait(10)
            run.kill()
        run.wait()
        run.stdout.close()
        run.stderr.close()
