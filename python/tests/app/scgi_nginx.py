"""nginx in front of an SCGI server, with the configuration of the examples."""
import contextlib
import os
import pathlib
import re
import shutil
import socket
import subprocess
import tempfile
import time
from typing import Dict, Iterator, Tuple

from scgi_asking import PACKAGES, read_all

TOP = PACKAGES.parent
CONFIGURATION = TOP / "examples/app/nginx.conf"
IS_THERE = bool(shutil.which("nginx")) and os.path.exists("/etc/nginx/scgi_params")


def free_port() -> int:
    with socket.socket() as free:
        free.bind(("127.0.0.1", 0))
        return int(free.getsockname()[1])


@contextlib.contextmanager
def nginx(behind: int, more: str = "") -> Iterator[int]:
    """Its port, in front of an SCGI server at `behind`; `more` stands in its location too."""
    port = free_port()
    text = CONFIGURATION.read_text().replace("127.0.0.1:8080", "127.0.0.1:%d" % port)
    text = text.replace("scgi_pass 127.0.0.1:9000;", "scgi_pass 127.0.0.1:%d; %s" % (behind, more))
    if os.getuid() == 0:
        text = "user root;\n" + text
    with tempfile.TemporaryDirectory() as folder:
        path = pathlib.Path(folder) / "nginx.conf"
        path.write_text(text)
        run = subprocess.Popen(["nginx", "-p", folder, "-e", "stderr", "-c", str(path)], stderr=subprocess.DEVNULL)
        with listening(run, port):
            yield port


@contextlib.contextmanager
def listening(run: "subprocess.Popen[bytes]", port: int) -> Iterator[None]:
    """Waits for a server to listen, and ends it behind."""
    try:
        wait_for(port)
        yield
    finally:
        run.terminate()
        run.wait()


def wait_for(port: int) -> None:
    for _ in range(200):
        with contextlib.suppress(OSError):
            socket.create_connection(("127.0.0.1", port)).close()
            return
        time.sleep(0.05)
    raise AssertionError("nobody listens at %d" % port)


def request(method: str, path: str, body: bytes = b"", fields: str = "", closes: bool = True) -> bytes:
    ends = "Connection: close\r\n" if closes else ""
    length = "Content-Length: %d\r\n" % len(body) if body else ""
    return ("%s %s HTTP/1.1\r\nHost: a\r\n%s%s%s\r\n" % (method, path, ends, length, fields)).encode("latin-1") + body


def fetch(port: int, asked: bytes) -> Tuple[str, Dict[str, str], bytes]:
    """The status line, the fields and the body that one connection is answered until its end."""
    with socket.create_connection(("127.0.0.1", port), timeout=10) as sock:
        sock.sendall(asked)
        got = read_all(sock)[0]
    head, _, body = got.partition(b"\r\n\r\n")
    first, *lines = head.decode("latin-1").split("\r\n")
    fields = {name.lower(): value for name, value in (re.split(": *", line, maxsplit=1) for line in lines)}
    return first, fields, body
