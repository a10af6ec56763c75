"""The application whose answers are measured: `hello`, its own body, and `hello` after ten milliseconds."""
import time
from typing import Any, Callable, Dict, Iterable


def application(environ: Dict[str, Any], start_response: Callable[..., object]) -> Iterable[bytes]:
    path, body = environ["PATH_INFO"], b"hello\n"
    if path == "/echo":
        body = environ["wsgi.input"].read(int(environ.get("CONTENT_LENGTH") or 0))
    if path == "/sleep":
        time.sleep(0.01)
    start_response("200 OK", [("Content-Type", "text/plain"), ("Content-Length", str(len(body)))])
    return [body]
