"""The environ of a request (PEP 3333, "environ Variables"), made of the pairs that came."""
import dataclasses
import sys
import urllib.parse
import wsgiref.util
from typing import Any, Callable, Dict, Iterable

from .wire import BadRequest, Body, Pairs

Environ = Dict[str, Any]
# What an application is: it takes an environ and `start_response`, and gives the pieces of its answer.
Application = Callable[[Environ, Callable[..., Callable[[bytes], None]]], Iterable[bytes]]

DEFAULTS = (("SCRIPT_NAME", ""), ("QUERY_STRING", ""), ("SERVER_NAME", "localhost"), ("SERVER_PORT", "80"),
            ("SERVER_PROTOCOL", "HTTP/1.1"))


@dataclasses.dataclass(frozen=True)
class Kind:
    """What an application is told of the server that calls it."""
    multithread: bool
    multiprocess: bool
    script_name: str = ""


def environ_of(pairs: Pairs, body: Body, kind: Kind) -> Environ:
    """The environ of these pairs, with all that PEP 3333 wants in it."""
    environ = joined(pairs)
    del environ["SCGI"]
    if "REQUEST_METHOD" not in environ:
        raise BadRequest("no REQUEST_METHOD")
    if environ.get("CONTENT_TYPE") == "":
        # A web server sends it so where the request has none.
        del environ["CONTENT_TYPE"]
    if "PATH_INFO" not in environ:
        environ["PATH_INFO"] = path_of(environ)
    for name, value in DEFAULTS:
        environ.setdefault(name, value)
    mount(environ, kind.script_name.rstrip("/"))
    is_secure = environ.get("HTTPS", "").lower() in ("on", "1") or environ.get("REQUEST_SCHEME") == "https"
    environ.update({
        "wsgi.version": (1, 0), "wsgi.url_scheme": "https" if is_secure else "http", "wsgi.input": body,
        "wsgi.errors": sys.stderr, "wsgi.multithread": kind.multithread, "wsgi.multiprocess": kind.multiprocess,
        "wsgi.run_once": False, "wsgi.file_wrapper": wsgiref.util.FileWrapper, "wsgi.input_terminated": True})
    return environ


def joined(pairs: Pairs) -> Environ:
    """The pairs as texts. A field that comes twice, as old nginx sends repeated fields, is joined as HTTP joins fields:
    by a comma, and Cookie by a semicolon."""
    environ: Environ = {}
    for raw_name, raw_value in pairs:
        name, value = raw_name.decode("latin-1"), raw_value.decode("latin-1")
        if name in environ:
            if not name.startswith("HTTP_"):
                raise BadRequest("%s twice" % name)
            value = environ[name] + ("; " if name == "HTTP_COOKIE" else ", ") + value
        environ[name] = value
    return environ


def path_of(environ: Environ) -> str:
    """The path that is asked for, where the other side names it as nginx's own `scgi_params` do: decoded as
    DOCUMENT_URI, and as it came as REQUEST_URI."""
    path = environ.get("DOCUMENT_URI")
    if path is None:
        path = urllib.parse.unquote(environ.get("REQUEST_URI", "/").partition("?")[0], encoding="latin-1")
    return str(path)


def mount(environ: Environ, front: str) -> None:
    """Moves the front of the path to SCRIPT_NAME. One of the two has a byte in any case."""
    path = environ["PATH_INFO"]
    if front and (path == front or path.startswith(front + "/")):
        environ["SCRIPT_NAME"] += front
        environ["PATH_INFO"] = path[len(front):]
    if not environ["PATH_INFO"] and not environ["SCRIPT_NAME"]:
        environ["PATH_INFO"] = "/"
