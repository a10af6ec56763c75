"""The servers that run an application of Python: over SCGI behind a front, or over HTTP by themselves."""
import contextlib
import os
import pathlib
import shutil
import sys
from typing import Callable

from servers import TOP, Running, free_port, python_with, running

EXAMPLES = TOP / "examples/app"
TESTED = TOP / "python/tests/app"
HERE = pathlib.Path(__file__).resolve().parent
HAS_UWSGI = bool(shutil.which("uwsgi")) and os.path.exists("/usr/lib/uwsgi/plugins/python3_plugin.so")
# Pywsgi with its threads patched, and without the wait for a delayed ACK, which costs it 40 ms an answer.
PYWSGI = """
from gevent import monkey; monkey.patch_all()
import importlib, socket, sys
from gevent.pywsgi import WSGIServer

class Server(WSGIServer):
    def handle(self, stream, address):
        stream.setsockopt(socket.IPPROTO_TCP, socket.TCP_NODELAY, 1)
        super().handle(stream, address)

module, name = sys.argv[2].split(":")
application = getattr(importlib.import_module(module), name)
Server(("127.0.0.1", int(sys.argv[1])), application, log=None, error_log=None, backlog=1024).serve_forever()
"""
Served = contextlib.AbstractContextManager[Running]
# A server with so many threads that runs an application, `MODULE:NAME` of a folder, which needs a module.
Behind = Callable[[str, pathlib.Path, int, str], Served]


def environ(folder: pathlib.Path) -> dict[str, str]:
    """The environment in which Python finds the repository's packages and this folder."""
    path = os.pathsep.join([str(TOP / "python"), str(folder)])
    # Sets are walked in the same order each time.
    return {**os.environ, "PYTHONPATH": path, "PYTHONDONTWRITEBYTECODE": "1", "PYTHONHASHSEED": "0"}


def app(name: str, folder: pathlib.Path, threads: int = 16, module: str = "sys") -> Served:
    """`./gvr app`, by a Python that has the module."""
    port = free_port()
    python = python_with(module) or "python3"
    words = [python, "-m", "gvr_scgi", "--port", str(port), "--threads", str(threads), "--chdir", str(folder), name]
    return running(words, port, environ(folder))


def uwsgi(name: str, folder: pathlib.Path, threads: int = 16, module: str = "sys") -> Served:
    """uWSGI over SCGI, with one process. Its Python is Debian's, whatever the module."""
    port = free_port()
    words = ["uwsgi", "--plugin", "python3", "--scgi-socket", f"127.0.0.1:{port}", "--chdir", str(folder), "--module",
             name, "--processes", "1", "--threads", str(threads), "--listen", "1024", "--thunder-lock",
             "--disable-logging", "--buffer-size", "32768", "--die-on-term"]
    return running(words, port, environ(folder))


def gunicorn(name: str, folder: pathlib.Path, threads: int = 16, module: str = "sys") -> Served:
    """gunicorn over HTTP, with one process and threads."""
    port = free_port()
    python = python_with("gunicorn") or "python3"
    words = [python, "-m", "gunicorn", "-b", f"127.0.0.1:{port}", "-k", "gthread", "--threads", str(threads),
             "--worker-connections", "2048", "--keep-alive", "60", "--log-level", "critical", name]
    return running(words, port, environ(folder))


def waitress(name: str, folder: pathlib.Path, threads: int = 16, module: str = "sys") -> Served:
    """waitress over HTTP."""
    port = free_port()
    python = python_with("waitress") or "python3"
    words = [python, "-m", "waitress", f"--listen=127.0.0.1:{port}", f"--threads={threads}", "--connection-limit=2048",
             name]
    return running(words, port, environ(folder))


def pywsgi(name: str, folder: pathlib.Path, threads: int = 16, module: str = "sys") -> Served:
    """gevent's pywsgi over HTTP; a greenlet for each connection, however many threads are asked for."""
    port = free_port()
    words = [python_with("gevent") or "python3", "-c", PYWSGI, str(port), name]
    return running(words, port, environ(folder))


def keeper() -> Served:
    """An SCGI server that answers `hello` at once, but for /held."""
    port = free_port()
    return running([sys.executable, str(HERE / "keeper.py"), str(port)], port)


def over_scgi() -> dict[str, Behind]:
    """The servers that stand behind a front and are here."""
    return {"gvr app": app, **({"uWSGI": uwsgi} if HAS_UWSGI else {})}


def over_http() -> dict[str, Behind]:
    """The servers that need no front and are here."""
    modules: dict[str, Behind] = {"gunicorn": gunicorn, "waitress": waitress, "pywsgi": pywsgi}
    return {name: it for name, it in modules.items() if python_with("gevent" if name == "pywsgi" else name)}
