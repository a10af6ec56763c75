"""Several processes over one listener, and processes that are begun again when their files change."""
import os
import signal
import sys
import time
import traceback
from typing import Callable, List, Set

from .changes import call_at_change
from .environ import Application
from .listening import listen, place_of
from .loading import NotFound
from .server import ENDING, Server, run_until_told, shut
from .settings import Settings
from .telling import tell

# After how many seconds a process that ended by itself is begun again.
PAUSE = 1.0
# The status of a process that found no application, and of one whose files have changed.
NOT_FOUND = 2
CHANGED = 75
# For how many seconds the requests under way are waited for when files have changed.
LONGEST_ENDING = 5.0


class Processes:
    """The processes of a server, each with the application that `load` gives there. With `reloads` each is begun again
    when a file changes, and one that finds no application waits for that."""

    def __init__(self, settings: Settings, load: Callable[[], Application], reloads: bool) -> None:
        self._settings, self._load, self._reloads = settings, load, reloads
        self._listener = listen(settings)
        self._children: Set[int] = set()
        self._is_told = False
        self._status = 0

    def place(self) -> str:
        """The port or the path at which it listens."""
        return place_of(self._settings, self._listener)

    def run(self) -> int:
        """Answers until SIGTERM or SIGINT, or until a process finds no application; then the status is not 0."""
        for it in ENDING:
            signal.signal(it, self._end_all)
        self._begin_one()
        while self._children:
            child, ended = os.wait()
            self._children.discard(child)
            self._replace(os.WEXITSTATUS(ended) if os.WIFEXITED(ended) else -1)
        self._listener.close()
        if self._settings.unix:
            os.unlink(self._settings.unix)
        return self._status

    def _begin_one(self) -> None:
        """Begins one process alone, and the others when it has its application: what it can't load is told once."""
        hears, says = os.pipe()
        self._fork(says)
        os.close(says)
        is_loaded = bool(os.read(hears, 1))
        os.close(hears)
        if is_loaded:
            self._fill()

    def _fill(self) -> None:
        """Begins those that are missing."""
        while not self._is_told and len(self._children) < self._settings.processes:
            self._fork()

    def _replace(self, status: int) -> None:
        """Begins a process in the place of one that ended so."""
        if status == NOT_FOUND and not self._is_told:
            self._status = NOT_FOUND
            self._end_all()
        if not self._is_told and status != CHANGED:
            time.sleep(PAUSE)
        self._fill()

    def _end_all(self, *_: object) -> None:
        """Has all processes end. A signal may call it."""
        self._is_told = True
        shut(self._listener)
        for child in list(self._children):
            try:
                os.kill(child, signal.SIGTERM)
            except ProcessLookupError:
                pass

    def _fork(self, says: int = -1) -> None:
        """Begins a process, which writes a byte to `says` once it has its application."""
        # A signal that comes before the child has its own way with it ends the child, which does nothing yet.
        signal.pthread_sigmask(signal.SIG_BLOCK, ENDING)
        child = os.fork()
        if child:
            self._children.add(child)
            signal.pthread_sigmask(signal.SIG_UNBLOCK, ENDING)
            return
        status = 1
        try:
            for it in ENDING:
                signal.signal(it, signal.SIG_DFL)
            signal.pthread_sigmask(signal.SIG_UNBLOCK, ENDING)
            status = self._serve(says)
        except BaseException:
            traceback.print_exc()
        finally:
            sys.stderr.flush()
            os._exit(status)

    def _serve(self, says: int) -> int:
        """What a process does; its status."""
        try:
            application = self._load()
        except NotFound as why:
            if not self._reloads:
                tell(str(why))
                return NOT_FOUND
            tell("%s; each request is answered 500 until a file changes" % why)
            application = unloaded
        if says >= 0:
            os.write(says, b"1")
            os.close(says)
        server = Server(application, self._settings, self._listener)
        if self._reloads:
            call_at_change(lambda path: begin_again(server, path))
        run_until_told(server)
        return 0


def unloaded(environ: object, start_response: Callable[..., object]) -> List[bytes]:
    """Answers while the application can't be loaded."""
    start_response("500 Internal Server Error", [("Content-Type", "text/plain")])
    return [b"The application can't be loaded: the standard error of its server says why.\n"]


def begin_again(server: Server, path: str) -> None:
    """Ends this process so that it is begun again, once what is under way was answered."""
    tell("%s has changed: the application is loaded again" % path)
    ends = time.monotonic() + LONGEST_ENDING
    while not server.is_idle() and time.monotonic() < ends:
        time.sleep(0.01)
    os._exit(CHANGED)
