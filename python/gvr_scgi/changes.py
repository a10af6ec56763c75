"""Tells when a file of the modules that are loaded changes."""
import os
import sys
import threading
import time
from typing import Callable, Dict, Iterable, Optional, Tuple

# How often the files are looked at, in seconds.
EVERY = 0.5

Stamp = Tuple[int, int]
Stamps = Dict[str, Optional[Stamp]]


def files_of_modules() -> Iterable[str]:
    """The files of Python that were loaded, and those of this folder, which may be the next."""
    for module in list(sys.modules.values()):
        path = getattr(module, "__file__", None)
        if path and path.endswith(".py"):
            yield str(path)
    for entry in os.scandir("."):
        if entry.name.endswith(".py"):
            yield os.path.abspath(entry.name)


def stamp_of(path: str) -> Optional[Stamp]:
    """What changes if the file does; None where there is none."""
    try:
        found = os.stat(path)
    except OSError:
        return None
    return found.st_mtime_ns, found.st_size


class Changes:
    """The files as they were when each was first seen."""

    def __init__(self) -> None:
        self._seen: Stamps = {}
        self.changed()

    def changed(self) -> Optional[str]:
        """A file that is no longer as it was, or None. What is new is seen from now on."""
        for path in set(files_of_modules()) | set(self._seen):
            stamp = stamp_of(path)
            if self._seen.setdefault(path, stamp) != stamp:
                return path
        return None


def call_at_change(call: Callable[[str], None]) -> None:
    """Looks at the files from now on, beside what else is done, and calls once at the first change, with its file."""
    changes = Changes()

    def look() -> None:
        found = None
        while found is None:
            time.sleep(EVERY)
            found = changes.changed()
        call(found)

    threading.Thread(target=look, name="gvr_scgi-changes", daemon=True).start()
