"""The socket at which a server listens."""
import os
import socket
import stat
import struct
import sys
from typing import Optional

from .settings import Settings

# Whether an accepted connection has the options of its listener.
INHERITS = sys.platform == "linux"


def listen(settings: Settings) -> socket.socket:
    """A listening socket. Raises OSError where its address can't be taken."""
    listener = bound(settings)
    if settings.greenlets == 0 and INHERITS:
        # What is set here each accepted connection has too, which spares calls of the system for each.
        seconds, micros = divmod(int(settings.timeout * 1000000), 1000000)
        for option in (socket.SO_RCVTIMEO, socket.SO_SNDTIMEO):
            listener.setsockopt(socket.SOL_SOCKET, option, struct.pack("ll", seconds, micros))
        send_at_once(listener)
    listener.listen(settings.backlog)
    return listener


def bound(settings: Settings) -> socket.socket:
    """A socket with its address."""
    family = socket.AF_UNIX if settings.unix else socket.AF_INET6 if ":" in settings.host else socket.AF_INET
    listener = socket.socket(family)
    try:
        if settings.unix:
            forget(settings.unix)
            listener.bind(settings.unix)
        else:
            listener.setsockopt(socket.SOL_SOCKET, socket.SO_REUSEADDR, 1)
            listener.bind((settings.host, settings.port))
    except OSError:
        listener.close()
        raise
    return listener


def forget(path: str) -> None:
    """Takes the socket of an earlier server away; what is no socket stays, and then the path can't be taken."""
    try:
        if stat.S_ISSOCK(os.stat(path).st_mode):
            os.unlink(path)
    except FileNotFoundError:
        pass


def send_at_once(sock: socket.socket) -> None:
    """Lets no small piece wait for the next."""
    if sock.family != socket.AF_UNIX:
        sock.setsockopt(socket.IPPROTO_TCP, socket.TCP_NODELAY, 1)


def place_of(settings: Settings, listener: socket.socket) -> str:
    """The port or the path at which it listens."""
    return settings.unix or str(port_of(settings, listener))


def port_of(settings: Settings, listener: socket.socket) -> Optional[int]:
    """The port, or None for a Unix socket."""
    return None if settings.unix else int(listener.getsockname()[1])
