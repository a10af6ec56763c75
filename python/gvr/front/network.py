"""Why a server could not listen: the port, and the system's cause."""
import os
import socket
from typing import Optional


def listen_fault(port: int) -> Optional[OSError]:
    """The fault of a listener at this port of 127.0.0.1 now, or nothing where it can listen."""
    try:
        with socket.socket(socket.AF_INET, socket.SOCK_STREAM) as listener:
            listener.setsockopt(socket.SOL_SOCKET, socket.SO_REUSEADDR, 1)
            listener.bind(("127.0.0.1", port))
            listener.listen()
    except OSError as fault:
        return fault
    return None


def cause(port: str) -> str:
    """What is said of a network fault at this port."""
    number = int(port) if port.isdigit() and int(port) < 65536 else 0
    fault = listen_fault(number)
    if fault is None:
        return f"port {number}: nothing is wrong with it now; the listener failed later\n"
    system = os.strerror(fault.errno) if fault.errno else str(fault)
    cure = "another program listens there (ss -ltnp tells which); " if "in use" in system else ""
    return f"port {number}: {system}; {cure}--port 0 takes a free one\n"
