"""An SCGI server that answers at once, but for the path /held, which it never answers: keeper.py PORT. It is one loop, so
that many streams that wait cost it nothing."""
import selectors
import socket
import sys

REPLY = b"Status: 200 OK\r\nContent-Type: text/plain\r\nContent-Length: 6\r\n\r\nhello\n"
HELD = b"\0/held\0"


def serve(port: int) -> None:
    """Serves until the process ends. The head of each request comes in one piece, and no body is looked at."""
    with socket.create_server(("127.0.0.1", port), backlog=4096) as listener, selectors.DefaultSelector() as waiting:
        waiting.register(listener, selectors.EVENT_READ)
        while True:
            for key, _ in waiting.select():
                if key.fileobj is listener:
                    waiting.register(listener.accept()[0], selectors.EVENT_READ, "stream")
                elif isinstance(key.fileobj, socket.socket) and is_over(key.fileobj):
                    waiting.unregister(key.fileobj)
                    key.fileobj.close()


def is_over(stream: socket.socket) -> bool:
    """Takes what came on a stream; whether it is to be closed."""
    try:
        came = stream.recv(65536)
        if HELD in came:
            return False
        if came:
            stream.sendall(REPLY)
    except OSError:
        pass
    return True


if __name__ == "__main__":
    serve(int(sys.argv[1]))
