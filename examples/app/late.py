"""An application that answers slowly, or breaks off: ./gvr app late --chdir examples/app"""
import time


def application(environ, start_response):
    start_response("200 OK", [("Content-Type", "text/plain")])
    if environ["PATH_INFO"] == "/slow":
        time.sleep(5)
    yield b"one half, "
    if environ["PATH_INFO"] == "/broken":
        raise ValueError("between the halves")
    yield b"and the other\n"
