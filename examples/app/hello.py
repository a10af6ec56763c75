"""An application of no framework: ./gvr app hello --chdir examples/app"""


def application(environ, start_response):
    name = environ["PATH_INFO"].strip("/") or "world"
    start_response("200 OK", [("Content-Type", "text/plain; charset=utf-8")])
    # A path has the bytes that came, each as one letter of Latin-1 (PEP 3333).
    return [b"hello ", name.encode("latin-1"), b"\n"]
