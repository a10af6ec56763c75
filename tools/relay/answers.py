"""The same requests to the same application through both fronts, each answer compared; and what applications do that
break their own framing, beside the servers that speak HTTP themselves."""
import pathlib
import socket
from typing import NamedTuple

from servers import Findings, python_with

from relay import behind
from relay.asking import CLOSED, CUT_OFF, KEPT, SILENT, Answer, Client, connect, request
from relay.fronts import Front
from relay.rows import AB, BAD_GATEWAY, sized

# What each front says of its own; for HEAD gvr says how a body would be sent, and nginx does not.
OF_THE_FRONT = {"server", "date", "connection", "keep-alive", "transfer-encoding"}
FORM = "Content-Type: application/x-www-form-urlencoded\r\n"
CHUNKS = b"6\r\nprice=\r\n1\r\n5\r\n0\r\n\r\n"
# What the shops of examples/app are asked.
SHOP = [
    request(), request(path="/price/tea"), request(path="/price/tea?x=%20y&z"), request("HEAD", "/price/tea"),
    request("POST", "/price/salt", b"price=4", FORM), request(path="/price/salt"), request(path="/price/caf%C3%A9"),
    request("POST", "/price/salt", b"price=much", FORM), request("PUT", "/price/tea", b"x"), request("OPTIONS", "/"),
    request("POST", "/price/chunks", b"", FORM + "Transfer-Encoding: chunked\r\n") + CHUNKS,
    request(path="/price/chunks"),
    request(fields="Cookie: a=b\r\nX-One: 1\r\nAccept: text/html\r\n"), request("DELETE", "/price/tea"),
    request(path="/price/tea%2Ftwo"), request(path="/nowhere"),
]
PLAIN = [request(), request(path="/you"), request("HEAD", "/you"), request(path="/caf%C3%A9")]
BODIES = [request(), *(request("POST", "/echo", b"x" * size) for size in (1, 65535, 300000, 1 << 20))]


class Application(NamedTuple):
    """An application, what it needs, where it lies, and what it is asked."""
    name: str
    module: str
    folder: pathlib.Path
    requests: list[bytes]


APPLICATIONS = [
    Application("flask_shop:app", "flask", behind.EXAMPLES, SHOP),
    Application("django_shop:application", "django", behind.EXAMPLES, SHOP),
    Application("hello:application", "sys", behind.EXAMPLES, PLAIN),
    Application("measured_app:application", "sys", behind.HERE, BODIES),
]
# The pairs that gvr tells of a request, in its order (docs/HTTP.md, "The environ"), here of this one.
FIELDS = "Content-Type: text/plain\r\nX-A: 1\r\nX-A: 2\r\nX_B: 3\r\nCookie: c=1\r\nCookie: d=2\r\n"
TOLD = request("POST", "/a%20b/c?x=%20&y", b"body", FIELDS)
# All but SERVER_PORT, which is gvr's.
EXPECTED = {
    "REQUEST_METHOD": "POST", "SCRIPT_NAME": "", "PATH_INFO": "/a b/c", "QUERY_STRING": "x=%20&y",
    "SERVER_NAME": "localhost", "SERVER_PROTOCOL": "HTTP/1.1", "CONTENT_TYPE": "text/plain", "CONTENT_LENGTH": "4",
    "HTTP_HOST": "a", "HTTP_X_A": "1,2", "HTTP_COOKIE": "c=1; d=2",
}


def compared(answer: Answer) -> tuple[object, ...]:
    """What of an answer is the application's."""
    fields = sorted((name.lower(), value) for name, value in answer.fields if name.lower() not in OF_THE_FRONT)
    return answer.status, fields, answer.body


def answers(front: Front, port: int, requests: list[bytes]) -> list[Answer]:
    """What these requests are answered, one after the other; a connection that was closed is made anew."""
    came: list[Answer] = []
    with front(port, 20000) as it:
        client = connect(it.port)
        for asked in requests:
            if came and came[-1].ending != KEPT:
                client.close()
                client = connect(it.port)
            came.append(client.ask(asked))
        client.close()
    return came


def line_of(asked: bytes) -> str:
    """The method and the path of a request."""
    return asked.partition(b" HTTP/1.1")[0].decode()


def compare(fronts: dict[str, Front], findings: Findings) -> None:
    """Each application by each server, through both fronts, each of which begins with a server of its own."""
    for one in APPLICATIONS:
        if not python_with(one.module):
            print(f"       {one.name} is left out: there is no {one.module}")
            continue
        for server, start in behind.over_scgi().items():
            came = {}
            for name, front in fronts.items():
                with start(one.name, one.folder, 16, one.module) as running:
                    came[name] = answers(front, running.port, one.requests)
            tell_same(f"{one.name} by {server}", one.requests, came, findings)


def tell_same(what: str, requests: list[bytes], came: dict[str, list[Answer]], findings: Findings) -> None:
    """Whether both fronts gave the same answers, all of them whole."""
    own, others = came["gvr"], came.get("nginx", came["gvr"])
    whole = sum(it.ending == KEPT for it in own)
    differ = [each for each in zip(requests, own, others) if compared(each[1]) != compared(each[2])]
    for asked, mine, its in differ:
        print(f"       {line_of(asked)}: through gvr {mine.told()} {mine.fields}")
        print(f"       through nginx {its.told()} {its.fields}")
    statuses = " ".join(it.status[:3] for it in own)
    findings.tell(what, f"{len(own) - len(differ)} of {len(own)} answers the same through both: {statuses}",
                  not differ and whole == len(own) and own[0].status == "200 OK")


def environ(front: Front, findings: Findings) -> None:
    """What an application is told of a request."""
    with behind.app("scgi_apps:pairs", behind.TESTED) as server, front(server.port, 20000) as it:
        expected = {**EXPECTED, "SERVER_PORT": str(it.port)}
        with connect(it.port) as client:
            body = client.ask(TOLD).body
    pairs = dict(line.split("=", 1) for line in body.decode("latin-1").splitlines())
    found = {name: value for name, value in pairs.items() if not name.startswith("wsgi.")}
    findings.tell("what an application is told of a request", ", ".join(sorted(found)), found == expected)


class Framing(NamedTuple):
    """A path of the application that breaks its own framing, and what the servers make of it."""
    path: str
    gvr: bytes
    # As the page has it: gunicorn 20.1, waitress 2.1, pywsgi 22.10.2, of Debian 12.
    others: tuple[str, str, str]
    method: str = "GET"
    body: bytes = b""


COLUMNS = ("gunicorn", "waitress", "pywsgi")
ERROR = sized(b"500 Internal Server Error", b"Internal Server Error")
NO_CONTENT = b"HTTP/1.1 204 No Content\r\nContent-Type: text/plain\r\n\r\n"
BODY = sized(b"200 OK", b"body")
FRAMING = [
    Framing("/early", ERROR, ("500, closed", "500, closed", "500, closed")),
    Framing("/late", BAD_GATEWAY, ("no last chunk, closed", "no last chunk, closed", "no last chunk, closed")),
    Framing("/short", BAD_GATEWAY, ("4 bytes, stays open", "4 bytes, closed", "4 bytes, stays open")),
    Framing("/long", AB, ("2 bytes", "2 bytes", "2 bytes, and 4 more")),
    Framing("/head", BODY.removesuffix(b"body"), ("none, and 4 more", "none, and 4 more", "none, and 4 more"), "HEAD"),
    Framing("/none", NO_CONTENT, ("204, and 4 more", "204, closed", "500, closed")),
    Framing("/lines", ERROR, ("400, closed", "500, closed", "500, closed")),
    Framing("/hop", ERROR, ("chunks within chunks", "500, closed", "its chunks, and a length")),
    Framing("/status", ERROR, ("200 with no reason", "200 with no reason", "200 with no reason")),
    Framing("/unread", BODY, ("200", "200", "200"), "POST", b"x" * 300000),
]


def what_follows(client: Client) -> bytes:
    """What comes behind an answer though nothing was asked."""
    client.stream.settimeout(0.3)
    try:
        return client.came + client.stream.recv(1 << 16)
    except socket.timeout:
        return client.came
    except OSError:
        return client.came


def cell(row: Framing, answer: Answer, more: bytes) -> str:
    """What the page says of an answer to a row."""
    status, length = answer.status[:3], len(answer.body)
    names = {name.lower() for name, _ in answer.fields}
    if answer.ending == CUT_OFF and "transfer-encoding" in names:
        return "no last chunk, closed"
    if answer.ending in (CUT_OFF, SILENT):
        return f"{length} bytes, {'closed' if answer.ending == CUT_OFF else 'stays open'}"
    behind_it = f", and {len(more)} more" if more else ", closed" if answer.ending == CLOSED and status != "200" else ""
    no_reason = f"{status} with no reason" if answer.status == status else status
    by_path = {"/long": f"{length} bytes", "/head": "none", "/status": no_reason}
    if row.path == "/hop" and status == "200":
        return "its chunks, and a length" if "content-length" in names else "chunks within chunks"
    return by_path.get(row.path, status) + behind_it


def framing(fronts: dict[str, Front], findings: Findings) -> None:
    """The rows, through gvr byte for byte, and by the servers that speak HTTP themselves as the page tells of them."""
    with behind.app("scgi_faulty:application", behind.TESTED) as server, fronts["gvr"](server.port, 20000) as it:
        with connect(it.port) as client:
            for row in FRAMING:
                answer = client.ask(request(row.method, row.path, row.body))
                findings.tell(f"{row.method} {row.path} of an application that breaks its framing", answer.told(),
                              answer.raw == row.gvr and answer.ending == KEPT)
    for name, start in behind.over_http().items():
        with start("scgi_faulty:application", behind.TESTED, 4, "sys") as alone:
            seen = [seen_of(row, alone.port) for row in FRAMING]
        for row, got in zip(FRAMING, seen):
            expected = row.others[COLUMNS.index(name)]
            differs = "" if got == expected else f"; the page has: {expected}"
            print(f"       {row.method} {row.path} by {name}: {got}{differs}", flush=True)


def seen_of(row: Framing, port: int) -> str:
    """What a server makes of a row."""
    with connect(port, 2) as client:
        answer = client.ask(request(row.method, row.path, row.body))
        return cell(row, answer, what_follows(client))


def run(fronts: dict[str, Front], findings: Findings) -> None:
    """All of it."""
    compare(fronts, findings)
    environ(fronts["gvr"], findings)
    framing(fronts, findings)
