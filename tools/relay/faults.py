"""What a client is answered where an SCGI server does what it should not: each row through gvr, byte for byte, and
through nginx, as it is seen."""
import time
from concurrent.futures import ThreadPoolExecutor

from servers import Findings, Running, free_port

from relay.asking import KEPT, Answer, Client, connect, request
from relay.fronts import Front
from relay.rows import NOBODY, REFUSED, ROWS, TIMEOUT, WHOLE, WITH_NUL, Row
from relay.scripted import Script, Scripted, script

# What both fronts wait for a reply, in milliseconds.
PATIENCE = 1500
# How many rows are tried at a time.
AT_ONCE = 8


def cell(answer: Answer) -> str:
    """What the page says of an answer: its status and how it ended."""
    return f"{answer.status[:3]}, {answer.ending}"


def path_of(number: int) -> str:
    """The path of a row."""
    return f"/row/{number}"


def scripts() -> dict[str, Script]:
    """What is done for the path of each row."""
    return {path_of(number): row.does for number, row in enumerate(ROWS)}


def goes_on(client: Client) -> bool:
    """Whether the same connection is answered right after that."""
    return client.ask(request(path="/next")).body == b"/next "


def judge(row: Row, name: str, answer: Answer, took: float, findings: Findings) -> None:
    """Tells whether an answer is the row's, and came before the limit or because of it. Of nginx that is told and no
    miss: another version may do otherwise."""
    if name == "gvr":
        is_timely = (took * 1000 < PATIENCE) == (row.gvr != TIMEOUT)
        seen = f"{answer.told()}, after {took * 1000:.0f} ms"
        findings.tell(f"{row.what}: through gvr", seen, (answer.raw, answer.ending) == (row.gvr, KEPT) and is_timely)
    else:
        differs = "" if cell(answer) == row.nginx else f"; the page has: {row.nginx}"
        print(f"       {row.what}: through {name}: {answer.told()}{differs}", flush=True)


def try_row(number: int, name: str, port: int, server: Scripted) -> tuple[Answer, float, bool]:
    """What a row is answered through a front, in how many seconds, and whether that was asked for once and gvr's
    connection goes on."""
    row, path = ROWS[number], path_of(number)
    with connect(port, 12) as client:
        began = time.monotonic()
        answer = client.ask(request(row.method, path, row.body))
        took = time.monotonic() - began
        is_well = name != "gvr" or goes_on(client)
    return answer, took, is_well and server.asked[path] == 1


def try_rows(name: str, front: Front, findings: Findings) -> None:
    """Each row through this front, some at a time."""
    with Scripted(scripts()) as server, front(server.port, PATIENCE) as it:
        with ThreadPoolExecutor(AT_ONCE) as lanes:
            found = list(lanes.map(lambda number: try_row(number, name, it.port, server), range(len(ROWS))))
        for row, (answer, took, _) in zip(ROWS, found):
            judge(row, name, answer, took, findings)
        if name == "gvr":
            bad = [row.what for row, (_, _, is_well) in zip(ROWS, found) if not is_well]
            seen = "; ".join(bad) or f"all {len(ROWS)}"
            findings.tell("each was asked for once, and its connection goes on", seen, not bad)
        try_nul(name, it, server, findings)
    with front(free_port(), PATIENCE) as it, connect(it.port) as client:
        began = time.monotonic()
        answer = client.ask(request())
        judge(NOBODY, name, answer, time.monotonic() - began, findings)


def try_nul(name: str, it: Running, server: Scripted, findings: Findings) -> None:
    """A path with a NUL is refused, nothing of it goes to the application, and the connection goes on."""
    before = sum(server.asked.values())
    with connect(it.port) as client:
        for path in WITH_NUL:
            answer = client.ask(request(path=path))
            if name != "gvr":
                print(f"       GET {path} through {name}: {answer.told()}", flush=True)
                break
            is_met = (answer.raw, answer.ending) == (REFUSED, KEPT) and goes_on(client)
            findings.tell(f"GET {path}", f"{answer.told()}; the connection goes on", is_met)
    if name == "gvr":
        more = sum(server.asked.values()) - before - len(WITH_NUL)
        findings.tell("what of these paths was handed on", str(more), more == 0)


def late_rows(front: Front, findings: Findings) -> None:
    """Requests one behind the other on a connection whose first is too slow: each gets its own answer, in order."""
    slow = {"/slow": script(2.5, WHOLE)}
    with Scripted(slow) as server, front(server.port, PATIENCE) as it, connect(it.port) as client:
        client.send(request(path="/slow") + request(path="/second") + request("POST", "/third", b"body"))
        came = [client.answer() for _ in range(3)]
        is_once = set(server.asked.values()) == {1}
    seen = ", ".join(answer.told() for answer in came)
    bodies = [answer.body for answer in came]
    is_met = bodies == [b"gateway timeout\n", b"/second ", b"/third body"] and is_once
    findings.tell("three requests at once, of which the first is too slow", seen, is_met)


def run(fronts: dict[str, Front], findings: Findings) -> None:
    """All rows, through all fronts."""
    for name, front in fronts.items():
        try_rows(name, front, findings)
    late_rows(fronts["gvr"], findings)
