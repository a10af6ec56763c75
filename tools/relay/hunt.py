"""Replies made by chance, each through gvr, and read by a second opinion: whether the two say the same."""
import random
from concurrent.futures import ThreadPoolExecutor
from typing import NamedTuple, Union

from servers import Findings

from relay.asking import KEPT, Answer, connect, request
from relay.fronts import Front
from relay.reading import read_reply, sent
from relay.scripted import ENDS, RESETS, STAYS, Script, Scripted

PATIENCE = 3000
AT_ONCE = 12
# What comes before a reset, so that it has been read by then, in seconds.
PAUSE = 0.15
STATUSES = (b"Status: 200 OK", b"Status: 404 Not Found", b"status:201 Created", b"Status: 204 No Content",
            b"Status: 304 Not Modified", b"STATUS: 500 x", b"Status:   302 Found")
# `%d` is a length that may be the body's.
PLAIN = (b"Content-Type: text/plain", b"Set-Cookie: a=b", b"Set-Cookie: c=d", b"Content-Length: %d")
ODD = (
    b"Status: 99 x", b"Status: 1000 y", b"Status: 200", b"Status: 200 ", b"Status: 200 OK ", b"Status: abc",
    b"Status: 200  two", b"X-A:", b"X-A: ", b"X-A:\tv", b"X B: y", b": y", b"no line", b"X: a\x00b", b"X: \x7f",
    b"X: \x80\xff", b"X: a\tb", b"Location: /x", b"location: http://a/", b"Connection: close", b"TE: x", b"Trailer: x",
    b"Upgrade: h", b"Keep-Alive: 1", b"Proxy-Authenticate: b", b"content-length: %d", b"Content-Length: -1",
    b"Content-Length: +2", b"Content-Length: 2x", b"Content-Length: 2 ", b"Content-Length: 0000000000000000002",
    b"Content-Length: 00000000000000000002", b"Content-Length:", b" folded: x",
)


class Case(NamedTuple):
    """What a server says for a path, how, and what it is asked."""
    said: bytes
    does: Script
    method: str
    body: bytes


def lines(chance: random.Random, length: int) -> list[bytes]:
    """The lines of a head, with lengths near this one."""
    found = [chance.choice(STATUSES)] if chance.random() < 0.7 else []
    for _ in range(chance.choice((0, 1, 1, 2, 2, 3, 4, 6))):
        found.append(chance.choice(ODD if chance.random() < 0.35 else PLAIN))
    chance.shuffle(found)
    near = [max(0, length + chance.choice((0, 0, 0, 0, -1, 1, 3))) for _ in found]
    return [line.replace(b"%d", b"%d" % number) for line, number in zip(found, near)]


def in_pieces(chance: random.Random, said: bytes) -> tuple[Union[bytes, float], ...]:
    """The bytes cut anywhere, with some pauses."""
    cuts = sorted(chance.randrange(len(said) + 1) for _ in range(chance.choice((0, 0, 1, 2, 5))))
    parts: list[Union[bytes, float]] = []
    for begins, ends in zip([0, *cuts], [*cuts, len(said)]):
        parts += [said[begins:ends], chance.choice((0.0, 0.001, 0.01))]
    return tuple(parts)


def case(chance: random.Random) -> Case:
    """A reply made by chance."""
    body = chance.randbytes(chance.choice((0, 0, 1, 2, 5, 20, 1000, 40000)))
    line_end = chance.choice((b"\r\n",) * 6 + (b"\n",))
    head = [*lines(chance, len(body)), b""] if chance.random() < 0.95 else lines(chance, len(body))
    said = b"".join(line + line_end for line in head) + body
    if chance.random() < 0.15:
        said = said[:chance.randrange(len(said) + 1)]
    ending = chance.choice((ENDS,) * 6 + (RESETS,) * 2 + (STAYS,))
    parts = (*in_pieces(chance, said), PAUSE if ending == RESETS else 0.0)
    method = chance.choice(("GET", "GET", "GET", "HEAD", "POST"))
    return Case(said, Script(parts, ending), method, chance.randbytes(3000) if method == "POST" else b"")


def ask_some(port: int, some: list[tuple[str, Case]]) -> list[Answer]:
    """What these are answered, one after the other over a connection; one that is out of step is made anew."""
    came: list[Answer] = []
    client = connect(port)
    for path, it in some:
        came.append(client.ask(request(it.method, path, it.body)))
        if came[-1].ending != KEPT:
            client.close()
            client = connect(port)
    client.close()
    return came


def is_same(it: Case, answer: Answer) -> bool:
    """Whether an answer is that of the second opinion; another is told."""
    is_head = it.method == "HEAD"
    expected = sent(read_reply(it.said, it.does.ends, is_head), is_head)
    if (answer.raw, answer.ending) == (expected, KEPT):
        return True
    print(f"       {it.method} {it.said!r:.200}, {it.does.ends}: {answer.told()}, wanted {expected!r:.80}", flush=True)
    return False


def run(front: Front, is_short: bool, findings: Findings) -> None:
    """So many, by the same seed each time."""
    chance = random.Random(1)
    cases = {f"/{number}": case(chance) for number in range(200 if is_short else 6000)}
    lanes = [list(cases.items())[lane::AT_ONCE] for lane in range(AT_ONCE)]
    with Scripted({path: it.does for path, it in cases.items()}) as server, front(server.port, PATIENCE) as it:
        with ThreadPoolExecutor(AT_ONCE) as pool:
            answers = list(pool.map(lambda some: ask_some(it.port, some), lanes))
        once = sum(server.asked[path] == 1 for path in cases)
    same = sum(is_same(it, answer) for some, came in zip(lanes, answers) for (_, it), answer in zip(some, came))
    count = len(cases)
    findings.tell("replies made by chance, read as a second opinion reads them", f"{same} of {count}", same == count)
    findings.tell("how many of these were asked for once", f"{once} of {count}", once == count)
