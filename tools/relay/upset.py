"""Many clients at once beside a server that is killed, stopped or slow: nobody gets what is another's, and nobody waits
for another."""
import collections
import pathlib
import random
import signal
import sys
import threading
import time
from typing import Callable

from servers import Findings, Running

from relay import behind
from relay.asking import KEPT, Answer, connect, request
from relay.fronts import Front
from relay.rows import BAD_GATEWAY, OPEN, TIMEOUT
from relay.scripted import Scripted, own, script, slowly

# The sizes of the bodies that clients send, and get back.
SIZES = (0, 1, 10, 1000, 5000, 70000, 300000)
# Within so many seconds a request is answered that has to wait for nobody, also where the machine is busy.
BRISK = 1.0
# How many clients ask while the server is killed or stopped.
CLIENTS = 16
MEASURED = "measured_app:application"
Counts = collections.Counter[str]


def at_once(calls: list[Callable[[], None]]) -> None:
    """Makes the calls, each in a thread of its own, and waits for all."""
    threads = [threading.Thread(target=call) for call in calls]
    for thread in threads:
        thread.start()
    for thread in threads:
        thread.join()


def kind_of(answer: Answer, body: bytes) -> str:
    """What an answer is to the one who sent this body."""
    if answer.status == "200 OK" and answer.ending == KEPT:
        return "own" if answer.body == body else "another's"
    if answer.raw in (BAD_GATEWAY, TIMEOUT):
        return answer.status[:3]
    return answer.told()


def ask_own(port: int, number: int, times: int, seen: Counts, until: "threading.Event | None" = None) -> None:
    """Sends bodies of its own over a kept connection, and counts what they were answered."""
    chance = random.Random(number)
    with connect(port) as client:
        for at in range(times):
            if until and until.is_set():
                return
            body = b"%d-%d-" % (number, at) + chance.randbytes(chance.choice(SIZES))
            kind = kind_of(client.ask(request("POST", "/echo", body)), body)
            seen[kind] += 1
            if kind not in ("own", "502", "504"):
                return


def told(seen: Counts) -> str:
    """The counts in words."""
    return ", ".join(f"{count} {kind}" for kind, count in sorted(seen.items()))


def own_answers(front: Front, clients: int, times: int, findings: Findings) -> None:
    """Each client gets its own bodies back."""
    counts = [Counts() for _ in range(clients)]
    with behind.app(MEASURED, behind.HERE) as server, front(server.port, 60000) as it:
        at_once([lambda each=each: ask_own(it.port, each, times, counts[each])  # type: ignore[misc]
                 for each in range(clients)])
    seen = sum(counts, Counts())
    is_met = seen == {"own": clients * times}
    findings.tell(f"{clients} clients with {times} bodies of their own each", told(seen), is_met)


def killed(front: Front, seconds: float, findings: Findings) -> None:
    """The server is killed under load and started again: 502 meanwhile, then own answers on the same connections."""
    until, counts = threading.Event(), [Counts() for _ in range(CLIENTS)]
    with behind.app(MEASURED, behind.HERE) as server, front(server.port, 5000) as it:
        threads = [threading.Thread(target=ask_own, args=(it.port, each, sys.maxsize, counts[each], until))
                   for each in range(CLIENTS)]
        for thread in threads:
            thread.start()
        for _ in range(2):
            time.sleep(seconds)
            server.kill()
            time.sleep(seconds / 2)
            gone = sum(counts, Counts())
            server.start()
        before = [each["own"] for each in counts]
        time.sleep(seconds)
        until.set()
        for thread in threads:
            thread.join()
    seen, again = sum(counts, Counts()), sum(each["own"] > was for each, was in zip(counts, before))
    is_met = set(seen) == {"own", "502"}
    findings.tell("a server that is killed twice under load, and started again", told(seen), is_met)
    findings.tell("while it was gone", told(gone), gone["502"] > 0)
    findings.tell("connections that were answered again", f"{again} of {CLIENTS}", again == CLIENTS)


def stopped(front: Front, findings: Findings) -> None:
    """The server is stopped: each request is 504 in its time; once it goes on, the same connections are answered."""
    patience = 1
    with behind.app(MEASURED, behind.HERE) as server, front(server.port, patience * 1000) as it:
        streams = [connect(it.port) for _ in range(CLIENTS)]
        first = [kind_of(stream.ask(request("POST", "/echo", b"a")), b"a") for stream in streams]
        server.process.send_signal(signal.SIGSTOP)
        wait_until_stopped(server.process.pid)
        began = time.monotonic()
        for stream in streams:
            stream.send(request("POST", "/echo", b"b"))
        late = [kind_of(stream.answer(), b"b") for stream in streams]
        took = time.monotonic() - began
        server.process.send_signal(signal.SIGCONT)
        after = [kind_of(stream.ask(request("POST", "/echo", b"c")), b"c") for stream in streams]
        for stream in streams:
            stream.close()
    is_met = (set(first), set(late), set(after)) == ({"own"}, {"504"}, {"own"})
    seen = f"{told(Counts(first))}; then {told(Counts(late))}; then {told(Counts(after))}"
    findings.tell(f"{CLIENTS} requests of a server that is stopped, and goes on", seen, is_met)
    findings.tell("the last 504 came", f"after {took:.2f} s of {patience}", patience <= took < patience + BRISK)


def wait_until_stopped(pid: int) -> None:
    """Waits until each thread of a process has stopped: where the machine is busy some go on for a while."""
    for _ in range(1000):
        stats = [file.read_text() for file in pathlib.Path(f"/proc/{pid}/task").glob("*/stat")]
        if all(stat.rpartition(") ")[2].startswith("T") for stat in stats):
            return
        time.sleep(0.01)


def ask_briskly(port: int, path: str, seconds: float) -> list[float]:
    """In how many seconds each request was answered its own, one after the other; an answer of another's ends it."""
    late, until = [], time.monotonic() + seconds
    with connect(port) as client:
        while time.monotonic() < until:
            began = time.monotonic()
            if client.ask(request(path=path)).body != path.encode() + b" ":
                return []
            late.append(time.monotonic() - began)
    return late


def slow(front: Front, pause: float, findings: Findings) -> None:
    """A reply of which a byte comes each second: it comes whole, and the others are answered meanwhile."""
    reply = b"Status: 200 OK\r\n\r\nab"
    with Scripted({"/slow": script(*slowly(reply, pause))}) as server, front(server.port, 60000) as it:
        with connect(it.port, 60) as client:
            client.send(request(path="/slow"))
            began = time.monotonic()
            late = ask_briskly(it.port, "/quick", len(reply) * pause / 2)
            answer = client.answer()
            took = time.monotonic() - began
    is_whole = (answer.status, answer.body, answer.ending) == ("200 OK", b"ab", KEPT)
    findings.tell(f"a reply of which a byte comes each {pause:g} s", f"{answer.told()}, after {took:.1f} s",
                  is_whole and took >= len(reply) * pause)
    worst = max(late, default=9.0)
    findings.tell("another's answers meanwhile", f"{len(late)}, the last within {worst * 1000:.0f} ms", worst < BRISK)


def one_late(front: Front, count: int, pause: float, findings: Findings) -> None:
    """So many connections, of which the reply to one comes late: the others have theirs, and it gets its own."""
    reply = own("/late", b"")
    with Scripted({"/late": script(pause, reply)}) as server, front(server.port, 60000) as it:
        streams = [connect(it.port, pause + 20) for _ in range(count)]
        streams[0].send(request(path="/late"))
        began = time.monotonic()
        for number, stream in enumerate(streams[1:], 1):
            stream.send(request(path=f"/own/{number}"))
        right = sum(stream.answer().body == b"/own/%d " % number for number, stream in enumerate(streams[1:], 1))
        others = time.monotonic() - began
        last = streams[0].answer()
        took = time.monotonic() - began
        for stream in streams:
            stream.close()
        at_once_at_most = server.most_at_once
    seen = f"{right} others have their own after {others:.2f} s; up to {at_once_at_most} streams at once"
    is_met = right == count - 1 and others < pause
    findings.tell(f"{count} connections of which one is answered after {pause:g} s", seen, is_met)
    findings.tell("that one", f"{last.told()}, after {took:.2f} s", last.body == b"/late " and took >= pause)


def gone_clients(front: Front, times: int, findings: Findings) -> None:
    """Clients that go away while they wait: nothing is left of them, and the next ones are answered."""
    with Scripted({"/slow": script(0.5, OPEN)}) as server, front(server.port, 5000) as it:
        # The check that it listens left a connection, which may linger for a second.
        time.sleep(1.2)
        before = it.descriptors()
        for _ in range(times):
            with connect(it.port) as client:
                client.send(request(path="/slow"))
        answered = len(ask_briskly(it.port, "/next", 0.5))
        after = wait_for_descriptors(it, before)
    seen = f"{answered} answers meanwhile, {after - before} descriptors more"
    findings.tell(f"{times} clients that go away while they wait", seen, answered > 0 and after == before)


def wait_for_descriptors(it: Running, wanted: int, seconds: float = 10) -> int:
    """How many it has open, once these are so many or the time is over: a closed connection lingers for a second."""
    until = time.monotonic() + seconds
    while (now := it.descriptors()) != wanted and time.monotonic() < until:
        time.sleep(0.1)
    return now


def run(front: Front, is_short: bool, findings: Findings) -> None:
    """All of it through gvr."""
    own_answers(front, 16 if is_short else 48, 10 if is_short else 60, findings)
    killed(front, 0.5 if is_short else 2, findings)
    stopped(front, findings)
    slow(front, 0.1 if is_short else 1, findings)
    one_late(front, 200 if is_short else 1000, 3 if is_short else 5, findings)
    gone_clients(front, 50 if is_short else 500, findings)
