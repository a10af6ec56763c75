"""What a front costs, beside nginx to the same server, and the servers that speak HTTP themselves: the tables of
docs/SERVE.md."""
import contextlib
import os
import pathlib
import statistics
import tempfile
import time
from typing import Callable, NamedTuple, Optional

from servers import Findings, Loaded, Running, load

from relay import behind
from relay.asking import connect, request
from relay.fronts import Front

MEASURED = "measured_app:application"
# How many threads the servers have, and how many connections ask.
THREADS = 64
CONNS = (64, 512)
# The milliseconds that a front waits for a reply: nothing here is late.
PATIENCE = 60000
# How many connections are held, beside 64 that are answered, and by how much the others' answers may be later.
HELD = 900
LATER = 1.5
# Wanted of an application that sleeps 10 ms, with 64 threads: answers a second.
SLEEPERS = 3000
HELLO = "for n = 1, 62 do wrk.headers['X-Field-' .. n] = 'value of ' .. n end"
ECHO = "wrk.method = 'POST'; wrk.body = string.rep('x', 65536)"


class Row(NamedTuple):
    """What is asked for: its name, its path, what wrk is told of it in Lua."""
    name: str
    path: str
    lua: str = ""


ROWS = [Row("hello", "/"), Row("64 fields", "/", HELLO), Row("64 KiB", "/echo", ECHO)]
SLEEP = Row("sleep of 10 ms", "/sleep")


class Measured(NamedTuple):
    """Of one load: what wrk says, and the microseconds of processor time for an answer, of the front and of the server
    behind it."""
    loaded: Loaded
    front: float
    behind: float


class Measure(NamedTuple):
    """How often and how long each row is measured, and where the lines for wrk are kept."""
    rounds: int
    seconds: float
    place: pathlib.Path

    def once(self, row: Row, conns: int, it: Running, server: Optional[Running]) -> Measured:
        """One load."""
        lua = self.place / "row.lua"
        lua.write_text(row.lua)
        before = it.work(), server.work() if server else 0.0
        loaded = load(it.port, conns, self.seconds, row.path, lua, 10)
        after = it.work(), server.work() if server else 0.0
        each = 1e6 / max(1, loaded.answers)
        return Measured(loaded, (after[0] - before[0]) * each, (after[1] - before[1]) * each)


def middle(all_of: list[Measured]) -> Measured:
    """The median of each figure; all that failed."""
    loads = [one.loaded for one in all_of]
    rate, late, median = (statistics.median(one[k] for one in loads) for k in (1, 2, 3))
    loaded = Loaded(sum(one.answers for one in loads), rate, late, median, sum(one.failed for one in loads))
    front = statistics.median(one.front for one in all_of)
    return Measured(loaded, front, statistics.median(one.behind for one in all_of))


def told(all_of: list[Measured], figure: Callable[[Measured], float], digits: int = 0) -> str:
    """A figure of each, with so many digits behind the point."""
    return ", ".join(f"{figure(one):.{digits}f}" for one in all_of)


def line(first: list[str], all_of: list[Measured], last: list[str]) -> None:
    """A line of a table: what is measured, the figures of each server, what is said of them."""
    figures = [
        told(all_of, lambda one: one.loaded.rate), told(all_of, lambda one: one.loaded.median, 2),
        told(all_of, lambda one: one.loaded.late, 2), told(all_of, lambda one: one.front),
    ]
    failed = sum(one.loaded.failed for one in all_of)
    print("|", " | ".join([*first, *figures, *last]), "|" + (f" {failed} failed" if failed else ""), flush=True)


def heading(cells: list[str]) -> None:
    """The first lines of a table."""
    print("|", " | ".join(cells), "|")
    print("|---" * len(cells) + "|")


def rows_of_fronts() -> list[tuple[Row, int]]:
    """The rows, each with how many connections ask."""
    return [*((row, conns) for row in ROWS for conns in CONNS), (SLEEP, 64)]


def beside_nginx(fronts: dict[str, Front], measure: Measure, findings: Findings) -> None:
    """Each row, by turns through each front to one server."""
    names = ", ".join(fronts)
    heading(["What", "Connections", "Server", f"Answers a second: {names}", "p50 ms", "p99 ms", "us of the front",
             "us of the server", "To nginx, by the front's time"])
    wanted = []
    for server_name, start in behind.over_scgi().items():
        with contextlib.ExitStack() as stack:
            server = stack.enter_context(start(MEASURED, behind.HERE, THREADS, "sys"))
            its = {name: stack.enter_context(front(server.port, PATIENCE)) for name, front in fronts.items()}
            for row, conns in rows_of_fronts():
                rounds: dict[str, list[Measured]] = {name: [] for name in its}
                for _ in range(measure.rounds):
                    for name, it in its.items():
                        rounds[name].append(measure.once(row, conns, it, server))
                middles = [middle(all_of) for all_of in rounds.values()]
                ratio = middles[0].front / middles[-1].front if middles[-1].front else 0.0
                last = [told(middles, lambda one: one.behind), f"{ratio:.2f}"]
                line([row.name, str(conns), server_name], middles, last)
                wanted.append((row, conns, server_name, middles))
    for each in wanted:
        judge(*each, findings)


def judge(row: Row, conns: int, server: str, middles: list[Measured], findings: Findings) -> None:
    """What is wanted of a row: no more time of the front than nginx takes; of the sleepers so many answers."""
    own = middles[0]
    failed = f"; {own.loaded.failed} failed" if own.loaded.failed else ""
    if row is SLEEP:
        rate = own.loaded.rate
        what = f"answers a second of {row.name}, by {server}"
        findings.tell(what, f"{rate:.0f} of {SLEEPERS}{failed}", rate >= SLEEPERS and not failed)
    elif len(middles) > 1:
        ratio = own.front / max(0.001, middles[1].front)
        what = f"{row.name}, {conns} connections, by {server}: time of the front to nginx's"
        findings.tell(what, f"{ratio:.2f}{failed}", own.loaded.answers > 0 and ratio <= 1 and not failed)


def without_a_front(measure: Measure) -> None:
    """The servers that need none, with the same callable, by turns."""
    servers = behind.over_http()
    if not servers:
        return
    heading(["What", "Connections", f"Answers a second: {', '.join(servers)}", "p50 ms", "p99 ms", "us"])
    with contextlib.ExitStack() as stack:
        its = [stack.enter_context(start(MEASURED, behind.HERE, THREADS, "sys")) for start in servers.values()]
        for row in [*ROWS, SLEEP]:
            rounds = [[measure.once(row, 64, it, None) for it in its] for _ in range(measure.rounds)]
            line([row.name, "64"], [middle(list(all_of)) for all_of in zip(*rounds)], [])


def beside_held(front: Front, measure: Measure, findings: Findings) -> None:
    """The latest answers to 64 connections, of a front alone and of one that holds many, by turns."""
    row = Row("hello", "/")
    with behind.keeper() as server, front(server.port, 600000) as alone, front(server.port, 600000) as holding:
        before = server.sockets()
        streams = [connect(holding.port) for _ in range(HELD)]
        for stream in streams:
            stream.send(request(path="/held"))
        held = wait_for_sockets(server, before + HELD) - before
        rounds = [[measure.once(row, 64, it, None) for it in (holding, alone)] for _ in range(measure.rounds)]
        for stream in streams:
            stream.close()
    mine, other = (middle(list(all_of)) for all_of in zip(*rounds))
    ratio = mine.loaded.late / max(0.001, other.loaded.late)
    seen = f"p99 {mine.loaded.late:.2f} ms, {other.loaded.late:.2f} without them"
    print(f"       the front takes {mine.front:.0f} us an answer, {other.front:.0f} without them")
    findings.tell(f"64 connections beside {held} that are held", seen, held == HELD and ratio <= LATER)


def wait_for_sockets(server: Running, wanted: int, seconds: float = 20) -> int:
    """How many sockets it has open, once these are so many or the time is over."""
    until = time.monotonic() + seconds
    while (now := server.sockets()) < wanted and time.monotonic() < until:
        time.sleep(0.05)
    return now


def run(fronts: dict[str, Front], is_short: bool, findings: Findings) -> None:
    """All tables."""
    print(f"{os.cpu_count()} processors, load {os.getloadavg()[0]:.1f}")
    with tempfile.TemporaryDirectory() as place:
        measure = Measure(1 if is_short else 3, 1 if is_short else 3, pathlib.Path(place))
        beside_nginx(fronts, measure, findings)
        without_a_front(measure)
        beside_held(fronts["gvr"], measure, findings)
