"""Servers that the tools of this folder start, measure and stop, all on 127.0.0.1."""
import contextlib
import os
import pathlib
import re
import socket
import subprocess
import sys
import time
from collections.abc import Iterator
from typing import NamedTuple, Optional

TOP = pathlib.Path(__file__).resolve().parent.parent
PROGRAM = TOP / "crates/gvr/out/gvr"
# How often it is looked whether a server takes connections on, 25 ms apart.
LOOKS = 400


def free_port() -> int:
    """A port at which nobody listens now."""
    with socket.socket() as it:
        it.bind(("127.0.0.1", 0))
        port: int = it.getsockname()[1]
        return port


def python_with(module: str) -> Optional[str]:
    """A Python that has this module, if there is one."""
    for python in (sys.executable, "/usr/bin/python3"):
        with contextlib.suppress(OSError):
            if subprocess.run([python, "-c", f"import {module}"], stderr=subprocess.DEVNULL).returncode == 0:
                return python
    return None


def wait_for(port: int, words: list[str]) -> None:
    """Waits until something takes connections on at this port; else the tool ends, and tells the words."""
    for _ in range(LOOKS):
        with contextlib.suppress(OSError), socket.create_connection(("127.0.0.1", port), 1):
            return
        time.sleep(0.025)
    sys.exit(f"{pathlib.Path(sys.argv[0]).name}: no answer from: {' '.join(words)}")


def family(pid: int) -> list[int]:
    """The process and those that it started."""
    children = pathlib.Path(f"/proc/{pid}/task/{pid}/children").read_text().split()
    return [pid, *(each for child in children for each in family(int(child)))]


def work_of(pid: int) -> float:
    """The seconds of processor time that a process and those that it started have taken."""
    total = 0
    for each in family(pid):
        fields = pathlib.Path(f"/proc/{each}/stat").read_text().rsplit(")", 1)[1].split()
        total += int(fields[11]) + int(fields[12])
    return total / os.sysconf("SC_CLK_TCK")


def memory_of(pid: int, figure: str) -> int:
    """The KiB that a process and those that it started hold, by a figure of /proc/PID/status: VmRSS or VmHWM."""
    total = 0
    for each in family(pid):
        told = re.search(figure + r":\s+(\d+)", pathlib.Path(f"/proc/{each}/status").read_text())
        total += int(told[1]) if told else 0
    return total


class Findings:
    """What was looked at, a line for each, and how much of it was as it should be."""

    def __init__(self) -> None:
        self.hits: list[str] = []
        self.misses: list[str] = []

    def tell(self, what: str, seen: str, is_met: bool) -> None:
        """Says what was seen, and whether it was as it should be."""
        print(f"{'ok    ' if is_met else 'MISSED'} {what}: {seen}", flush=True)
        (self.hits if is_met else self.misses).append(what)


class Running:
    """A server at a port, which can be killed and started again."""

    def __init__(self, words: list[str], port: int, environ: Optional[dict[str, str]] = None) -> None:
        self.words, self.port, self.environ = words, port, environ
        self.start()

    def start(self) -> None:
        """Starts it, and waits until it takes connections on."""
        none = subprocess.DEVNULL
        self.process = subprocess.Popen(self.words, stdout=none, stderr=none, env=self.environ)
        wait_for(self.port, self.words)

    def kill(self) -> None:
        """Ends it at once."""
        self.process.kill()
        self.process.wait()

    def stop(self) -> None:
        """Tells it to end, and waits for that."""
        self.process.terminate()
        try:
            self.process.wait(10)
        except subprocess.TimeoutExpired:
            self.kill()

    def goes_on(self) -> bool:
        """Whether it runs."""
        return self.process.poll() is None

    def work(self) -> float:
        """The seconds that its processes have worked."""
        return work_of(self.process.pid)

    def memory(self, figure: str = "VmRSS") -> int:
        """The KiB that its processes hold, or held at most."""
        return memory_of(self.process.pid, figure)

    def sockets(self) -> int:
        """How many sockets it has open, the listener among them."""
        count = 0
        for link in pathlib.Path(f"/proc/{self.process.pid}/fd").iterdir():
            # One that was closed meanwhile is none.
            with contextlib.suppress(FileNotFoundError):
                count += os.readlink(link).startswith("socket:")
        return count

    def descriptors(self) -> int:
        """How many descriptors its processes have open."""
        return sum(len(os.listdir(f"/proc/{each}/fd")) for each in family(self.process.pid))


@contextlib.contextmanager
def running(words: list[str], port: int, environ: Optional[dict[str, str]] = None) -> Iterator[Running]:
    """A server of these words, until the end of the block."""
    server = Running(words, port, environ)
    try:
        yield server
    finally:
        server.stop()


class Loaded(NamedTuple):
    """What wrk says of a load: how many answers came, how many a second, the milliseconds within which 99 and 50 of 100
    came, and how many requests failed or were answered by another status than 200 to 399."""
    answers: int
    rate: float
    late: float
    median: float
    failed: int


def load(port: int, conns: int, seconds: float, path: str = "/", lua: Optional[pathlib.Path] = None,
         longest: int = 2) -> Loaded:
    """What a load of so many connections by one thread of wrk is answered; what took longer than the longest, in
    seconds, is counted as failed."""
    words = ["wrk", "-t1", f"-c{conns}", f"-d{seconds:g}s", "--latency", "--timeout", f"{longest}s"]
    words += ["-s", str(lua)] if lua else []
    words.append(f"http://127.0.0.1:{port}{path}")
    return said_by_wrk(subprocess.run(words, capture_output=True, text=True, check=True).stdout)


def said_by_wrk(said: str) -> Loaded:
    """What its report says."""
    faults = re.search(r"Socket errors: connect (\d+), read (\d+), write (\d+), timeout (\d+)", said)
    failed = sum(map(int, faults.groups())) if faults else 0
    other = re.search(r"Non-2xx or 3xx responses: (\d+)", said)
    failed += int(other[1]) if other else 0
    answers, rate = re.search(r"(\d+) requests in", said), re.search(r"Requests/sec:\s+([\d.]+)", said)
    return Loaded(int(answers[1]) if answers else 0, float(rate[1]) if rate else 0.0, milliseconds(said, 99),
                  milliseconds(said, 50), failed)


def milliseconds(said: str, share: int) -> float:
    """Within how many so much of 100 came; 0 where nothing came."""
    told = re.search(rf"\b{share}%\s+([\d.]+)(us|ms|s|m)\b", said)
    return float(told[1]) * {"us": 0.001, "ms": 1, "s": 1000, "m": 60000}[told[2]] if told else 0.0
