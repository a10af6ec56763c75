"""Runs of the built program in which calls are refused: what refuse_memory and refuse_calls have in common."""
import collections
import concurrent.futures
import dataclasses
import os
import pathlib
import platform
import re
import shutil
import socket
import struct
import subprocess
import tempfile
import threading

TOP = pathlib.Path(__file__).resolve().parent.parent
SECONDS = 60
NEVER = 1 << 40

READ_FAULT = (4, b"gvr: read fault\n")
WRITE_FAULT = (5, b"gvr: write fault\n")
WITHOUT_MEMORY = (7, b"gvr: out of memory\n")
NETWORK_FAULT = (10, b"gvr: network fault\n")

HEAD = b"HTTP/1.1 200 OK\r\nContent-Type: text/plain\r\nContent-Length: 6\r\nConnection: close\r\n\r\n"
# What the connections of a server send, and what they are sent: the first is idle until its time is over.
CONNECTIONS = [(b"GET / HT", b""), (b"GET / HTTP/1.1\r\nConnection: close\r\n\r\n", HEAD + b"hello\n")]


@dataclasses.dataclass
class Row:
    """A call, and what it leaves where nothing is refused: its status, its line, what it writes, and what each of its
    connections is sent."""
    name: str
    words: list
    given: bytes = b""
    status: int = 0
    said: bytes = b""
    out: bytes = b""
    sent: list = dataclasses.field(default_factory=list)


def worked_row(name, words=None):
    """A row of worked_runs, with words of its own if some are given."""
    rows = (TOP / "crates/worked_runs/stdin").read_text().split("==== ")
    _, _, rest = next(it for it in rows if it.startswith(name + "\n")).partition("\n")
    while rest.startswith(".... "):
        way, _, rest = rest.partition("\n")
        rest = rest.replace("^\n", "\r\n") if way == ".... carets" else rest
    line, _, rest = rest.partition("\n")
    given, status, *said = rest.split("---- ")
    status, _, out = status.partition("\n")
    words = words or line.split()
    return Row(f"{name}: {' '.join(words)}", words, given.encode(), int(status), "".join(said).encode(), out.encode())


def idle_connection():
    """Two connections, of which the first is idle until its time is over."""
    words = "serve --port 0 --conns 2 --pool 2 --idle 1000".split()
    out = b"listening PORT\nserved 2\n"
    return Row(f"idle connection: {' '.join(words)}", words, out=out, sent=[it for _, it in CONNECTIONS])


@dataclasses.dataclass
class Refusal:
    """How calls are refused (refuse.c): which calls, how, of which number, and whether each moves one byte."""
    calls: str
    how: str = "one"
    at: int = NEVER
    in_bytes: bool = False

    def settings(self, library, told):
        own = {"REFUSE": self.calls, "REFUSE_HOW": self.how, "REFUSE_AT": str(self.at), "REFUSE_TOLD": told}
        return {**os.environ, **own, "REFUSE_BYTES": str(int(self.in_bytes)), "LD_PRELOAD": library}


@dataclasses.dataclass
class Ended:
    """What a call left, how many calls of the system were counted, how many refused, and the first's descriptor."""
    status: int
    said: bytes
    out: bytes
    sent: list
    counted: int
    refused: int
    fd: int

    def is_as_ever(self, row):
        return (self.status, self.said, self.out, self.sent) == (row.status, row.said, row.out, row.sent)

    def is_cut_off(self, row):
        """Whether all is as ever, but that connections were sent a beginning."""
        is_ever = (self.status, self.said, self.out) == (row.status, row.said, row.out)
        return is_ever and all(map(bytes.startswith, row.sent, self.sent))

    def has(self, fault, row):
        """Whether it has this status and line, and what it wrote and what each connection was sent is a beginning."""
        is_beginning = row.out.startswith(self.out) and all(map(bytes.startswith, row.sent, self.sent))
        return (self.status, self.said) == fault and is_beginning


def received(stream):
    """What comes of a connection until its end, or until it is reset."""
    pieces = []
    try:
        while piece := stream.recv(65536):
            pieces.append(piece)
    except OSError:
        pass
    return b"".join(pieces)


def asked(port):
    """What each of the connections is sent."""
    streams = []
    for text, _ in CONNECTIONS:
        stream = socket.socket()
        stream.settimeout(SECONDS)
        streams.append(stream)
        try:
            stream.connect(("127.0.0.1", port))
            stream.sendall(text)
        except OSError:
            pass
    sent = [received(stream) for stream in streams]
    for stream in streams:
        stream.close()
    return sent


def served(process):
    """What the connections of a server are sent, and what it wrote until its end, with PORT for its port."""
    first = process.stdout.readline()
    is_whole = first.endswith(b"\n")
    sent = asked(int(first.split()[1])) if is_whole else [b"" for _ in CONNECTIONS]
    rest, said = process.communicate()
    return sent, re.sub(rb"\d+", b"PORT" if is_whole else b"", first) + rest, said


class Program:
    """The program, and the library that refuses its calls."""

    def __init__(self, path, compiler):
        self.path, self.folder = str(path), tempfile.TemporaryDirectory()
        self.library = f"{self.folder.name}/refuse.so"
        words = [compiler, "-shared", "-fPIC", "-O2", "-o", self.library, TOP / "tools/refuse.c"]
        subprocess.run(words, check=True)

    def run(self, row, refusal):
        """What a row leaves under a refusal; where it does not end by itself, it is killed."""
        given = subprocess.DEVNULL if row.sent else subprocess.PIPE
        pipes = {"stdin": given, "stdout": subprocess.PIPE, "stderr": subprocess.PIPE}
        with tempfile.NamedTemporaryFile() as told:
            told.write(bytes(24))
            told.flush()
            settings = refusal.settings(self.library, told.name)
            process = subprocess.Popen([self.path, *row.words], env=settings, **pipes)
            timer = threading.Timer(SECONDS, process.kill)
            timer.start()
            sent, out, said = served(process) if row.sent else [[], *process.communicate(row.given)]
            timer.cancel()
            numbers = struct.unpack("3q", pathlib.Path(told.name).read_bytes())
            return Ended(process.returncode, said, out, sent, *numbers)

    def runs(self, row, refusal, step=1):
        """What it leaves where the first of the calls is refused, the second, and so on to the last, one a run; or one
        of so many."""
        last = self.run(row, dataclasses.replace(refusal, at=NEVER)).counted
        if not last:
            raise SystemExit(f"{row.name}: no call of {refusal.calls} was counted: is the program linked with glibc?")
        each = [dataclasses.replace(refusal, at=at) for at in range(1, last + 1, step)]
        with concurrent.futures.ThreadPoolExecutor(4 * os.cpu_count()) as pool:
            return zip(each, pool.map(lambda it: self.run(row, it), each))


def program_of(words, name):
    """The program that the words name, or the built one; none where something is missing, and a line says so."""
    compiler = shutil.which("cc")
    path = pathlib.Path(words[0] if words else TOP / "crates/gvr/out/gvr").resolve()
    has = {"glibc": platform.libc_ver()[0] == "glibc", "a C compiler": compiler, "the built program": path.is_file()}
    missing = next((it for it, there in has.items() if not there), None)
    if missing:
        print(f"{name} is left out, since it needs {missing}")
        return None
    return Program(path, compiler)


class Table:
    """How many runs of each row ended in which way, and those that ended in none of them."""

    def __init__(self, name, ends):
        self.name, self.ends, self.good, self.differences = name, ends, 0, []
        print("|", " | ".join(["Row", "Runs", *ends]), "|")
        print("|---" * (len(ends) + 2) + "|", flush=True)

    def add(self, row, seen):
        """Adds a line for the row: of each run how calls were refused, what it left, and which end that is, if any."""
        counts = collections.Counter()
        for refusal, ended, end in seen:
            counts[end] += 1
            if end is None:
                self.differences.append(f"{row.name}: {refusal}: {ended}")
        self.good += counts.total() - counts[None]
        numbers = [counts.total(), *(counts[it] for it in self.ends)]
        print("|", " | ".join([f"`{row.name}`", *map(str, numbers)]), "|", flush=True)

    def close(self):
        """Tells the differences and the sum; the status."""
        for line in self.differences[:40]:
            print(line[:1000])
        print(f"{self.name}: {self.good} passed, {len(self.differences)} failed")
        return bool(self.differences)
