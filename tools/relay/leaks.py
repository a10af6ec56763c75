"""What requests leave behind in the front: descriptors, and bytes held."""
import http.client
import pathlib
import socket
import tempfile
import threading
import time

from servers import Findings, Running, load

from relay import behind
from relay.asking import request
from relay.fronts import Front
from relay.upset import wait_for_descriptors

# How many requests are looked at, and after how many seconds fewer have to do.
WANTED, LONGEST = 200000, 150
SHORT, BRIEF = 20000, 20
# For how many seconds is asked before that: what the front needs once is there then, and the rate is known.
FIRST = 8
# How many requests the rest is reckoned for, and what they may leave behind, in KiB.
MANY, MOST = 10000000, 65536
# How many connections ask.
CONNS = 64
# What each connection asks for by turns: pieces of its own, replies that break off in two ways (502), a body.
LUA = """
local turn = 0
local body = string.rep('x', 5000)
request = function()
  turn = turn + 1
  if turn % 20 == 0 then return wrk.format('GET', '/late') end
  if turn % 20 == 10 then return wrk.format('GET', '/short') end
  if turn % 5 == 0 then return wrk.format('POST', '/unread', nil, body) end
  return wrk.format('GET', '/whole')
end
"""


def go_away(port: int, until: threading.Event) -> None:
    """Asks, and goes away without its answer, some times a second."""
    while not until.wait(0.2):
        with socket.create_connection(("127.0.0.1", port)) as stream:
            stream.sendall(request(path="/whole"))


def ask_for(it: Running, seconds: float, lua: pathlib.Path) -> int:
    """Asks over the same connections for so long; how many answers came. Each connection costs an account of its own
    (docs/SERVE.md, "What it costs"), so there are few."""
    until = threading.Event()
    other = threading.Thread(target=go_away, args=(it.port, until))
    other.start()
    answers = load(it.port, CONNS, seconds, "/", lua).answers
    until.set()
    other.join()
    return answers


def run(front: Front, is_short: bool, findings: Findings) -> None:
    """Asks for long, and compares what the front holds before and behind that."""
    wanted, longest = (SHORT, BRIEF) if is_short else (WANTED, LONGEST)
    with tempfile.TemporaryDirectory() as place, behind.app("scgi_faulty:application", behind.TESTED) as server, \
            front(server.port, 20000) as it:
        lua = pathlib.Path(place) / "load.lua"
        lua.write_text(LUA)
        first = ask_for(it, FIRST, lua)
        # Connections that closed linger for a second.
        time.sleep(2)
        before, held = it.descriptors(), it.memory()
        seconds = min(longest, 1 + wanted * FIRST // max(1, first))
        count = ask_for(it, seconds, lua)
        after = wait_for_descriptors(it, before)
        more = it.memory() - held
        is_well = status_of(it.port) == 200
    reckoned = more * MANY / max(1, count)
    less = f"; {wanted} would take more than {longest} s" if seconds == longest else ""
    print(f"       {count} requests in {seconds} s{less}")
    findings.tell("descriptors that they leave behind", f"{after - before} of {before}", after == before and is_well)
    seen = f"{more} KiB more than {held}; of {MANY} requests {reckoned / 1024:.0f} MiB"
    findings.tell("memory that they leave behind", seen, reckoned <= MOST)


def status_of(port: int) -> int:
    """Whether it still answers."""
    connection = http.client.HTTPConnection("127.0.0.1", port, timeout=20)
    connection.request("GET", "/whole")
    status = connection.getresponse().status
    connection.close()
    return status
