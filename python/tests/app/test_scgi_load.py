"""Many requests at once, peers that are slow, servers that are killed or stopped: python3 test_scgi_load.py"""
import http.client
import os
import random
import signal
import socket
import subprocess
import sys
import threading
import time
import unittest
from typing import Callable, List

sys.path.insert(0, os.path.dirname(os.path.abspath(__file__)))
import scgi_apps as apps  # noqa: E402
from scgi_asking import Session, ask, message, parts, program, read_all  # noqa: E402
from scgi_nginx import IS_THERE, nginx, wait_for  # noqa: E402

SIZES = (0, 1, 10, 1000, 5000, 70000, 300000)
REQUESTS = 1000


def at_once(calls: List[Callable[[], None]]) -> None:
    """Makes the calls, each in a thread of its own, and waits for all."""
    threads = [threading.Thread(target=call) for call in calls]
    for thread in threads:
        thread.start()
    for thread in threads:
        thread.join()


def echoed(port: int, number: int, count: int, seen: List[str]) -> None:
    """Posts bodies of its own over a kept connection, and notes what each was answered."""
    chance = random.Random(number)
    connection = http.client.HTTPConnection("127.0.0.1", port, timeout=20)
    for at in range(count):
        body = b"%d-%d-" % (number, at) + b"x" * chance.choice(SIZES)
        connection.request("POST", "/", body)
        got = connection.getresponse()
        is_own = got.read() == body
        seen.append("own" if got.status == 200 and is_own else "status %d" % got.status)
    connection.close()


@unittest.skipUnless(IS_THERE, "no nginx")
class BehindNginx(unittest.TestCase):
    def test_each_client_gets_its_own(self) -> None:
        seen: List[str] = []
        with Session(apps.echo, threads=8) as session, nginx(session.port) as port:
            at_once([lambda number=number: echoed(port, number, 10, seen)  # type: ignore[misc]
                     for number in range(16)])
        self.assertEqual(seen, ["own"] * 160)

    def test_a_server_that_is_killed_and_begun_again(self) -> None:
        seen: List[str] = []
        ends = threading.Event()

        def client() -> None:
            while not ends.is_set():
                echoed(port, 1, 1, seen)

        with program("scgi_apps:echo") as (first, behind), nginx(behind) as port:
            threads = [threading.Thread(target=client) for _ in range(4)]
            for thread in threads:
                thread.start()
            time.sleep(0.3)
            first.kill()
            first.wait()
            time.sleep(0.3)
            with program("scgi_apps:echo", "--port", str(behind)):
                wait_for(behind)
                before = len(seen)
                time.sleep(0.5)
                ends.set()
                for thread in threads:
                    thread.join()
        self.assertEqual(set(seen), {"own", "status 502"})
        self.assertIn("own", seen[before + 4:])


class Peers(unittest.TestCase):
    def test_a_slow_one_keeps_nobody_waiting(self) -> None:
        with Session(apps.echo, threads=2) as session, session.connect() as slow:
            whole = message(b"slowly", "POST")
            for byte in whole[:20]:
                slow.sendall(bytes([byte]))
                self.assertEqual(parts(session.ask(message(b"quickly", "POST")))[1], b"quickly")
            slow.sendall(whole[20:])
            self.assertEqual(parts(read_all(slow))[1], b"slowly")

    def test_a_server_that_is_stopped_answers_when_it_goes_on(self) -> None:
        with program("scgi_apps:hello") as (run, port):
            run.send_signal(signal.SIGSTOP)
            with socket.create_connection(("127.0.0.1", port), timeout=10) as sock:
                sock.sendall(message())
                sock.settimeout(0.2)
                with self.assertRaises(socket.timeout):
                    sock.recv(1)
                run.send_signal(signal.SIGCONT)
                sock.settimeout(10)
                self.assertEqual(parts(read_all(sock))[1], b"hello\n")


def break_off(port: int) -> None:
    """Begins a request, and goes away."""
    with socket.create_connection(("127.0.0.1", port), timeout=10) as sock:
        sock.sendall(message(b"cut off", "POST")[:-1])


def held_by(run: "subprocess.Popen[str]") -> "tuple[int, int]":
    """How many descriptors a process has open, and how many KiB it holds in memory."""
    with open("/proc/%d/status" % run.pid) as status:
        kib = next(int(line.split()[1]) for line in status if line.startswith("VmRSS:"))
    return len(os.listdir("/proc/%d/fd" % run.pid)), kib


@unittest.skipUnless(os.path.isdir("/proc/self/fd"), "no /proc")
class Holding(unittest.TestCase):
    def test_requests_leave_nothing_behind(self) -> None:
        with program("scgi_apps:echo", "--threads", "4") as (run, port):
            for _ in range(200):
                ask(port)
            time.sleep(0.5)
            before = held_by(run)
            for at in range(REQUESTS):
                if at % 4:
                    ask(port, message(b"x" * 1000, "POST"))
                else:
                    break_off(port)
            ends = time.monotonic() + 10
            while held_by(run)[0] != before[0] and time.monotonic() < ends:
                # The last one is being closed.
                time.sleep(0.05)
            after = held_by(run)
        self.assertEqual(after[0], before[0])
        self.assertLess(after[1] - before[1], 2048)


if __name__ == "__main__":
    unittest.main()
