"""Threads, greenlets, processes, and how a server ends: python3 test_scgi_servers.py"""
import os
import pathlib
import signal
import socket
import subprocess
import sys
import tempfile
import threading
import time
import unittest
from typing import List, Optional

sys.path.insert(0, os.path.dirname(os.path.abspath(__file__)))
import scgi_apps as apps  # noqa: E402
from scgi_asking import (Answered, HERE, Server, Session, Settings, ask, environ_of_program,  # noqa: E402
                         interpreter_with, message, parts, program, read_all)


def children_of(run: "subprocess.Popen[str]") -> List[int]:
    told = subprocess.run(["ps", "-o", "pid=", "--ppid", str(run.pid)], stdout=subprocess.PIPE, text=True)
    return [int(word) for word in told.stdout.split()]


class Servers(unittest.TestCase):
    def test_threads_at_once(self) -> None:
        with Session(apps.slow, threads=8) as session:
            got: List[Answered] = []
            asks = [threading.Thread(target=lambda: got.append(session.ask(message()))) for _ in range(8)]
            began = time.monotonic()
            for it in asks:
                it.start()
            for it in asks:
                it.join()
            self.assertEqual([parts(it)[1] for it in got], [b"hello\n"] * 8)
            self.assertLess(time.monotonic() - began, 1.0)

    def test_unix_socket(self) -> None:
        with tempfile.TemporaryDirectory() as folder:
            path = folder + "/s"
            for _ in range(2):
                server = Server(apps.hello, Settings(unix=path, threads=2))
                self.assertIsNone(server.start())
                thread = threading.Thread(target=server.run)
                thread.start()
                with socket.socket(socket.AF_UNIX) as sock:
                    sock.connect(path)
                    sock.sendall(message())
                    self.assertEqual(parts(read_all(sock))[1], b"hello\n")
                server.stop()
                thread.join(10)
                server.close()
                self.assertFalse(os.path.exists(path))

    def test_a_file_is_no_socket_to_be_taken_away(self) -> None:
        with tempfile.NamedTemporaryFile() as file:
            with self.assertRaises(OSError):
                Server(apps.hello, Settings(unix=file.name)).start()
            self.assertTrue(os.path.exists(file.name))


class Programs(unittest.TestCase):
    def runs(self, *words: str, python: Optional[str] = None) -> None:
        """Asks it twenty times, and once while it is told to end: what is under way is answered still."""
        with program(*words, python=python or sys.executable) as (run, port):
            for _ in range(20):
                self.assertEqual(parts(ask(port))[1], b"hello\n")
            with socket.create_connection(("127.0.0.1", port), timeout=10) as sock:
                if "scgi_apps:slow" in words:
                    sock.sendall(message())
                    time.sleep(0.1)
                run.send_signal(signal.SIGTERM)
                if "scgi_apps:slow" in words:
                    self.assertEqual(parts(read_all(sock))[1], b"hello\n")
            self.assertEqual(run.wait(10), 0)

    def test_threads(self) -> None:
        self.runs("scgi_apps:hello")
        self.runs("scgi_apps:slow", "--threads", "2")

    def test_processes(self) -> None:
        self.runs("scgi_apps:hello", "--processes", "3")
        self.runs("scgi_apps:slow", "--processes", "2", "--threads", "2")

    def test_greenlets(self) -> None:
        python = interpreter_with("gevent")
        if not python:
            self.skipTest("no gevent")
        self.runs("scgi_apps:slow", "--greenlets", python=python)
        self.runs("scgi_apps:hello", "--greenlets", "--pool", "5", "--processes", "2", python=python)

    def test_greenlets_at_once(self) -> None:
        python = interpreter_with("gevent")
        if not python:
            self.skipTest("no gevent")
        with program("scgi_apps:slow", "--greenlets", python=python) as (_, port):
            socks = [socket.create_connection(("127.0.0.1", port), timeout=10) for _ in range(50)]
            began = time.monotonic()
            for sock in socks:
                sock.sendall(message())
            for sock in socks:
                self.assertEqual(parts(read_all(sock))[1], b"hello\n")
                sock.close()
            self.assertLess(time.monotonic() - began, 2.0)

    def wait_for_children(self, run: "subprocess.Popen[str]", count: int) -> None:
        ends = time.monotonic() + 10
        while len(children_of(run)) != count and time.monotonic() < ends:
            time.sleep(0.1)
        self.assertEqual(len(children_of(run)), count)

    def test_processes_that_end_are_begun_again(self) -> None:
        with program("scgi_apps:hello", "--processes", "2") as (run, port):
            for ends in (signal.SIGKILL, signal.SIGTERM):
                self.wait_for_children(run, 2)
                for child in children_of(run):
                    os.kill(child, ends)
                # One that ends takes a connection with it whose request it has not read.
                seen = [parts(ask(port))[1] for _ in range(40)]
                self.assertEqual(set(seen) - {b""}, {b"hello\n"})
            self.wait_for_children(run, 2)
            self.assertEqual(parts(ask(port))[1], b"hello\n")
            run.terminate()
            self.assertEqual(run.wait(10), 0)

    def test_the_next_one_has_the_port(self) -> None:
        with program("scgi_apps:hello", "--port", "0") as (run, port):
            again = subprocess.run([sys.executable, "-m", "gvr_scgi", "--chdir", str(HERE), "--port", str(port),
                                    "scgi_apps:hello"], capture_output=True, text=True, env=environ_of_program())
            self.assertEqual(again.returncode, 10)
            self.assertIn("gvr app: network fault: ", again.stderr)
            ask(port)
            run.terminate()
            run.wait(10)
            with program("scgi_apps:hello", "--port", str(port)) as (_, second):
                self.assertEqual((second, parts(ask(port))[1]), (port, b"hello\n"))


SHOP = """import threading
def application(environ, start_response):
    start_response("200 OK", [])
    return [b"%s"]
"""


class Reloads(unittest.TestCase):
    def answered(self, port: int, body: bytes) -> bytes:
        """The body that is answered, once it is this one, or after ten seconds."""
        ends = time.monotonic() + 10
        got = b""
        while got != body and time.monotonic() < ends:
            got = parts(ask(port))[1]
            time.sleep(0.05)
        return got

    def reloads(self, *words: str, python: str = sys.executable) -> None:
        with tempfile.TemporaryDirectory() as name:
            folder = pathlib.Path(name)
            (folder / "shop.py").write_text(SHOP % "one")
            with program("shop", "--reload", *words, folder=folder, python=python) as (run, port):
                self.assertEqual(parts(ask(port))[1], b"one")
                (folder / "shop.py").write_text(SHOP % "number two")
                self.assertEqual(self.answered(port, b"number two"), b"number two")
                (folder / "shop.py").write_text("def application(:\n")
                broken = b"The application can't be loaded: the standard error of its server says why.\n"
                self.assertEqual(self.answered(port, broken), broken)
                (folder / "shop.py").write_text("from other import application\n")
                self.assertEqual(parts(ask(port))[1], broken)
                (folder / "other.py").write_text(SHOP % "of another file")
                self.assertEqual(self.answered(port, b"of another file"), b"of another file")
                (folder / "other.py").write_text(SHOP % "changed there")
                self.assertEqual(self.answered(port, b"changed there"), b"changed there")
                run.terminate()
                self.assertEqual(run.wait(10), 0)

    def test_threads(self) -> None:
        self.reloads()

    def test_processes(self) -> None:
        self.reloads("--processes", "2", "--threads", "2")

    def test_greenlets(self) -> None:
        python = interpreter_with("gevent")
        if not python:
            self.skipTest("no gevent")
        self.reloads("--greenlets", python=python)


class Words(unittest.TestCase):
    def ends(self, *words: str, python: str = sys.executable, folder: pathlib.Path = HERE) -> "tuple[int, str]":
        run = subprocess.run([python, "-m", "gvr_scgi", "--port", "0", "--chdir", str(folder), *words],
                             capture_output=True, text=True, env=environ_of_program(), timeout=20)
        return run.returncode, run.stderr

    def test_what_can_not_be_loaded(self) -> None:
        for word, told in (("missing:app", "there is no module missing in %s" % HERE),
                           ("missing.part:app", "there is no module missing in %s" % HERE),
                           ("json.missing:app", "there is no module json.missing"),
                           ("scgi_apps:missing", "scgi_apps has no missing; there is: hello, echo, "),
                           ("scgi_apps", "scgi_apps has no application; there is: hello, "),
                           ("scgi_apps:NUMBER", "scgi_apps:NUMBER is no callable, it is 'int'"),
                           ("scgi_apps:NUMBER()", "scgi_apps:NUMBER() can't be called"),
                           ("scgi_apps:fails_to_make()", "scgi_apps:fails_to_make() raised ValueError"),
                           (":app", "a module without a name can't be imported")):
            for more in ((), ("--processes", "2")):
                status, err = self.ends(word, *more)
                self.assertEqual(status, 2, (word, more))
                self.assertIn("gvr app: " + told, err)
                self.assertEqual(err.count("gvr app: "), 1, err)

    def test_what_a_module_does_when_it_is_imported(self) -> None:
        with tempfile.TemporaryDirectory() as name:
            for text, told in (("import no_such_module_here", "shop imports no_such_module_here, which is not there"),
                               ("def x(:", "shop is no Python: line 1 of "), ("1 / 0", "shop raised ZeroDivisionError"),
                               ("from json import no_such_name", "shop can't be imported: cannot import name")):
                (pathlib.Path(name) / "shop.py").write_text(text)
                status, err = self.ends("shop:app", folder=pathlib.Path(name))
                self.assertEqual(status, 2)
                self.assertIn("gvr app: " + told, err)
                self.assertIn("Traceback", err)

    def test_other_words(self) -> None:
        for words, told in (("--host 0.0.0.0", "no loopback"), ("--threads 0", "threads is below 1"),
                            ("--greenlets --pool 0", "pool is below 1"), ("--port x", "invalid int"),
                            ("--greenlets --threads 5", "not allowed with"), ("--what", "unrecognized"),
                            ("--chdir /nowhere", "/nowhere")):
            status, err = self.ends("scgi_apps:hello", *words.split())
            self.assertNotEqual(status, 0)
            self.assertIn(told, err)

    def test_a_callable_that_makes_it(self) -> None:
        with program("scgi_apps:make()") as (_, port):
            self.assertEqual(parts(ask(port))[1], b"hello\n")

    def test_greenlets_without_gevent(self) -> None:
        with tempfile.TemporaryDirectory() as name:
            (pathlib.Path(name) / "gevent.py").write_text("raise ImportError('hidden')\n")
            (pathlib.Path(name) / "shop.py").write_text("application = print\n")
            status, err = self.ends("shop", "--greenlets", folder=pathlib.Path(name))
            self.assertEqual(status, 2)
            self.assertIn("gvr app: --greenlets wants gevent, which is not there for ", err)


if __name__ == "__main__":
    unittest.main()
