"""A headless Firefox that is driven by WebDriver BiDi over a WebSocket, by the standard library alone. It is asked as
the Chromium of browser.py is."""
import base64
import json
import os
import pathlib
import re
import shutil
import socket
import subprocess
import tempfile
import time
from typing import Any, Dict, List

from actions import Actions


class Socket:
    """The client's end of a WebSocket that carries texts."""

    def __init__(self, port: int, path: str) -> None:
        self.plain = socket.create_connection(("127.0.0.1", port), timeout=120)
        key = base64.b64encode(os.urandom(16)).decode()
        head = f"GET {path} HTTP/1.1\r\nHost: 127.0.0.1:{port}\r\nUpgrade: websocket\r\nConnection: Upgrade\r\n"
        self.plain.sendall(f"{head}Sec-WebSocket-Key: {key}\r\nSec-WebSocket-Version: 13\r\n\r\n".encode())
        self.kept = b""
        while b"\r\n\r\n" not in self.kept:
            self.more()
        answer, _, self.kept = self.kept.partition(b"\r\n\r\n")
        if b" 101 " not in answer:
            raise EOFError("the browser speaks no WebSocket")

    def more(self) -> None:
        came = self.plain.recv(1 << 20)
        if not came:
            raise EOFError("the browser ended")
        self.kept += came

    def take(self, count: int) -> bytes:
        while len(self.kept) < count:
            self.more()
        taken, self.kept = self.kept[:count], self.kept[count:]
        return taken

    def send(self, text: str) -> None:
        data, mask = text.encode(), os.urandom(4)
        size = len(data)
        length = bytes([128 | size]) if size < 126 else bytes([254]) + size.to_bytes(2, "big")
        if size > 65535:
            length = bytes([255]) + size.to_bytes(8, "big")
        # The mask of each byte, for the whole text at once.
        masks = int.from_bytes((mask * (size // 4 + 1))[:size], "big")
        masked = (int.from_bytes(data, "big") ^ masks).to_bytes(size, "big")
        self.plain.sendall(b"\x81" + length + mask + masked)

    def receive(self) -> str:
        """The next text, of all its frames."""
        whole = b""
        while True:
            first, second = self.take(2)
            size = second & 127
            if size > 125:
                size = int.from_bytes(self.take(2 if size == 126 else 8), "big")
            data = self.take(size)
            # 8 closes, 9 and 10 are of the line and no text.
            if first & 15 == 8:
                raise EOFError("the browser ended")
            if first & 15 < 8:
                whole += data
                if first & 128:
                    return whole.decode()


class Firefox(Actions):
    """A browser with one page."""

    NEEDS = "sh"

    def __init__(self, program: str) -> None:
        self.room = tempfile.mkdtemp(prefix="gvr-firefox-")
        preferences = 'user_pref("browser.shell.checkDefaultBrowser", false);\n'
        preferences += 'user_pref("datareporting.policy.dataSubmissionEnabled", false);\n'
        pathlib.Path(f"{self.room}/user.js").write_text(preferences)
        words = [program, "--headless", "--no-remote", "--profile", self.room, "--remote-debugging-port=0", "about:blank"]
        with open(f"{self.room}/log", "wb") as log:
            environment = {**os.environ, "MOZ_HEADLESS": "1"}
            self.process = subprocess.Popen(words, stdin=subprocess.DEVNULL, stdout=log, stderr=log, env=environment)
        self.last = 0
        self.told: List[Dict[str, Any]] = []
        self.socket = Socket(self.port(), "/session")
        self.ask("session.new", capabilities={})
        self.ask("session.subscribe", events=["log.entryAdded"])
        self.context = self.ask("browsingContext.getTree")["contexts"][0]["context"]

    def port(self) -> int:
        """The port that Firefox names in its log."""
        until = time.time() + 60
        while time.time() < until and self.process.poll() is None:
            said = re.search(r"listening on ws://127\.0\.0\.1:(\d+)", pathlib.Path(f"{self.room}/log").read_text())
            if said:
                return int(said[1])
            time.sleep(0.1)
        raise TimeoutError("Firefox did not begin to listen")

    def ask(self, method: str, **given: Any) -> Any:
        self.last += 1
        self.socket.send(json.dumps({"id": self.last, "method": method, "params": given}))
        while True:
            said = json.loads(self.socket.receive())
            if said.get("id") == self.last:
                if said["type"] == "error":
                    raise RuntimeError(f"{method}: {said['message']}")
                return said["result"]
            self.told.append(said)

    def go(self, url: str) -> None:
        """Opens a page anew, also where only what stands behind `#` is another."""
        for it in ("about:blank", url):
            self.ask("browsingContext.navigate", context=self.context, url=it, wait="complete")

    def value(self, script: str, seconds: float = 120) -> Any:
        """What an expression of the page comes to, once it is settled."""
        whole = f"(async () => JSON.stringify(await ({script.strip().rstrip(';')})))()"
        target = {"context": self.context}
        said = self.ask("script.evaluate", expression=whole, target=target, awaitPromise=True)
        if said["type"] == "exception":
            raise RuntimeError(said["exceptionDetails"]["text"])
        return json.loads(said["result"]["value"]) if said["result"]["type"] == "string" else None

    def define(self, script: str) -> None:
        """Runs a script of the page that has no value."""
        self.ask("script.evaluate", expression=script, target={"context": self.context}, awaitPromise=False)

    def size(self, width: int, height: int) -> None:
        viewport = {"width": width, "height": height}
        self.ask("browsingContext.setViewport", context=self.context, viewport=viewport)

    def colours(self, scheme: str) -> None:
        """The colours are those of the system."""

    def screenshot(self, to: str) -> None:
        data = self.ask("browsingContext.captureScreenshot", context=self.context)["data"]
        pathlib.Path(to).write_bytes(base64.b64decode(data))

    def perform(self, **given: Any) -> None:
        self.ask("input.performActions", context=self.context, actions=[{"id": given["type"], **given}])

    def faults(self) -> List[Any]:
        """What went wrong in the page."""
        entries = [it["params"] for it in self.told if it.get("method") == "log.entryAdded"]
        return [it for it in entries if it["level"] == "error"]

    def close(self) -> None:
        try:
            self.ask("browser.close")
        except (OSError, EOFError, RuntimeError):
            pass
        try:
            self.process.wait(20)
        except subprocess.TimeoutExpired:
            self.process.kill()
        shutil.rmtree(self.room, ignore_errors=True)
