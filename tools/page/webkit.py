"""A WebKit browser, which is the engine of Safari, that is driven by WebDriver, by the standard library alone: the
MiniBrowser of WebKitGTK, on a screen of Xvfb. It is asked as the Chromium of browser.py is."""
import base64
import json
import os
import pathlib
import shutil
import socket
import subprocess
import tempfile
import time
import urllib.error
import urllib.request
from typing import Any, Dict, List

from actions import Actions

# Keeps what goes wrong in the page from here on.
LISTENS = """
globalThis.faults = [];
addEventListener("error", (it) => faults.push({ text: it.message }));
addEventListener("unhandledrejection", (it) => faults.push({ text: String(it.reason) }));
"""


class WebKit(Actions):
    """A browser with one page. Its window is at least 447 wide."""

    NEEDS = "Xvfb"

    def __init__(self, program: str) -> None:
        self.room = tempfile.mkdtemp(prefix="gvr-webkit-")
        self.told: List[Dict[str, Any]] = []
        self.session = ""
        with open(f"{self.room}/log", "wb") as log:
            how: Dict[str, Any] = {"stdin": subprocess.DEVNULL, "stdout": log, "stderr": log}
            shown, number = os.pipe()
            words = [shutil.which("Xvfb") or "Xvfb", "-displayfd", str(number), "-screen", "0", "1600x1200x24", "-nolisten", "tcp"]
            self.screen = subprocess.Popen(words, pass_fds=(number,), **how)
            os.close(number)
            with os.fdopen(shown) as told:
                display = told.readline().strip()
            self.port = free_port()
            environment = {**os.environ, "DISPLAY": f":{display}", "GDK_BACKEND": "x11", "HOME": self.room}
            self.process = subprocess.Popen([program, f"--port={self.port}"], env=environment, **how)
        self.begin()

    def begin(self) -> None:
        """Asks for a page as soon as the driver listens."""
        until = time.time() + 60
        while True:
            try:
                self.session = "/session/" + self.ask("POST", "", capabilities={})["sessionId"]
                break
            except urllib.error.URLError:
                if time.time() > until or self.process.poll() is not None:
                    raise
                time.sleep(0.1)
        self.ask("POST", "/timeouts", script=120000)

    def ask(self, method: str, path: str, **given: Any) -> Any:
        where = f"http://127.0.0.1:{self.port}{self.session or '/session'}{path}"
        data = json.dumps(given).encode() if method == "POST" else None
        asked = urllib.request.Request(where, data, {"Content-Type": "application/json"}, method=method)
        try:
            with urllib.request.urlopen(asked, timeout=180) as answer:
                return json.load(answer)["value"]
        except urllib.error.HTTPError as fault:
            raise RuntimeError(f"{method} {path}: {fault.read().decode()[:500]}") from None

    def go(self, url: str) -> None:
        """Opens a page anew, also where only what stands behind `#` is another."""
        self.told = self.faults()
        for it in ("about:blank", url):
            self.ask("POST", "/url", url=it)
        self.define(LISTENS)

    def value(self, script: str, seconds: float = 120) -> Any:
        """What an expression of the page comes to, once it is settled."""
        whole = f"(async () => JSON.stringify([await ({script.strip().rstrip(';')})]))()"
        then = "(it) => done({ it }), (fault) => done({ fault: String(fault) })"
        said = self.ask("POST", "/execute/async", script=f"const done = arguments[0]; {whole}.then({then})", args=[])
        if "fault" in said:
            raise RuntimeError(said["fault"])
        return json.loads(said["it"])[0]

    def define(self, script: str) -> None:
        """Runs a script of the page that has no value."""
        self.ask("POST", "/execute/sync", script=script, args=[])

    def size(self, width: int, height: int) -> None:
        """Of the page, without what the window has around it."""
        around = [0, 0]
        for _ in range(2):
            self.ask("POST", "/window/rect", width=width + around[0], height=height + around[1])
            inside = self.value("[innerWidth, innerHeight]")
            around = [around[0] + width - inside[0], around[1] + height - inside[1]]

    def colours(self, scheme: str) -> None:
        """The colours are those of the system."""

    def screenshot(self, to: str) -> None:
        pathlib.Path(to).write_bytes(base64.b64decode(self.ask("GET", "/screenshot")))

    def perform(self, **given: Any) -> None:
        self.ask("POST", "/actions", actions=[{"id": given["type"], **given}])

    def faults(self) -> List[Any]:
        """What went wrong in the page."""
        return self.told + (self.value("globalThis.faults ?? []") or [])

    def close(self) -> None:
        try:
            self.ask("DELETE", "")
        except (OSError, RuntimeError):
            pass
        for it in (self.process, self.screen):
            it.terminate()
            it.wait(20)
        shutil.rmtree(self.room, ignore_errors=True)


def free_port() -> int:
    """A port that nobody listens on."""
    with socket.socket() as any_port:
        any_port.bind(("127.0.0.1", 0))
        return int(any_port.getsockname()[1])
