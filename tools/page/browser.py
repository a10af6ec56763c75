"""A headless Chromium that is driven over its DevTools pipe, by the standard library alone."""
import base64
import json
import os
import select
import shutil
import subprocess
import tempfile
import time


class Browser:
    """A browser with one page. It is asked by the DevTools protocol: JSON, ended by NUL, over two pipes."""

    NEEDS = "sh"

    def __init__(self, program):
        self.room = tempfile.mkdtemp(prefix="gvr-browser-")
        asked, self.asks = os.pipe()
        self.answers, answered = os.pipe()
        words = [program, "--headless=new", "--no-sandbox", "--disable-gpu", "--no-first-run", "--hide-scrollbars"]
        words += ["--remote-debugging-pipe", f"--user-data-dir={self.room}", "about:blank"]
        # The browser reads what it is asked from 3, and answers to 4.
        shell = ["sh", "-c", f'exec "$@" 3<&{asked} 4>&{answered}', "sh", *words]
        with open(f"{self.room}/log", "wb") as log:
            streams = {"stdin": subprocess.DEVNULL, "stdout": log, "stderr": log}
            self.process = subprocess.Popen(shell, pass_fds=(asked, answered), **streams)
        os.close(asked)
        os.close(answered)
        self.kept, self.last, self.session, self.told = b"", 0, None, []
        page = next(it for it in self.ask("Target.getTargets")["targetInfos"] if it["type"] == "page")
        self.session = self.ask("Target.attachToTarget", targetId=page["targetId"], flatten=True)["sessionId"]
        for it in ("Page", "Runtime", "Log"):
            self.ask(f"{it}.enable")

    def message(self, until):
        """The next message; what comes later than that is no answer."""
        while b"\0" not in self.kept:
            left = until - time.time()
            if left <= 0 or not select.select([self.answers], [], [], left)[0]:
                raise TimeoutError("the browser did not answer")
            more = os.read(self.answers, 1 << 20)
            if not more:
                raise EOFError("the browser ended")
            self.kept += more
        one, _, self.kept = self.kept.partition(b"\0")
        return json.loads(one)

    def ask(self, method, seconds=120, **given):
        """The answer to a method; what is told on the way is kept in `told`."""
        self.last += 1
        message = {"id": self.last, "method": method, "params": given}
        if self.session:
            message["sessionId"] = self.session
        whole, at = json.dumps(message).encode() + b"\0", 0
        while at < len(whole):
            at += os.write(self.asks, whole[at:])
        until = time.time() + seconds
        while True:
            said = self.message(until)
            if said.get("id") != self.last:
                self.told.append(said)
            elif "error" in said:
                raise RuntimeError(f"{method}: {said['error']}")
            else:
                return said["result"]

    def go(self, url):
        """Opens a page anew, also where only what stands behind `#` is another."""
        self.ask("Page.navigate", url="about:blank")
        self.ask("Page.navigate", url=url)
        while self.value("location.href") == "about:blank" or self.value("document.readyState") != "complete":
            time.sleep(0.02)

    def value(self, script, seconds=120):
        """What an expression of the page comes to, once it is settled."""
        said = self.ask("Runtime.evaluate", seconds, expression=script, awaitPromise=True, returnByValue=True)
        if "exceptionDetails" in said:
            raise RuntimeError(said["exceptionDetails"].get("exception", {}).get("description", "an exception"))
        return said["result"].get("value")

    def define(self, script):
        """Runs a script of the page that has no value."""
        self.value(f"{script}; true")

    def click(self, x, y):
        for kind in ("mouseMoved", "mousePressed", "mouseReleased"):
            self.ask("Input.dispatchMouseEvent", type=kind, x=x, y=y, button="left", clickCount=1)

    def size(self, width, height):
        self.ask("Emulation.setDeviceMetricsOverride", width=width, height=height, deviceScaleFactor=1, mobile=False)

    def colours(self, scheme):
        """Has the page drawn as by a user whose system is `light` or `dark`."""
        self.ask("Emulation.setEmulatedMedia", features=[{"name": "prefers-color-scheme", "value": scheme}])

    def screenshot(self, to):
        with open(to, "wb") as file:
            file.write(base64.b64decode(self.ask("Page.captureScreenshot", format="png")["data"]))

    def press(self, key, code, number, modifiers=0):
        """Presses a key with modifiers: 1 is Alt, 2 Ctrl, 8 Shift."""
        for kind in ("rawKeyDown", "keyUp"):
            key_of = {"key": key, "code": code, "windowsVirtualKeyCode": number, "modifiers": modifiers}
            self.ask("Input.dispatchKeyEvent", type=kind, **key_of)

    def faults(self):
        """What went wrong in the page."""
        is_fault = lambda it: it["method"] == "Runtime.exceptionThrown" or (
            it["method"] == "Log.entryAdded" and it["params"]["entry"]["level"] == "error"
        )
        return [it["params"] for it in self.told if is_fault(it)]

    def close(self):
        self.session = None
        try:
            self.ask("Browser.close", 5)
        except (OSError, EOFError, RuntimeError):
            pass
        try:
            self.process.wait(5)
        except subprocess.TimeoutExpired:
            self.process.kill()
        os.close(self.asks)
        os.close(self.answers)
        shutil.rmtree(self.room, ignore_errors=True)
