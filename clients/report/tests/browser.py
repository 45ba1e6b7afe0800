"""A headless Chromium that is spoken to over two pipes, by the DevTools protocol: no network, no other package."""
from __future__ import annotations

import base64
import contextlib
import json
import os
import select
import shutil
import subprocess
import tempfile
import time
from typing import Any

NAMES = ("chromium", "chromium-browser", "google-chrome")


def found() -> str | None:
    """The path of a Chromium that is installed."""
    return next((path for path in map(shutil.which, NAMES) if path), None)


class Browser:
    """One page of a browser of its own. It keeps what the console tells, and each address that the page requests."""

    def __init__(self, path: str):
        self.folder = tempfile.TemporaryDirectory(prefix="report-browser-")
        words = [path, "--headless=new", "--no-sandbox", "--disable-gpu", "--remote-debugging-pipe", "--no-first-run", "--hide-scrollbars"]
        words += [f"--user-data-dir={self.folder.name}", "--disable-dev-shm-usage", "--disable-background-networking", "about:blank"]
        to_read, self.to = os.pipe()
        self.of, to_write = os.pipe()
        # (the browser reads from its file 3 and writes to its file 4)
        command = ["bash", "-c", f'exec 3<&{to_read} 4>&{to_write} "$@"', "chromium", *words]
        self.log = open(f"{self.folder.name}/log", "wb")
        self.process = subprocess.Popen(command, pass_fds=(to_read, to_write), stdin=subprocess.DEVNULL, stdout=self.log, stderr=self.log)
        os.close(to_read)
        os.close(to_write)
        self.rest, self.number, self.console, self.asked = b"", 0, [], []
        self.loaded = False
        self.session: str | None = None
        try:
            self._begin()
        except BaseException:
            # (nobody has it to close it)
            self._end()
            raise

    def _begin(self) -> None:
        target = self.call("Target.createTarget", url="about:blank")["targetId"]
        self.session = self.call("Target.attachToTarget", targetId=target, flatten=True)["sessionId"]
        for domain in ("Page", "Runtime", "Log", "Network"):
            self.call(f"{domain}.enable")

    def close(self) -> None:
        """Ends the browser."""
        with contextlib.suppress(OSError, RuntimeError, TimeoutError, subprocess.TimeoutExpired):
            self.session = None
            self.call("Browser.close")
            self.process.wait(10)
        self._end()

    def _end(self) -> None:
        """Kills the process, if it has not ended by itself, and lets go of its files."""
        self.process.kill()
        self.process.wait()
        self.log.close()
        os.close(self.to)
        os.close(self.of)
        self.folder.cleanup()

    def call(self, method: str, seconds: float = 60, **parameters: Any) -> dict[str, Any]:
        """Asks the browser for something and waits for its answer."""
        self.number += 1
        number, ask = self.number, {"id": self.number, "method": method, "params": parameters}
        if self.session:
            ask["sessionId"] = self.session
        os.write(self.to, json.dumps(ask).encode() + b"\0")
        end = time.monotonic() + seconds
        while (message := self._message(end)).get("id") != number:
            self._note(message)
        if "error" in message:
            raise RuntimeError(f"{method}: {message['error']}")
        return message["result"]

    def _message(self, end: float) -> dict[str, Any]:
        """The next message."""
        while b"\0" not in self.rest:
            if not select.select([self.of], [], [], max(end - time.monotonic(), 0))[0]:
                raise TimeoutError("the browser does not answer")
            more = os.read(self.of, 1 << 20)
            if not more:
                raise OSError("the browser has ended")
            self.rest += more
        one, self.rest = self.rest.split(b"\0", 1)
        return json.loads(one)

    def _note(self, message: dict[str, Any]) -> None:
        """Keeps what an event tells."""
        method, told = message.get("method", ""), message.get("params", {})
        if method == "Page.loadEventFired":
            self.loaded = True
        elif method == "Runtime.consoleAPICalled":
            self.console.append(" ".join(str(it.get("value", it.get("description"))) for it in told["args"]))
        elif method in ("Runtime.exceptionThrown", "Log.entryAdded"):
            self.console.append(json.dumps(told)[:600])
        elif method == "Network.requestWillBeSent":
            self.asked.append(told["request"]["url"])

    def open(self, path: str, fragment: str = "") -> None:
        """Opens a file anew and waits until it is loaded."""
        self._load("about:blank")
        self.console, self.asked = [], []
        self._load(f"file://{os.path.abspath(path)}{fragment}")

    def _load(self, url: str) -> None:
        self.loaded = False
        self.call("Page.navigate", url=url)
        end = time.monotonic() + 60
        while not self.loaded:
            self._note(self._message(end))

    def value(self, expression: str) -> Any:
        """What an expression of JavaScript comes to in the page."""
        answer = self.call("Runtime.evaluate", expression=expression, returnByValue=True, awaitPromise=True)
        if "exceptionDetails" in answer:
            raise RuntimeError(json.dumps(answer["exceptionDetails"])[:600])
        return answer["result"].get("value")

    def press(self, *keys: str) -> None:
        """Presses keys, one after another, as a user does."""
        codes = {"Tab": 9, "Enter": 13, "Escape": 27, "End": 35, "Home": 36, "ArrowLeft": 37, "ArrowUp": 38, "ArrowRight": 39, "ArrowDown": 40}
        for key in keys:
            told = {"key": key, "code": key, "windowsVirtualKeyCode": codes[key]}
            self.call("Input.dispatchKeyEvent", type="keyDown", **told, **({"text": "\r"} if key == "Enter" else {}))
            self.call("Input.dispatchKeyEvent", type="keyUp", **told)

    def point(self, x: float, y: float) -> None:
        """Moves the pointer to a place of the window."""
        self.call("Input.dispatchMouseEvent", type="mouseMoved", x=x, y=y)

    def size(self, width: int, height: int) -> None:
        """The size of the window, in pixels."""
        self.call("Emulation.setDeviceMetricsOverride", width=width, height=height, deviceScaleFactor=1, mobile=False)

    def media(self, scheme: str = "light", kind: str = "") -> None:
        """Whether the page is to be light or dark, and whether it is on paper (`print`)."""
        self.call("Emulation.setEmulatedMedia", media=kind, features=[{"name": "prefers-color-scheme", "value": scheme}])

    def picture(self, path: str, is_whole: bool = False) -> None:
        """Writes a picture of the window, or of the whole page, as PNG."""
        answer = self.call("Page.captureScreenshot", format="png", captureBeyondViewport=is_whole)
        with open(path, "wb") as it:
            it.write(base64.b64decode(answer["data"]))

    def paper(self, path: str) -> None:
        """Writes the page as it is printed, as PDF."""
        answer = self.call("Page.printToPDF", printBackground=True)
        with open(path, "wb") as it:
            it.write(base64.b64decode(answer["data"]))
