"""A browser driven through its debugging pipe: pages opened, mouse and keys, pictures."""

import base64
import json
import os
import re
import select
import shutil
import signal
import subprocess
import tempfile
import time
from pathlib import Path
from typing import Any, Optional

# Generous: a machine may have much else to do.
SECONDS_OF_AN_ANSWER = 7200
SECONDS_OF_AN_END = 20
# (the superuser's browser has no sandbox; no host but this one is found, so nothing goes into a network)
_FLAGS = (
    "--headless",
    "--no-sandbox",
    "--no-first-run",
    "--disable-gpu",
    "--hide-scrollbars",
    "--disable-dev-shm-usage",
    "--disable-background-networking",
    "--host-resolver-rules=MAP * ~NOTFOUND, EXCLUDE 127.0.0.1",
    "--remote-debugging-pipe",
)


class BrowserError(Exception):
    """What a browser refused, or a page's script threw."""


class BrowserGoneError(BrowserError):
    """The browser has ended, or doesn't answer."""


class Browser:
    """A headless Chromium with one page."""

    def __init__(self, program: str):
        # (a socket in it needs a short path, wherever temporary files are)
        self._room = tempfile.mkdtemp(prefix="pops-browser-", dir="/tmp")
        ours_in, theirs_out = os.pipe()
        theirs_in, ours_out = os.pipe()

        def take_pipes() -> None:
            # First out of the way of 3 and 4, which the browser reads and writes.
            read, write = os.dup(theirs_in), os.dup(theirs_out)
            os.dup2(read, 3)
            os.dup2(write, 4)

        self._process = subprocess.Popen(
            [program, *_FLAGS, f"--user-data-dir={self._room}", "about:blank"],
            stdin=subprocess.DEVNULL,
            stdout=subprocess.DEVNULL,
            stderr=subprocess.DEVNULL,
            close_fds=False,
            env={**os.environ, "TMPDIR": self._room},
            preexec_fn=take_pipes,
            start_new_session=True,
        )
        os.close(theirs_in)
        os.close(theirs_out)
        self._in, self._out = ours_in, ours_out
        self._kept = b""
        self._number = 0
        self._session: Optional[str] = None
        self.events: list[dict[str, Any]] = []
        try:
            self._attach()
        except BrowserError:
            self.close()
            raise

    def _attach(self) -> None:
        target = self.call("Target.createTarget", url="about:blank")["targetId"]
        attached = self.call("Target.attachToTarget", targetId=target, flatten=True)
        self._session = attached["sessionId"]
        for part in ("Page", "Runtime", "Network", "Log"):
            self.call(f"{part}.enable")

    def close(self) -> None:
        """Ends the browser with all its processes."""
        self._process.terminate()
        try:
            self._process.wait(SECONDS_OF_AN_END)
        except subprocess.TimeoutExpired:
            os.killpg(self._process.pid, signal.SIGKILL)
            self._process.wait()
        os.close(self._in)
        os.close(self._out)
        shutil.rmtree(self._room, ignore_errors=True)

    def _message(self, seconds: float) -> dict[str, Any]:
        end = time.monotonic() + seconds
        while b"\0" not in self._kept:
            ready, _, _ = select.select([self._in], [], [], max(0, end - time.monotonic()))
            if not ready:
                raise BrowserGoneError("the browser doesn't answer")
            part = os.read(self._in, 1 << 20)
            if not part:
                raise BrowserGoneError("the browser has gone")
            self._kept += part
        message, self._kept = self._kept.split(b"\0", 1)
        found: dict[str, Any] = json.loads(message)
        return found

    def call(self, method: str, **parameters: Any) -> dict[str, Any]:
        """Calls a method of the browser; returns its result."""
        self._number += 1
        asked: dict[str, Any] = {"id": self._number, "method": method, "params": parameters}
        if self._session is not None:
            asked["sessionId"] = self._session
        data = json.dumps(asked).encode() + b"\0"
        try:
            while data:
                data = data[os.write(self._out, data) :]
        except BrokenPipeError:
            raise BrowserGoneError("the browser has gone") from None
        while True:
            message = self._message(SECONDS_OF_AN_ANSWER)
            if message.get("id") == self._number:
                if "error" in message:
                    raise BrowserError(f"{method}: {message['error']}")
                result: dict[str, Any] = message["result"]
                return result
            self.events.append(message)

    def allow(self, *permissions: str) -> None:
        """Gives all pages these permissions."""
        own, self._session = self._session, None
        self.call("Browser.grantPermissions", permissions=permissions)
        self._session = own

    def run(self, script: str) -> Any:
        """The value of a script in the page."""
        said = self.call(
            "Runtime.evaluate", expression=script, returnByValue=True, awaitPromise=True
        )
        if "exceptionDetails" in said:
            raise BrowserError(f"{script}: {said['exceptionDetails']}")
        return said["result"].get("value")

    def wait(self, script: str, seconds: float = SECONDS_OF_AN_ANSWER) -> None:
        """Waits until a script's value is true."""
        end = time.monotonic() + seconds
        while not self._holds(script):
            if time.monotonic() > end:
                raise BrowserError(f"it stays untrue: {script}")
            time.sleep(0.05)

    def _holds(self, script: str) -> bool:
        """Whether a script's value is true; it isn't while a page gives way to another."""
        try:
            return bool(self.run(script))
        except BrowserGoneError:
            raise
        except BrowserError as error:
            if re.search("context|navigated", str(error)):
                return False
            raise

    def open(self, address: str, ready: str = "true") -> None:
        """Opens a page in place of the one before."""
        self.call("Page.navigate", url="about:blank")
        # (a page that may ask whether to leave it is left later)
        self.wait("location.href === 'about:blank'")
        self.call("Page.navigate", url=address)
        self.wait("document.readyState === 'complete' && location.href !== 'about:blank'")
        self.wait(ready)

    def size(self, width: int, height: int) -> None:
        self.call(
            "Emulation.setDeviceMetricsOverride",
            width=width,
            height=height,
            deviceScaleFactor=1,
            mobile=False,
        )

    def middle(self, selector: str) -> tuple[float, float]:
        """Where the middle of an element is, after it was scrolled into sight."""
        found = self.run(
            f"(() => {{ const it = document.querySelector({json.dumps(selector)});"
            " it.scrollIntoView({block: 'nearest'}); const box = it.getBoundingClientRect();"
            " return [box.left + box.width / 2, box.top + box.height / 2]; })()"
        )
        return found[0], found[1]

    def mouse(self, kind: str, place: tuple[float, float], button: str = "left") -> None:
        self.call(
            "Input.dispatchMouseEvent",
            type=kind,
            x=place[0],
            y=place[1],
            button=button,
            buttons=1 if kind == "mouseMoved" and button == "left" else 0,
            clickCount=1,
        )

    def click(self, selector: str, button: str = "left") -> None:
        place = self.middle(selector)
        self.mouse("mouseMoved", place, "none")
        self.mouse("mousePressed", place, button)
        self.mouse("mouseReleased", place, button)

    def drag(self, start: str, end: str) -> None:
        """Drags from the middle of one element to the middle of another, with the mouse."""
        self.middle(end)
        first, last = self.middle(start), self.middle(end)
        half = ((first[0] + last[0]) / 2, (first[1] + last[1]) / 2)
        self.mouse("mouseMoved", first, "none")
        self.mouse("mousePressed", first)
        self.mouse("mouseMoved", half)
        self.mouse("mouseMoved", last)
        self.mouse("mouseReleased", last)

    def touch(self, selector: str) -> None:
        x, y = self.middle(selector)
        self.call("Input.dispatchTouchEvent", type="touchStart", touchPoints=[{"x": x, "y": y}])
        self.call("Input.dispatchTouchEvent", type="touchEnd", touchPoints=[])

    def key(self, key: str, code: str = "", text: str = "", modifiers: int = 0) -> None:
        for kind in ("keyDown", "keyUp"):
            typed = {"text": text} if text and kind == "keyDown" else {}
            self.call(
                "Input.dispatchKeyEvent",
                type=kind,
                key=key,
                code=code or key,
                modifiers=modifiers,
                **typed,
            )

    def picture(self, target: Path) -> None:
        shot = self.call("Page.captureScreenshot", format="png")
        target.write_bytes(base64.b64decode(shot["data"]))

    def printed(self) -> bytes:
        """The page as a file for printers, PDF."""
        said = self.call("Page.printToPDF", preferCSSPageSize=True, printBackground=False)
        return base64.b64decode(said["data"])
