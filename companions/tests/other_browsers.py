"""Browsers that don't speak Chromium's protocol: Firefox by Marionette, WebKit (Safari's engine) by WebDriver."""

import glob
import json
import os
import shutil
import signal
import socket
import subprocess
import tempfile
import time
import urllib.error
import urllib.request
from collections.abc import Iterator, Sequence
from pathlib import Path
from typing import Any, Optional, Union

from tests.browser_pipe import BrowserError

# Generous: a machine may have much else to do.
SECONDS_OF_A_START = 7200
SECONDS_OF_AN_ANSWER = 7200
SECONDS_OF_AN_END = 20
# A new profile contacts no server and opens no page by itself.
_PREFERENCES = """user_pref("marionette.port", 0);
user_pref("app.normandy.enabled", false);
user_pref("app.update.enabled", false);
user_pref("browser.shell.checkDefaultBrowser", false);
user_pref("browser.startup.homepage_override.mstone", "ignore");
user_pref("datareporting.policy.dataSubmissionEnabled", false);
user_pref("network.captive-portal-service.enabled", false);
user_pref("network.connectivity-service.enabled", false);
user_pref("services.settings.server", "");
user_pref("toolkit.telemetry.enabled", false);
"""


def _within(seconds: float, what: str) -> Iterator[None]:
    """Gives time to try again, and raises BrowserError once it is over."""
    end = time.monotonic() + seconds
    while time.monotonic() < end:
        yield
        time.sleep(0.05)
    raise BrowserError(f"not in {seconds} s: {what}")


class OtherBrowser:
    """A browser with one page, and the processes that drive it."""

    def __init__(self) -> None:
        self.room = Path(tempfile.mkdtemp(prefix="pops-browser-"))
        self._processes: list["subprocess.Popen[bytes]"] = []

    def start(self, words: Sequence[str], keeps: Sequence[int] = (), **settings: str) -> None:
        """Starts a process of this browser, which inherits these files."""
        process = subprocess.Popen(
            words,
            stdin=subprocess.DEVNULL,
            stdout=subprocess.DEVNULL,
            stderr=subprocess.DEVNULL,
            pass_fds=keeps,
            start_new_session=True,
            env={**os.environ, "HOME": str(self.room), **settings},
        )
        self._processes.append(process)

    def close(self) -> None:
        """Ends the browser with all its processes."""
        for process in reversed(self._processes):
            os.killpg(process.pid, signal.SIGTERM)
            try:
                process.wait(SECONDS_OF_AN_END)
            except subprocess.TimeoutExpired:
                os.killpg(process.pid, signal.SIGKILL)
                process.wait()
        shutil.rmtree(self.room, ignore_errors=True)

    def open(self, address: str) -> None:
        """Opens a page."""
        raise NotImplementedError

    def run(self, script: str) -> Any:
        """Runs a script, which returns its value by `return`."""
        raise NotImplementedError

    def wait(self, value: str) -> None:
        """Waits until a value is true."""
        for _ in _within(SECONDS_OF_AN_ANSWER, value):
            if self.run(f"return Boolean({value})"):
                return


class Firefox(OtherBrowser):
    """A headless Firefox."""

    def __init__(self, program: str):
        super().__init__()
        self._kept, self._number = b"", 0
        (self.room / "user.js").write_text(_PREFERENCES, "ascii")
        self.start([program, "--headless", "--marionette", "--no-remote", "--profile", str(self.room)])
        try:
            self._socket = self._connected()
            self._message()
            self._call("WebDriver:NewSession")
        except (OSError, BrowserError):
            self.close()
            raise

    def _connected(self) -> socket.socket:
        port = self.room / "MarionetteActivePort"
        for _ in _within(SECONDS_OF_A_START, "Firefox begins"):
            if port.exists() and port.read_text("ascii").strip():
                break
        place = ("127.0.0.1", int(port.read_text("ascii")))
        return socket.create_connection(place, SECONDS_OF_AN_ANSWER)

    def _more(self) -> None:
        part = self._socket.recv(1 << 20)
        if not part:
            raise BrowserError("the browser has gone")
        self._kept += part

    def _message(self) -> Any:
        """Receives a message: its length, a colon, its text."""
        while b":" not in self._kept:
            self._more()
        length, self._kept = self._kept.split(b":", 1)
        while len(self._kept) < int(length):
            self._more()
        message, self._kept = self._kept[: int(length)], self._kept[int(length) :]
        return json.loads(message)

    def _call(self, name: str, **parameters: Any) -> Any:
        self._number += 1
        data = json.dumps([0, self._number, name, parameters]).encode()
        self._socket.sendall(b"%d:%s" % (len(data), data))
        _, _, fault, result = self._message()
        if fault:
            raise BrowserError(f"{name}: {fault.get('message')}")
        return result

    def open(self, address: str) -> None:
        self._call("WebDriver:Navigate", url=address)

    def run(self, script: str) -> Any:
        return self._call("WebDriver:ExecuteScript", script=script, args=[])["value"]

    def close(self) -> None:
        if hasattr(self, "_socket"):
            self._socket.close()
        super().close()


def _free_port() -> int:
    with socket.socket() as found:
        found.bind(("127.0.0.1", 0))
        port: int = found.getsockname()[1]
        return port


class WebKit(OtherBrowser):
    """WebKitGTK's small browser, on a display of its own."""

    def __init__(self, program: str):
        super().__init__()
        self._address = f"http://127.0.0.1:{_free_port()}"
        try:
            port = self._address.rpartition(":")[2]
            self.start(["WebKitWebDriver", f"--port={port}"], DISPLAY=self._display())
            options = {"binary": program, "args": ["--automation"]}
            wanted = {"alwaysMatch": {"webkitgtk:browserOptions": options}}
            self._session = f"/session/{self._begun(wanted)['sessionId']}"
        except BrowserError:
            self.close()
            raise

    def _display(self) -> str:
        """Starts a display; returns its name."""
        ours, theirs = os.pipe()
        self.start(["Xvfb", "-displayfd", str(theirs), "-screen", "0", "1300x1000x24"], [theirs])
        os.close(theirs)
        with os.fdopen(ours) as said:
            number = said.readline().strip()
        if not number:
            raise BrowserError("there is no display")
        return f":{number}"

    def _begun(self, wanted: dict[str, Any]) -> Any:
        for _ in _within(SECONDS_OF_A_START, "WebKit begins"):
            try:
                return self._call("/session", {"capabilities": wanted})
            except urllib.error.URLError:
                pass
        raise AssertionError

    def _call(self, path: str, body: dict[str, Any]) -> Any:
        asked = urllib.request.Request(
            self._address + path, json.dumps(body).encode(), {"Content-Type": "application/json"}
        )
        try:
            with urllib.request.urlopen(asked, timeout=SECONDS_OF_AN_ANSWER) as said:
                return json.load(said)["value"]
        except urllib.error.HTTPError as fault:
            raise BrowserError(f"{path}: {fault.read().decode()}") from None

    def open(self, address: str) -> None:
        self._call(f"{self._session}/url", {"url": address})

    def run(self, script: str) -> Any:
        return self._call(f"{self._session}/execute/sync", {"script": script, "args": []})


def _firefox() -> Optional[str]:
    return shutil.which("firefox-esr") or shutil.which("firefox")


def _webkit() -> Optional[str]:
    if not shutil.which("WebKitWebDriver") or not shutil.which("Xvfb"):
        return None
    found = sorted(glob.glob("/usr/lib/*/webkit2gtk-4*/MiniBrowser"))
    return found[-1] if found else None


Kind = Union[type[Firefox], type[WebKit]]
# Each browser: its name, its class, its program where it is installed, and what to install.
KINDS: tuple[tuple[str, Kind, Optional[str], str], ...] = (
    ("Firefox", Firefox, _firefox(), "Debian's firefox-esr"),
    ("WebKit", WebKit, _webkit(), "Debian's webkit2gtk-driver and xvfb"),
)
