"""Headless Chromium by its pipe, with nothing but the standard library: a page is opened, looked at and typed into."""

from __future__ import annotations

import json
import os
import shutil
import subprocess
import tempfile
import threading
import time
from collections import deque
from typing import Any, Optional

PROGRAM = shutil.which("chromium")
_FLAGS = (
    "--headless=new --no-sandbox --no-zygote --disable-gpu --disable-software-rasterizer --no-first-run --disable-extensions --disable-background-networking "
    "--disable-dev-shm-usage --remote-debugging-pipe --hide-scrollbars"
)
_CODES = {"Tab": 9, "Enter": 13, "Escape": 27, "ArrowLeft": 37, "ArrowUp": 38, "ArrowRight": 39, "ArrowDown": 40}
# the clock of a page stands until a test moves it
_CLOCK = "window.hand = 1e6; performance.now = () => hand"
# how long anything may take, in seconds: the machine may be busy
PATIENCE = 300.0


class Chrome:
    """A browser with one page, whose clock a test moves."""

    def __init__(self) -> None:
        self._folder = tempfile.mkdtemp(prefix="bulkhead-chrome-")
        to_read, to_write = os.pipe()
        from_read, from_write = os.pipe()
        words = f"exec {PROGRAM} {_FLAGS} --user-data-dir={self._folder} about:blank 3<&{to_read} 4>&{from_write}"
        # the browser reads commands from 3, and writes answers to 4
        self._process = subprocess.Popen(
            ["bash", "-c", words],
            pass_fds=(to_read, from_write),
            stdin=subprocess.DEVNULL,
            stdout=subprocess.DEVNULL,
            stderr=subprocess.DEVNULL,
            env={**os.environ, "TZ": "UTC"},
        )
        os.close(to_read), os.close(from_write)
        self._to, self._from = os.fdopen(to_write, "wb", 0), from_read
        self._number, self._answers = 0, {}  # type: ignore[var-annotated]
        self.events: deque[dict[str, Any]] = deque(maxlen=20_000)
        self._told = threading.Condition()
        threading.Thread(target=self._read, daemon=True).start()
        target = self.browser("Target.createTarget", url="about:blank")["targetId"]
        self._session = self.browser("Target.attachToTarget", targetId=target, flatten=True)["sessionId"]
        for domain in ("Page", "Runtime", "Log", "Network"):
            self.call(f"{domain}.enable")
        self.call("Page.addScriptToEvaluateOnNewDocument", source=_CLOCK)
        self.size(1200, 900)

    def _read(self) -> None:
        rest = b""
        while piece := os.read(self._from, 1 << 16):
            *whole, rest = (rest + piece).split(b"\0")
            with self._told:
                for said in map(json.loads, whole):
                    if "id" in said:
                        self._answers[said["id"]] = said
                    else:
                        self.events.append(said)
                self._told.notify_all()

    def browser(self, method: str, session: Optional[str] = None, **params: Any) -> dict[str, Any]:
        """Asks the browser for something. Raises a RuntimeError where it refuses."""
        self._number += 1
        number = self._number
        asked = {"id": number, "method": method, "params": params, **({"sessionId": session} if session else {})}
        self._to.write(json.dumps(asked).encode() + b"\0")
        with self._told:
            if not self._told.wait_for(lambda: number in self._answers, PATIENCE):
                raise TimeoutError(method)
        said = self._answers.pop(number)
        if "error" in said:
            raise RuntimeError(f"{method}: {said['error']}")
        result: dict[str, Any] = said["result"]
        return result

    def call(self, method: str, **params: Any) -> dict[str, Any]:
        """Asks the page for something."""
        return self.browser(method, self._session, **params)

    def open(self, url: str) -> None:
        """Opens a page."""
        self.call("Page.navigate", url=url)

    def size(self, width: int, height: int) -> None:
        """Makes the window so large."""
        self.call("Emulation.setDeviceMetricsOverride", width=width, height=height, deviceScaleFactor=1, mobile=False)

    def media(self, **features: str) -> None:
        """Tells the page what its reader prefers."""
        told = [{"name": name.replace("_", "-"), "value": value} for name, value in features.items()]
        self.call("Emulation.setEmulatedMedia", features=told)

    def js(self, text: str) -> Any:
        """The value of an expression within the page."""
        said = self.call("Runtime.evaluate", expression=text, returnByValue=True, awaitPromise=True)
        if "exceptionDetails" in said:
            raise RuntimeError(f"{text}: {said['exceptionDetails']}")
        return said["result"].get("value")

    def wait(self, text: str) -> Any:
        """Waits until an expression is true."""
        end = time.monotonic() + PATIENCE
        while not (value := self.js(text)):
            assert time.monotonic() < end, f"it does not come to hold: {text}"
            time.sleep(0.02)
        return value

    def key(self, key: str) -> None:
        """Presses a key."""
        more = {"text": "\r"} if key == "Enter" else {}
        about = {"key": key, "code": key, "windowsVirtualKeyCode": _CODES[key]}
        self.call("Input.dispatchKeyEvent", type="keyDown", **about, **more)
        self.call("Input.dispatchKeyEvent", type="keyUp", **about)

    def of(self, method: str) -> list[dict[str, Any]]:
        """The events of a kind that came."""
        with self._told:
            return [event["params"] for event in self.events if event["method"] == method]

    def close(self) -> None:
        """Ends the browser."""
        try:
            self.browser("Browser.close")
            self._process.wait(PATIENCE)
        except (TimeoutError, OSError, subprocess.TimeoutExpired):
            self._process.kill()
        shutil.rmtree(self._folder, ignore_errors=True)
