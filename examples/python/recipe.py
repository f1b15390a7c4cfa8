"""What the recipes share: a dependency that fails when it is told to, programs that are started and ended, and replays."""

from __future__ import annotations

import json
import os
import signal
import socket
import subprocess
import sys
import tempfile
import threading
import time
import urllib.error
import urllib.request
from collections import Counter
from collections.abc import Callable, Iterator
from concurrent.futures import ThreadPoolExecutor
from contextlib import contextmanager
from http.server import BaseHTTPRequestHandler, ThreadingHTTPServer
from pathlib import Path
from typing import Any, Optional

# how long anything may take that a recipe waits for, in seconds
PATIENCE = 60
PROGRAM = os.environ.get("BULKHEAD_PROGRAM", "")


class _Server(ThreadingHTTPServer):
    """A server for many connections at once, whose threads hold no end up."""

    daemon_threads, request_queue_size = True, 256


class Dependency:
    """A server that answers each path by a price, or as it is told: by a status, and after a delay."""

    def __init__(self) -> None:
        self.status, self.asked = 200, Counter[str]()
        self._go_on = threading.Event()
        self._go_on.set()
        outer = self

        class Handler(BaseHTTPRequestHandler):
            def do_GET(self) -> None:
                outer.answer(self)

            def log_message(self, *_: Any) -> None:
                """Says nothing."""

        self._server = _Server(("127.0.0.1", 0), Handler)
        self.url = f"http://127.0.0.1:{self._server.server_port}"
        threading.Thread(target=self._server.serve_forever, daemon=True).start()

    def answer(self, request: BaseHTTPRequestHandler) -> None:
        """Answers a request."""
        self.asked[request.path] += 1
        self._go_on.wait(PATIENCE)
        body = json.dumps({"item": request.path.strip("/"), "price": 7}).encode()
        try:
            request.send_response(404 if request.path.endswith("unicorn") else self.status)
            request.send_header("Content-Type", "application/json")
            request.send_header("Content-Length", str(len(body)))
            request.end_headers()
            request.wfile.write(body)
        except OSError:
            pass  # whoever asked waits no more

    @contextmanager
    def down(self) -> Iterator[None]:
        """Within it every answer has the status 503."""
        self.status = 503
        try:
            yield
        finally:
            self.status = 200

    @contextmanager
    def hanging(self) -> Iterator[None]:
        """Within it nothing is answered."""
        self._go_on.clear()
        try:
            yield
        finally:
            self._go_on.set()


def until(holds: Callable[[], Any], what: str) -> Any:
    """Waits until something holds, and gives it."""
    end = time.monotonic() + PATIENCE
    while not (told := holds()):
        assert time.monotonic() < end, f"it does not come: {what}"
        time.sleep(0.02)
    return told


def free_port() -> int:
    """A port that nobody listens on."""
    with socket.create_server(("127.0.0.1", 0)) as one:
        port: int = one.getsockname()[1]
        return port


def get(url: str) -> tuple[int, Any]:
    """The status and the answer of a URL: what its JSON says, or its text."""
    try:
        with urllib.request.urlopen(url, timeout=PATIENCE) as answer:
            status, body = answer.status, answer.read().decode()
    except urllib.error.HTTPError as error:
        status, body = error.code, error.read().decode()
    try:
        return status, json.loads(body)
    except ValueError:
        return status, body


def load(url: str, times: int, at_once: int = 8) -> list[tuple[int, Any]]:
    """The answers to so many requests, of which some are made at once."""
    with ThreadPoolExecutor(at_once) as pool:
        return [*pool.map(get, [url] * times)]


@contextmanager
def program(*words: str, folder: Path, ready: Optional[str] = None, **environment: str) -> Iterator[subprocess.Popen[bytes]]:
    """A program that runs within it, from when a URL answers on, and is asked to end behind it."""
    env = {**os.environ, **environment}
    run = subprocess.Popen(words, cwd=folder, env=env, stdin=subprocess.DEVNULL, start_new_session=True)
    try:
        if ready is not None:
            until(lambda: run.poll() is not None or _answers(ready), f"{words[0]} is ready")
            assert run.poll() is None, f"{words[0]} ended with status {run.returncode}"
        yield run
    finally:
        run.send_signal(signal.SIGTERM)
        try:
            run.wait(PATIENCE)
        except subprocess.TimeoutExpired:
            os.killpg(run.pid, signal.SIGKILL)
            raise


def _answers(url: str) -> bool:
    try:
        return get(url)[0] < 500
    except OSError:
        return False


def scratch() -> Path:
    """A folder for records, which is left for a look where a recipe fails."""
    return Path(tempfile.mkdtemp(prefix="bulkhead-"))


def replay(folder: Path, at_least: int = 1) -> int:
    """Has the program answer each record of a folder, and compares: how many records there are.

    A record whose process was killed has lines without their replies, or the other way round, at its end.
    """
    records = sorted(path for path in folder.glob("record*.jsonl") if path.stat().st_size)
    assert len(records) >= at_least, f"{len(records)} records in {folder}"
    for record in records if PROGRAM else ():
        replies = record.with_name(record.name.replace("record", "replies")).read_bytes()
        asked = [PROGRAM, "run", str(record.with_suffix(".toml"))]
        told = subprocess.run(asked, input=record.read_bytes(), capture_output=True, check=True).stdout
        assert told == replies, f"other replies to {record}"
    return len(records)


def say(text: str) -> None:
    """Tells what was found."""
    print(f"  {text}", file=sys.stderr, flush=True)
