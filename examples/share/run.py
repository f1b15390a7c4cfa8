#!/usr/bin/env python3
"""Four processes of a small web service behind one `bulkhead share`.

    examples/share/run.py [PROGRAM]     PROGRAM is else $BULKHEAD_PROGRAM, what is built in crates/bulkhead/out, or what
                                        is installed

It shows two things: where one process finds a dependency down, all four are short-circuited with their next call; and where
a process is killed with ten permits in its hands, these are free at once. The status is 0 where it was so, 1 where it was
not, and 2 where there is no program. It wants the package `bulkhead`, installed or by PYTHONPATH.
"""

import os
import shutil
import subprocess
import sys
import tempfile
import threading
import time
from collections.abc import Callable
from contextlib import ExitStack, suppress
from http.server import BaseHTTPRequestHandler, ThreadingHTTPServer
from pathlib import Path
from typing import Any
from urllib.error import HTTPError
from urllib.request import urlopen

import bulkhead

HERE = Path(__file__).resolve().parent
SETTINGS = HERE / "settings.toml"
# how long something may take that is waited for, in seconds
PATIENCE = 20.0


class Dependency(BaseHTTPRequestHandler):
    """What the web service asks for stock and prices: it is up or down, and may be held up."""

    is_down = False
    go_on = threading.Event()

    def do_GET(self) -> None:
        self.go_on.wait(PATIENCE)
        _, name, item = self.path.split("/", 2)
        with suppress(BrokenPipeError):  # whoever asked was killed
            self.send_response(500 if self.is_down else 200)
            self.end_headers()
            self.wfile.write((f"{item}: 7 left" if name == "stock" else f"{item}: 12.50").encode())

    def log_message(self, format: str, *args: object) -> None:
        """Says nothing."""


class Web:
    """A web process: what it answers."""

    def __init__(self, number: int, process: "subprocess.Popen[str]") -> None:
        self.number, self.process = number, process
        assert process.stdout is not None
        port = process.stdout.readline()
        if not port:
            raise RuntimeError("a web process does not start")
        self._port = int(port)

    def get(self, path: str) -> str:
        """The text of an answer, which is the name of an error where the call came to one."""
        try:
            with urlopen(f"http://127.0.0.1:{self._port}/{path}", timeout=PATIENCE) as answer:
                text: str = answer.read().decode()
        except HTTPError as error:
            text = error.read().decode()
        except OSError:
            text = "no answer"  # the process was killed
        return text


class Show:
    """What is shown, and whether all was as it should be."""

    def __init__(self) -> None:
        self.is_right = True

    def says(self, web: Web, text: str, wanted: str) -> None:
        """Shows what a process answered, beside what it should have answered where that differs."""
        self.is_right &= text == wanted
        print(f"  process {web.number}: {text}" + ("" if text == wanted else f"   (should be: {wanted})"), flush=True)

    def holds(self, text: str, does: bool) -> None:
        """Shows something that should be so."""
        self.is_right &= does
        print(f"  {text}" + ("" if does else "   (should not be)"), flush=True)


def until(holds: Callable[[], Any]) -> float:
    """Waits until something holds, and tells how many milliseconds that took."""
    began = time.monotonic()
    while not holds():
        if time.monotonic() - began > PATIENCE:
            raise TimeoutError("it does not come to hold")
        time.sleep(0.0005)
    return 1000 * (time.monotonic() - began)


def short_circuited(show: Show, webs: list[Web], client: bulkhead.Client) -> None:
    """One process finds the dependency down."""
    print("Each process asks for stock:")
    for web in webs:
        show.says(web, web.get("stock/lamp"), "lamp: 7 left")
    Dependency.is_down = True
    print("The dependency goes down. Process 1 alone asks, until the circuit breaker opens:")
    until(lambda: webs[0].get("stock/lamp") == "ShortCircuited")
    failed = client.metrics("stock").failure
    show.holds(f"process 1: failed {failed} times, and is short-circuited now", failed > 0)
    print("One call of each process, three of which have seen no failure:")
    for web in webs:
        show.says(web, web.get("stock/lamp"), "ShortCircuited")
    Dependency.is_down = False
    print("The dependency comes back. After the sleep window one call is let through as a test, and closes the circuit:")
    until(lambda: webs[1].get("stock/lamp") == "lamp: 7 left")
    for web in webs:
        show.says(web, web.get("stock/lamp"), "lamp: 7 left")


def killed(show: Show, webs: list[Web], client: bulkhead.Client) -> None:
    """A process dies with all permits of a group in its hands."""
    last = webs[-1]
    Dependency.go_on.clear()
    asking = [threading.Thread(target=last.get, args=("prices/lamp",)) for _ in range(10)]
    for thread in asking:
        thread.start()
    until(lambda: client.metrics("prices").busy == 10)
    print("Prices are slow, and process 4 has ten calls under way, for all ten permits of the group:")
    show.says(webs[0], webs[0].get("prices/lamp"), "SemaphoreRejected")
    print("Process 4 is killed:")
    last.process.kill()
    took = until(lambda: client.metrics("prices").busy == 0)
    show.holds(f"its ten permits are free {took:.1f} milliseconds later", took < 1000)
    Dependency.go_on.set()
    for web in webs[:-1]:
        show.says(web, web.get("prices/lamp"), "lamp: 12.50")
    for thread in asking:
        thread.join()


def main(words: list[str]) -> int:
    built = HERE.parents[1] / "crates/bulkhead/out/bulkhead"
    named = words[0] if words else os.environ.get("BULKHEAD_PROGRAM")
    program = shutil.which(named) if named else shutil.which(str(built)) or shutil.which("bulkhead")
    if program is None:
        print("run.py: the program is not there: make, or name it", file=sys.stderr)
        return 2
    show = Show()
    with ExitStack() as stack:
        socket = str(Path(stack.enter_context(tempfile.TemporaryDirectory())) / "share.sock")
        started = started_by(stack)
        service = started(program, "share", SETTINGS, "--socket", socket)
        assert service.stdout is not None
        if not service.stdout.readline().startswith("listening"):
            print("run.py: the service does not start", file=sys.stderr)
            return 1
        Dependency.go_on.set()
        dependency = stack.enter_context(ThreadingHTTPServer(("127.0.0.1", 0), Dependency))
        stack.callback(dependency.shutdown)
        threading.Thread(target=dependency.serve_forever, daemon=True).start()
        processes = [started(sys.executable, HERE / "web.py", socket, SETTINGS, dependency.server_port) for _ in range(4)]
        webs = [Web(number, process) for number, process in enumerate(processes, 1)]
        client = stack.enter_context(bulkhead.connect(socket, SETTINGS))
        short_circuited(show, webs, client)
        killed(show, webs, client)
    print("as it should be" if show.is_right else "not as it should be")
    return 0 if show.is_right else 1


def started_by(stack: ExitStack) -> Callable[..., "subprocess.Popen[str]"]:
    """What starts a process that ends with the stack. Its input is kept open, which ends the service where it ends."""

    def started(*words: object) -> "subprocess.Popen[str]":
        process = subprocess.Popen(
            [str(word) for word in words], stdin=subprocess.PIPE, stdout=subprocess.PIPE, text=True
        )

        def end() -> None:
            process.terminate()
            process.communicate()

        stack.callback(end)
        return process

    return started


if __name__ == "__main__":
    sys.exit(main(sys.argv[1:]))
