"""Tries to hold up a service: by a standard error that nobody reads, by clients that read nothing, do not end or are too
many, and by the order in which it is ended.

    python3 held.py PROGRAM PORT

Each case has a limit: whatever is tried, another client is answered, up to the connections allowed, and the service ends
within two seconds of the end of its standard input.
"""

from __future__ import annotations

import os
import re
import signal
import socket
import subprocess
import sys
import tempfile
import threading
import time
from collections.abc import Callable, Iterator
from contextlib import contextmanager, suppress
from dataclasses import dataclass
from pathlib import Path

from tried_service import ADDRESS, PATIENCE, Failed, Service, ask, call

SETTINGS = 'service.groups = ["a", "b"]\nhystrix.command.default.execution.timeout.enabled = false\n'
SUPERVISED = Path(__file__).resolve().parent.parent / "examples" / "serve" / "supervised.sh"
# So long a service may take to end, in seconds.
LIMIT = 2.0
# As many texts as fill a pipe of 64 KiB and the queue before it.
BAD_LINES = 7000
GROUPS = b'{"op":"groups"}\n'
HI = '{"body":"hi","reply":"value"}'
STOPPED = '{"error":"stopped"}'


@dataclass
class Trial:
    """A service that is tried, and the reading end of its standard error."""

    service: Service
    reader: int

    def connect(self) -> socket.socket:
        """A new connection."""
        return self.service.connect()

    def kept(self) -> None:
        """Asserts that another client is answered."""
        with self.connect() as other:
            expect("another client is answered", ask(other, call("b", "hi")), HI)

    def texts(self) -> list[str]:
        """What stands in the pipe of a service that has ended."""
        taken = b""
        while piece := os.read(self.reader, 65536):
            taken += piece
        return taken.decode().splitlines()


def expect(what: str, found: object, wanted: object) -> None:
    """Asserts that it is what is wanted."""
    if found != wanted:
        raise Failed(f"{what}: {found!r} in the place of {wanted!r}")


def hears_nothing(client: socket.socket) -> None:
    """Asserts that nothing comes for a while."""
    client.settimeout(0.3)
    with suppress(TimeoutError):
        raise Failed(f"a client that waits for its turn hears {client.recv(64)!r}")
    client.settimeout(PATIENCE)


def rest_of(client: socket.socket) -> bytes:
    """What still comes over a connection until it ends, in order or not."""
    taken = b""
    with suppress(ConnectionError):
        while piece := client.recv(65536):
            taken += piece
    return taken


def ask_on(client: socket.socket) -> int:
    """Sends short lines until none is taken any more, and returns how many bytes of them were."""
    sent = 0
    client.settimeout(0.5)
    with suppress(TimeoutError):
        while True:
            sent += client.send(GROUPS * 64)
    client.settimeout(PATIENCE)
    return sent


def full_pipe(trial: Trial) -> str:
    """Bad lines, one connection each, until nobody takes their texts any more."""
    for _ in range(BAD_LINES):
        with trial.connect() as bad:
            bad.sendall(b"\xff\n")
            while bad.recv(64):
                pass
    trial.kept()
    took = trial.service.end(LIMIT)
    said = trial.texts()
    if not all(re.fullmatch(r"fault: (line|\d+ more)", text) for text in said[:-1]):
        raise Failed(f"the full pipe has other texts: {set(said)}")
    return f"ended after {took:.2f} seconds, {len(said)} texts"


def unread_answers(trial: Trial) -> str:
    """A client that reads none of its short answers."""
    with trial.connect() as client:
        lines = ask_on(client) // len(GROUPS)
        trial.kept()
        took = trial.service.end(LIMIT)
        expect("a client that reads nothing is told", trial.texts(), ["fault: write"])
    return f"ended after {took:.2f} seconds, {lines} lines were sent"


def late_reader(trial: Trial) -> str:
    """A client that begins to read its short answers as the service ends: how many of them it gets is printed."""
    with trial.connect() as client:
        lines = ask_on(client) // len(GROUPS)
        answers: list[bytes] = []
        reads = threading.Thread(target=lambda: answers.append(rest_of(client)))
        reads.start()
        took = trial.service.end(LIMIT)
        reads.join()
        answered, said = answers[0].count(b"\n"), trial.texts()
        # Where it had begun to read before the end, no answer waited for room.
        if said not in ([], ["fault: write"]):
            raise Failed(f"a client that reads late is told as {said}")
    return f"ended after {took:.2f} seconds, {answered} of {lines} lines were answered"


def half_line(trial: Trial) -> str:
    """A client that sends half a line and is silent then."""
    with trial.connect() as client:
        client.sendall(b'{"op":')
        trial.kept()
        took = trial.service.end(LIMIT)
        expect("a client that is closed at the end is told", trial.texts(), [])
    return f"ended after {took:.2f} seconds"


def slow_call(trial: Trial) -> str:
    """A call that goes on for ten seconds: it is answered as stopped."""
    with trial.connect() as client:
        client.sendall(call("a", "sleep 9999").encode() + b"\n")
        trial.kept()
        took = trial.service.end(LIMIT)
        expect("a call that waits is answered", rest_of(client).decode(), f"{STOPPED}\n")
    return f"ended after {took:.2f} seconds"


def trickle(trial: Trial) -> str:
    """A client that sends a byte now and then, and no whole line, holds no connection."""
    begun = time.monotonic()
    with trial.connect() as client, suppress(ConnectionError):
        while time.monotonic() - begun < PATIENCE:
            client.sendall(b"{")
            time.sleep(0.8)
    closed = time.monotonic() - begun
    trial.service.end(LIMIT)
    expect("a client that sends no whole line is told", trial.texts(), ["fault: slow"])
    return f"closed within {closed:.1f} seconds"


def too_many(trial: Trial) -> str:
    """One client too many waits until another one leaves."""
    with trial.connect() as first:
        expect("the first is answered", ask(first, call("b", "hi")), HI)
        late = trial.connect()
        late.sendall(GROUPS)
        hears_nothing(late)
    with late:
        expect("the next is answered", late.recv(64), b'{"groups":["a","b"],"reply":"groups"}\n')
        took = trial.service.end(LIMIT)
    return f"ended after {took:.2f} seconds"


def one_alone(trial: Trial) -> str:
    """With the defaults, a silent client keeps out the next one, which is cut off when the service ends."""
    with trial.connect() as silent:
        expect("the first is answered", ask(silent, call("b", "hi")), HI)
        late = trial.connect()
        late.sendall(GROUPS)
        hears_nothing(late)
    with late:
        expect("what one too many hears", rest_of(late), b"")
    expect("the status", trial.service.process.wait(LIMIT), 0)
    return "ended with its client"


def forever(trial: Trial) -> str:
    """A service that does not look at its input, which has ended, serves on until a signal ends it."""
    for _ in range(8):
        trial.kept()
    with trial.connect() as client:
        client.sendall(call("a", "sleep 9999").encode() + b"\n")
        took = trial.service.end_by(signal.SIGTERM, -signal.SIGTERM, LIMIT)
        expect("a call that waits hears of a signal", rest_of(client), b"")
    return f"ended by a signal after {took:.2f} seconds"


def supervised(trial: Trial) -> str:
    """A signal to the script that supervises a service ends that well."""
    with trial.connect() as client:
        client.sendall(call("a", "sleep 9999").encode() + b"\n")
        trial.kept()
        took = trial.service.end_by(signal.SIGTERM, 0, LIMIT)
        expect("a call that waits is answered", rest_of(client).decode(), f"{STOPPED}\n")
    return f"ended by a signal after {took:.2f} seconds"


KEEP = ["--keep-serving", "--connections", "4"]
CASES: dict[str, tuple[Callable[[Trial], str], list[str]]] = {
    "a full standard error": (full_pipe, KEEP),
    "answers that nobody reads": (unread_answers, KEEP),
    "answers that are read late": (late_reader, KEEP),
    "half a line": (half_line, KEEP),
    "a call that goes on": (slow_call, KEEP),
    "a byte now and then": (trickle, [*KEEP, "--idle", "1"]),
    "one client too many": (too_many, ["--keep-serving"]),
    "one client too many for the defaults": (one_alone, []),
    "no input": (forever, ["--forever", "--connections", "4"]),
    "a supervisor": (supervised, ["--connections", "4"]),
}


@contextmanager
def running(program: Path, port: int, case: Callable[[Trial], str], options: list[str]) -> Iterator[Trial]:
    """A service whose standard error is a pipe, with the input that the case is about."""
    reader, writer = os.pipe()
    with tempfile.TemporaryDirectory() as folder:
        settings = Path(folder, "settings.toml")
        settings.write_text(SETTINGS, encoding="utf-8")
        words = [str(program), "serve", str(settings), "--port", str(port), *options]
        if case is supervised:
            words = [str(SUPERVISED), str(program), str(settings), str(port), *options]
        given = subprocess.DEVNULL if case in (forever, supervised) else subprocess.PIPE
        service = Service(words, (ADDRESS, port), writer, given)
        service.start()
        os.close(writer)
        try:
            yield Trial(service, reader)
        finally:
            service.kill()
            os.close(reader)


def main() -> int:
    """Tries each case, and prints what came of it."""
    program, port = Path(sys.argv[1]), int(sys.argv[2])
    try:
        for name, (case, options) in CASES.items():
            with running(program, port, case, options) as trial:
                print(f"{name}: {case(trial)}", flush=True)
    except (Failed, OSError, subprocess.TimeoutExpired) as failure:
        print(f"failed: {name}: {failure!r}", file=sys.stderr)
        return 1
    return 0


if __name__ == "__main__":
    sys.exit(main())
