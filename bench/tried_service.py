"""A `bulkhead serve` that is tried: started, talked to and ended, and looked at in /proc."""

from __future__ import annotations

import os
import signal
import socket
import subprocess
import time
from dataclasses import dataclass, field
from pathlib import Path

ADDRESS = "127.0.0.1"
# So long a service may take to listen, and an answer to come, in seconds.
PATIENCE = 10.0


class Failed(Exception):
    """What was tried did not come out as it should."""


@dataclass
class Service:
    """A program that runs as a service on a port, by default until its standard input ends."""

    words: list[str]
    address: tuple[str, int]
    errors: int | None = None
    input: int = subprocess.PIPE
    process: subprocess.Popen[bytes] = field(init=False)

    def start(self) -> None:
        """Starts it, and returns once it listens."""
        self.process = subprocess.Popen(self.words, stdin=self.input, stdout=subprocess.PIPE, stderr=self.errors)
        assert self.process.stdout is not None
        line = self.process.stdout.readline()
        if line != f"listening {self.address[1]}\n".encode():
            self.process.kill()
            raise Failed(f"the service says {line!r} in the place of listening")

    def connect(self) -> socket.socket:
        """A new connection."""
        return socket.create_connection(self.address, timeout=PATIENCE)

    def end(self, limit: float) -> float:
        """Ends its standard input, and returns how many seconds it took to end well: no more than the limit."""
        assert self.process.stdin is not None
        self.process.stdin.close()
        return self.await_end("the end of its standard input", 0, limit)

    def end_by(self, number: signal.Signals, status: int, limit: float) -> float:
        """Sends it a signal, and returns how many seconds it took to end with the status: no more than the limit."""
        self.process.send_signal(number)
        return self.await_end("a signal", status, limit)

    def await_end(self, what: str, status: int, limit: float) -> float:
        """Waits until it has ended with the status, and returns how many seconds that took."""
        begun = time.monotonic()
        try:
            found = self.process.wait(limit)
        except subprocess.TimeoutExpired:
            self.process.kill()
            raise Failed(f"the service runs {limit} seconds after {what}") from None
        if found != status:
            raise Failed(f"the service ends with status {found}")
        return time.monotonic() - begun

    def kill(self) -> None:
        """Ends it where it still runs."""
        if self.process.poll() is None:
            self.process.kill()
            self.process.wait()

    def resident(self) -> int:
        """Its resident size in kibibytes."""
        status = Path(f"/proc/{self.process.pid}/status").read_text(encoding="utf-8")
        for line in status.splitlines():
            if line.startswith("VmRSS:"):
                return int(line.split()[1])
        raise Failed("the system does not tell the resident size")

    def threads(self) -> int:
        """How many threads it has."""
        return len(os.listdir(f"/proc/{self.process.pid}/task"))

    def descriptors(self) -> int:
        """How many descriptors it has open."""
        return len(os.listdir(f"/proc/{self.process.pid}/fd"))


def ask(connection: socket.socket, line: str) -> str:
    """Sends a line, and returns the line that answers it."""
    send(connection, line)
    return hear(connection, line)


def send(connection: socket.socket, line: str) -> None:
    """Sends a line."""
    connection.sendall(line.encode() + b"\n")


def hear(connection: socket.socket, line: str) -> str:
    """The line that answers a line that was sent."""
    answer = b""
    while not answer.endswith(b"\n"):
        piece = connection.recv(4096)
        if not piece:
            raise Failed(f"the connection ends before {line!r} is answered")
        answer += piece
    return answer.decode().removesuffix("\n")


def call(group: str, arg: str) -> str:
    """The line of a call."""
    return f'{{"op":"call","group":"{group}","arg":"{arg}"}}'
