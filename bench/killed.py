"""Tells how long the permits of a client that is killed stay taken.

    python3 killed.py SOCKET GROUP TIMES

So many times a process takes ten permits of the group in a service that connections share, and is killed; another client asks
for the metrics until none is taken. It prints the least, the middle and the most milliseconds, and its status is 1 where the
most are over ten.
"""

from __future__ import annotations

import json
import os
import signal
import socket
import statistics
import sys
import time
from typing import Any

PERMITS = 10
# within so many milliseconds they have to be free
WITHIN = 10.0


class Client:
    """A connection, and the lines that are asked over it."""

    def __init__(self, path: str) -> None:
        self._socket = socket.socket(socket.AF_UNIX)
        self._socket.connect(path)
        self._lines = self._socket.makefile()

    def ask(self, **members: object) -> dict[str, Any]:
        self._socket.sendall(json.dumps(members).encode() + b"\n")
        answer: dict[str, Any] = json.loads(self._lines.readline())
        return answer


def hold_permits(path: str, group: str, told: int) -> None:
    """Takes the permits, says so, and never gives them back."""
    client = Client(path)
    for _ in range(PERMITS):
        answer = client.ask(op="submit", group=group, arg="")
        if answer["reply"] != "inline":
            sys.exit(f"a submit is answered {answer}")
    os.write(told, b".")
    signal.pause()


def milliseconds_taken(client: Client, path: str, group: str) -> float:
    """From the moment at which a client with the permits is killed to the answer that says that they are free."""
    tells, told = os.pipe()
    child = os.fork()
    if child == 0:
        hold_permits(path, group, told)
    os.close(told)
    if os.read(tells, 1) != b".":
        sys.exit("the permits were not taken")
    os.close(tells)
    if client.ask(op="metrics", group=group)["busy"] != PERMITS:
        sys.exit("the permits are not seen to be taken")
    began = time.monotonic()
    os.kill(child, signal.SIGKILL)
    while client.ask(op="metrics", group=group)["busy"] != 0:
        pass
    took = 1000 * (time.monotonic() - began)
    os.waitpid(child, 0)
    return took


def main(path: str, group: str, times: str) -> int:
    client = Client(path)
    took = [milliseconds_taken(client, path, group) for _ in range(int(times))]
    print(
        f"the permits of a killed client are free after {min(took):.2f}, {statistics.median(took):.2f} and {max(took):.2f}"
        f" milliseconds, the least, the middle and the most of {times}"
    )
    return 0 if max(took) <= WITHIN else 1


if __name__ == "__main__":
    sys.exit(main(*sys.argv[1:]))
