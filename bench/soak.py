"""Calls a service over 64 connections that come and go, hostile ones among them, and accounts for it at the end.

    python3 soak.py PROGRAM PORT SECONDS LIBRARY

Calls are made for 59 minutes at most, so that none has left the window of an hour when the metrics are read. Asserted are
that each call is answered once and by its own argument, that the metrics add up to the calls made, that the memory which
the service has once its clients are gone is within two percent of what it had before they came, and that no thread and no
descriptor is left over. LIBRARY is built of `live.c`, and counts the memory.

After the first minute, or the first quarter of a shorter run, the clients leave once: from then on the resident size may grow
by two percent. It may fall, as where a system that is short of memory takes back pages of the program's file.
"""

from __future__ import annotations

import random
import re
import socket
import struct
import subprocess
import sys
import tempfile
import threading
import time
from collections.abc import Callable
from dataclasses import dataclass, field
from pathlib import Path

from tried_service import ADDRESS, PATIENCE, Failed, Service, ask, call, hear, send

CALLERS = 48
HOSTILE = 12
GROUPS = 8
# A connection of a caller makes so many calls at most.
MOST_CALLS = 200
# The service ends a connection that was idle for so many seconds.
IDLE = 1
# So many seconds at most calls are made.
MOST_SECONDS = 3540
SETTINGS = """hystrix.command.default.execution.timeout.enabled = false
hystrix.command.default.metrics.rollingStats.timeInMilliseconds = 3600000
hystrix.command.default.metrics.rollingStats.numBuckets = 1
hystrix.threadpool.default.coreSize = 4
hystrix.threadpool.default.maxQueueSize = 64
hystrix.threadpool.default.queueSizeRejectionThreshold = 64
"""


@dataclass
class Soak:
    """What the threads of a run share."""

    service: Service
    over: threading.Event = field(default_factory=threading.Event)
    failures: list[str] = field(default_factory=list)


class LetGo(Exception):
    """The caller was idle for so long that the service ended its connection, as it has to."""


class Caller(threading.Thread):
    """Makes calls over one connection after the other, and counts them by group.

    Where the machine does not let it go on in time, the service ends its connection before the call is sent whole. Such a
    call was not made, and is counted by itself.
    """

    def __init__(self, soak: Soak, number: int) -> None:
        super().__init__()
        self.soak = soak
        self.number = number
        self.made: dict[str, int] = {}
        self.count = 0
        self.let_go = 0
        # When the service may have begun to wait for its next line, at the earliest.
        self.awaited = 0.0

    def run(self) -> None:
        chance = random.Random(self.number)
        try:
            while not self.soak.over.is_set():
                self.awaited = time.monotonic()
                try:
                    with self.soak.service.connect() as connection:
                        self.make_some(connection, chance)
                except LetGo:
                    self.let_go += 1
        except (Failed, OSError) as failure:
            self.soak.failures.append(f"caller {self.number}: {failure!r}")

    def make_some(self, connection: socket.socket, chance: random.Random) -> None:
        """Makes some calls over a connection."""
        for _ in range(chance.randint(1, MOST_CALLS)):
            self.count += 1
            self.make(connection, f"g{chance.randrange(GROUPS)}", f"c{self.number} {self.count}")
            if self.soak.over.is_set():
                return

    def make(self, connection: socket.socket, group: str, arg: str) -> None:
        """Makes one call, which has to be answered by its own argument."""
        line = call(group, arg)
        begun = time.monotonic()
        sent = None
        try:
            send(connection, line)
            sent = time.monotonic()
            answer = hear(connection, line)
        except (Failed, ConnectionError) as failure:
            if (sent or time.monotonic()) - self.awaited >= IDLE:
                raise LetGo from failure
            raise
        self.awaited = begun
        if answer != f'{{"body":"{arg}","reply":"value"}}':
            raise Failed(f"{arg!r} is answered {answer}")
        self.made[group] = self.made.get(group, 0) + 1


def long_line(connection: socket.socket) -> None:
    """Sends more than a line may have."""
    connection.sendall(b"x" * 2000)


def half_line(connection: socket.socket) -> None:
    """Sends a byte from time to time, and no whole line."""
    for _ in range(5):
        connection.sendall(b"{")
        time.sleep(0.4)


def no_reading(connection: socket.socket) -> None:
    """Asks more than it reads."""
    connection.settimeout(0.3)
    for _ in range(20000):
        connection.send(b'{"op":"groups"}\n')


def reset(connection: socket.socket) -> None:
    """Leaves in the middle of a call, by a reset."""
    connection.sendall(call("hostile", "sleep 50").encode() + b"\n")
    time.sleep(0.01)
    connection.setsockopt(socket.SOL_SOCKET, socket.SO_LINGER, struct.pack("ii", 1, 0))


KINDS = (long_line, half_line, no_reading, reset)


def harm(soak: Soak, number: int) -> None:
    """Harms the service as one kind of client does, over one connection after the other."""
    while not soak.over.is_set():
        try:
            with soak.service.connect() as connection:
                KINDS[number % len(KINDS)](connection)
        except OSError:
            time.sleep(0.05)


def counted(service: Service, group: str) -> int:
    """How many calls of the group the service counts as successes, and it counts nothing else."""
    with service.connect() as connection:
        metrics = ask(connection, f'{{"op":"metrics","group":"{group}"}}')
    found = re.search(r'"events":{(?:"SUCCESS":(\d+))?}', metrics)
    if found is None:
        raise Failed(f"group {group} has other events: {metrics}")
    return int(found.group(1) or 0)


def live(file: Path) -> int:
    """The bytes of memory that the service has."""
    return int.from_bytes(file.read_bytes()[:8], "little")


@dataclass
class Size:
    """What the service takes."""

    resident: int
    live: int

    def __str__(self) -> str:
        return f"{self.live} bytes of memory, {self.resident} KiB resident"


class Clients:
    """All clients, who come and go as often as they are let."""

    def __init__(self, service: Service) -> None:
        self.service = service
        self.made: dict[str, int] = {}
        self.let_go = 0

    def come(self, seconds: float, numbers: range) -> None:
        """Has the service called for so long. Callers have these numbers."""
        soak = Soak(self.service)
        callers = [Caller(soak, number) for number in numbers]
        hostile = [threading.Thread(target=harm, args=(soak, number)) for number in range(HOSTILE)]
        for thread in [*callers, *hostile]:
            thread.start()
        time.sleep(seconds)
        soak.over.set()
        for thread in [*callers, *hostile]:
            thread.join()
        if soak.failures:
            raise Failed("; ".join(soak.failures[:3]))
        self.let_go += sum(caller.let_go for caller in callers)
        for caller in callers:
            for group, calls in caller.made.items():
                self.made[group] = self.made.get(group, 0) + calls

    def account(self) -> int:
        """Compares what was called with what the service counts, and returns how many calls were made."""
        if self.let_go:
            print(f"{self.let_go} calls were not made, since their callers were held up for {IDLE} second and more", flush=True)
        for group in (f"g{number}" for number in range(GROUPS)):
            made = self.made.get(group, 0)
            if counted(self.service, group) != made:
                raise Failed(f"group {group}: {made} calls were made, and {counted(self.service, group)} are counted")
        return sum(self.made.values())


def wait_for(what: str, wanted: int, tells: Callable[[], int]) -> None:
    """Waits until as many are left as there were before."""
    end = time.monotonic() + PATIENCE
    while tells() != wanted:
        if time.monotonic() > end:
            raise Failed(f"{tells()} {what} in the place of {wanted}")
        time.sleep(0.1)


def within(what: str, percent: int, was: int, now: int) -> None:
    """Fails where what the service takes without clients has moved by more than so many percent."""
    if abs(now - was) * 100 > was * percent:
        raise Failed(f"the {what} of a service without clients has moved by more than {percent} percent")


def grown(what: str, percent: int, was: int, now: int) -> None:
    """Fails where what the service takes without clients has grown by more than so many percent."""
    if (now - was) * 100 > was * percent:
        raise Failed(f"the {what} of a service without clients has grown by more than {percent} percent")


def rest(service: Service, threads: int, descriptors: int) -> None:
    """Waits until all clients have left the service."""
    wait_for("descriptors", descriptors, service.descriptors)
    wait_for("threads", threads, service.threads)


def soak(program: Path, port: int, seconds: int, library: Path, folder: Path) -> None:
    """The whole run."""
    names = [f"g{number}" for number in range(GROUPS)] + ["hostile"]
    settings = Path(folder, "settings.toml")
    listed = ", ".join(f'"{name}"' for name in names)
    settings.write_text(f"service.groups = [{listed}]\n{SETTINGS}", encoding="utf-8")
    words = ["env", f"LD_PRELOAD={library}", f"LIVE={folder / 'live'}"]
    words += [str(program), "serve", str(settings), "--port", str(port)]
    words += ["--keep-serving", "--connections", "64", "--idle", str(IDLE)]
    with open(folder / "errors", "wb") as errors:
        service = Service(words, (ADDRESS, port), errors.fileno())
        service.start()
        try:
            threads, descriptors = service.threads(), service.descriptors()

            def size() -> Size:
                rest(service, threads, descriptors)
                return Size(service.resident(), live(folder / "live"))

            clients, first = Clients(service), min(60.0, seconds / 4)
            before = size()
            print(f"before the first client: {before}", flush=True)
            clients.come(first, range(CALLERS))
            warm = size()
            print(f"after {first:.0f} seconds: {warm}", flush=True)
            clients.come(min(seconds, MOST_SECONDS) - first, range(CALLERS, 2 * CALLERS))
            calls, after = clients.account(), size()
            print(f"after {calls} calls: {after}", flush=True)
            within("memory", 2, before.live, after.live)
            grown("resident size", 2, warm.resident, after.resident)
            print(f"ended after {service.end(2.0):.2f} seconds")
        finally:
            service.kill()


def main() -> int:
    """Soaks the service for as long as the words say."""
    try:
        with tempfile.TemporaryDirectory() as folder:
            soak(Path(sys.argv[1]), int(sys.argv[2]), int(sys.argv[3]), Path(sys.argv[4]), Path(folder))
    except (Failed, OSError, subprocess.TimeoutExpired) as failure:
        print(f"failed: {failure}", file=sys.stderr)
        return 1
    return 0


if __name__ == "__main__":
    sys.exit(main())
