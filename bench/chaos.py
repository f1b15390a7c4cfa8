"""Has clients of a service that connections share die, stop and break off at random moments, and accounts for it at the end.

    python3 chaos.py PROGRAM SECONDS [SEED]

Twenty processes submit, run, fall back, share answers within request contexts, ask as workers, and send halves of lines. They
are killed and stopped within all of this, and the service stands still for two seconds now and then. Its standard error is
closed. At the end no client is left, and asserted are that

- every group has all its slots, and no run is under way or queued,
- no descriptor and no thread of the service is left over,
- its resident size is within two percent of what it was after the first quarter, when no client was there either,
- each answer that a client got to a step is the reply that a run gives to that line of the record.

A second service has its record on a full device, and has to answer all the same.
"""

from __future__ import annotations

import json
import os
import random
import signal
import socket
import subprocess
import sys
import tempfile
import time
from collections import Counter
from dataclasses import dataclass, field
from pathlib import Path
from typing import Any

CLIENTS = 20
SLOTS = 64
SETTINGS = f"""service.groups = ["web", "pool"]
service.slots.default = {SLOTS}
hystrix.command.default.execution.isolation.thread.timeoutInMilliseconds = 200
hystrix.command.default.circuitBreaker.sleepWindowInMilliseconds = 300
hystrix.command.web.execution.isolation.strategy = "SEMAPHORE"
hystrix.threadpool.pool.coreSize = 4
hystrix.threadpool.pool.maxQueueSize = 16
"""
# The service may stand still for so many seconds at a time.
STANDSTILL = 2.0
# So many seconds at most may pass until what the last clients had is free.
SETTLED_WITHIN = 5.0
MOST_GROWN = 1.02
# What a client is told without a step.
NO_STEP = {"not-running", "no-ticket", "not-in-fallback", "entered", "metrics"}


class Failed(Exception):
    """What was asserted is not so."""


class Client:
    """A process that makes requests and runs of others over one connection, until it is killed."""

    def __init__(self, path: str, seed: int, log: Path) -> None:
        self.chance = random.Random(seed)
        self.socket = socket.socket(socket.AF_UNIX)
        self.socket.connect(path)
        self.answers = self.socket.makefile()
        self.log = os.open(log, os.O_WRONLY | os.O_APPEND | os.O_CREAT, 0o600)

    def ask(self, **members: object) -> dict[str, Any]:
        """Asks a line, notes it with its answer, and returns the answer."""
        line = json.dumps(members)
        self.socket.sendall(line.encode() + b"\n")
        told = self.answers.readline()
        if not told:
            raise SystemExit(0)
        answer: dict[str, Any] = json.loads(told)
        os.write(self.log, json.dumps([members, answer]).encode() + b"\n")
        return answer

    def pause(self, most: float) -> None:
        time.sleep(self.chance.random() * most)

    def run(self) -> None:
        acts = [self.request, self.request, self.share_answer, self.work, self.send_half]
        while True:
            self.chance.choice(acts)()

    def request(self) -> None:
        """Makes a request, and runs it where the caller is to."""
        group = self.chance.choice(["web", "pool"])
        self.settle(group, self.ask(op="submit", group=group, arg="a"))

    def share_answer(self) -> None:
        """Makes requests within a request context that others are within too."""
        context = self.chance.randrange(5)
        self.ask(op="enter", group="web", context=context)
        for _ in range(self.chance.randint(1, 4)):
            key = f"k{self.chance.randrange(3)}"
            self.settle("web", self.ask(op="submit", group="web", arg="a", context=context, key=key))
        if self.chance.random() < 0.7:
            self.ask(op="close", group="web", context=context)

    def settle(self, group: str, told: dict[str, Any]) -> None:
        """Does what the answer to a submit asks for, and collects."""
        ticket = told.get("ticket")
        if ticket is None:
            return
        if told["reply"] == "inline":
            self.pause(0.05)
            self.end_run(group, ticket)
        for _ in range(20):
            answer = self.ask(op="collect", group=group, ticket=ticket)
            if answer["reply"] == "run-fallback":
                self.pause(0.02)
                self.ask(op="fallback", group=group, ticket=ticket, end=self.chance.choice(["failure", "missing"]))
            elif answer["reply"] != "pending":
                return
            self.pause(0.02)

    def end_run(self, group: str, ticket: int) -> None:
        if self.chance.random() < 0.3:
            self.ask(op="fail", group=group, ticket=ticket, bad=self.chance.random() < 0.3)
        else:
            self.ask(op="finish", group=group, ticket=ticket, body="b")

    def work(self) -> None:
        """Runs what somebody else queued."""
        answer = self.ask(op="start", group="pool")
        if answer.get("reply") == "assigned":
            self.pause(0.05)
            self.end_run("pool", answer["ticket"])

    def send_half(self) -> None:
        """Sends a line in two halves."""
        line = b'{"op":"submit","group":"pool","arg":"half"}\n'
        cut = self.chance.randrange(1, len(line))
        self.socket.sendall(line[:cut])
        self.pause(0.05)
        self.socket.sendall(line[cut:])
        told = self.answers.readline()
        if not told:
            raise SystemExit(0)
        answer = json.loads(told)
        os.write(self.log, json.dumps([json.loads(line), answer]).encode() + b"\n")
        self.settle("pool", answer)


@dataclass
class Service:
    """A service that connections share, in a folder of its own."""

    program: str
    folder: Path
    record: str
    process: subprocess.Popen[bytes] = field(init=False)

    def __post_init__(self) -> None:
        (self.folder / "settings.toml").write_text(SETTINGS)
        words = [self.program, "share", "settings.toml", "--socket", "s", "--record", self.record]
        # Its standard error is closed from the beginning on.
        self.process = subprocess.Popen(
            ["/bin/sh", "-c", 'exec "$@" 2>&-', "sh", *words], cwd=self.folder, stdin=subprocess.PIPE, stdout=subprocess.PIPE
        )
        assert self.process.stdout is not None
        if not self.process.stdout.readline().startswith(b"listening"):
            raise Failed("the service does not listen")

    @property
    def path(self) -> str:
        return str(self.folder / "s")

    def ask(self, line: str) -> dict[str, Any]:
        with socket.socket(socket.AF_UNIX) as connection:
            connection.settimeout(30)
            connection.connect(self.path)
            connection.sendall(line.encode() + b"\n")
            answer: dict[str, Any] = json.loads(connection.makefile().readline())
            return answer

    def held(self) -> dict[str, int]:
        """How many descriptors and threads it has."""
        at = Path(f"/proc/{self.process.pid}")
        return {"descriptors": len(list((at / "fd").iterdir())), "threads": len(list((at / "task").iterdir()))}

    def resident(self) -> int:
        """Its resident size in KiB."""
        status = Path(f"/proc/{self.process.pid}/status").read_text()
        return next(int(line.split()[1]) for line in status.splitlines() if line.startswith("VmRSS"))

    def await_free(self) -> None:
        """Waits until every group has all its slots, and nothing is under way."""
        deadline = time.monotonic() + SETTLED_WITHIN
        for group in ("web", "pool"):
            while True:
                told = self.ask(json.dumps({"op": "metrics", "group": group}))
                if (told["free"], told["busy"], told["queued"]) == (SLOTS, 0, 0):
                    break
                if time.monotonic() > deadline:
                    raise Failed(f"{group} keeps what nobody has: {told}")
                time.sleep(0.01)

    def await_held(self, before: dict[str, int]) -> None:
        """Waits until it has as many descriptors and threads as before: the last connection may be at its end yet."""
        deadline = time.monotonic() + SETTLED_WITHIN
        while (after := self.held()) != before:
            if time.monotonic() > deadline:
                raise Failed(f"left over: {after}, and before there were {before}")
            time.sleep(0.01)

    def end(self) -> None:
        """Ends it by the end of its input."""
        assert self.process.stdin is not None
        self.process.stdin.close()
        if self.process.wait(60) != 0:
            raise Failed(f"the service ended with the status {self.process.returncode}")


class Chaos:
    """The clients of a service, and what befalls them."""

    def __init__(self, service: Service, seed: int) -> None:
        self.service = service
        self.chance = random.Random(seed)
        self.clients: list[int] = []
        self.begun = 0
        self.killed = 0

    def log(self, number: int) -> Path:
        return self.service.folder / f"client-{number}"

    def begin(self) -> None:
        """A client begins, in a process of its own."""
        self.begun += 1
        number = self.begun
        child = os.fork()
        if child == 0:
            try:
                Client(self.service.path, self.chance.randrange(1 << 30) + number, self.log(number)).run()
            finally:
                os._exit(0)
        self.clients.append(child)

    def kill(self, place: int) -> None:
        client = self.clients.pop(place)
        os.kill(client, signal.SIGKILL)
        os.waitpid(client, 0)
        self.killed += 1

    def play(self, seconds: float) -> None:
        """Something befalls somebody every few milliseconds; then every client is killed."""
        ends = time.monotonic() + seconds
        while time.monotonic() < ends:
            while len(self.clients) < CLIENTS:
                self.begin()
            time.sleep(self.chance.random() * 0.1)
            odd, place = self.chance.random(), self.chance.randrange(CLIENTS)
            if odd < 0.5:
                self.kill(place)
            elif odd < 0.6:
                os.kill(self.clients[place], signal.SIGSTOP)
            elif odd < 0.75:
                for client in self.clients:
                    os.kill(client, signal.SIGCONT)
            elif odd < 0.76:
                self.stand_still()
        while self.clients:
            self.kill(0)

    def stand_still(self) -> None:
        os.kill(self.service.process.pid, signal.SIGSTOP)
        time.sleep(STANDSTILL)
        os.kill(self.service.process.pid, signal.SIGCONT)

    def told(self) -> Counter[str]:
        """The steps that clients asked for, each with its answer, as often as they were told it."""
        told: Counter[str] = Counter()
        for number in range(1, self.begun + 1):
            log = self.log(number)
            lines = log.read_text().splitlines() if log.exists() else []
            for line in lines:
                try:
                    asked, answer = json.loads(line)
                except ValueError:
                    # Its client was killed as it wrote.
                    continue
                if answer.get("reply", "error") not in NO_STEP | {"error"} or "cause" in answer:
                    told[json.dumps([asked, answer], sort_keys=True)] += 1
        return told


def replayed(program: str, folder: Path) -> Counter[str]:
    """The lines of the record without their moments, each with the reply that a run gives."""
    record = (folder / "record").read_bytes()
    run = subprocess.run([program, "run", "settings.toml"], cwd=folder, input=record, capture_output=True, check=True)
    replies = run.stdout.splitlines()
    lines = record.splitlines()
    if len(replies) != len(lines):
        raise Failed(f"{len(replies)} replies to {len(lines)} lines of the record")
    told: Counter[str] = Counter()
    for line, reply in zip(lines, replies):
        asked = json.loads(line)
        asked.pop("now", None)
        if asked.get("command") == asked["group"]:  # the record names the own command, too
            del asked["command"]
        told[json.dumps([asked, json.loads(reply)], sort_keys=True)] += 1
    return told


def account(program: str, seconds: float, seed: int, folder: Path) -> None:
    """Plays, and asserts what has to be so when no client is left."""
    service = Service(program, folder, "record")
    chaos = Chaos(service, seed)
    try:
        before = service.held()
        chaos.play(seconds / 4)
        service.await_free()
        resident = service.resident()
        chaos.play(seconds * 3 / 4)
        service.await_free()
        grown = service.resident() / resident
        service.await_held(before)
        service.end()
    finally:
        service.process.kill()
        service.process.wait()
    told, record = chaos.told(), replayed(program, folder)
    if lost := told - record:
        raise Failed(f"{sum(lost.values())} answers are not those of the record, as {next(iter(lost))}")
    print(f"{chaos.begun} clients, {chaos.killed} killed, {sum(told.values())} answers, all of them in the record; memory {grown:.3f}")
    if grown > MOST_GROWN:
        raise Failed(f"the resident size grew by {grown - 1:.1%}")


def on_a_full_device(program: str, folder: Path) -> None:
    """A service whose record finds no room answers all the same."""
    service = Service(program, folder, "/dev/full")
    try:
        for number in range(1, 201):
            told = service.ask('{"op":"submit","group":"web","arg":"a"}')
            # what each connection leaves behind is a failure, so the circuit opens
            if told.get("ticket") != number or told["reply"] not in ("inline", "fallback-due"):
                raise Failed(f"a submit is answered {told}")
        service.await_free()
        service.end()
    finally:
        service.process.kill()
        service.process.wait()


def main(words: list[str]) -> int:
    if len(words) not in (2, 3):
        print(__doc__, file=sys.stderr)
        return 2
    program, seconds = os.path.realpath(words[0]), float(words[1])
    seed = int(words[2]) if len(words) == 3 else random.randrange(1 << 16)
    print(f"seed {seed}", flush=True)
    try:
        with tempfile.TemporaryDirectory() as folder:
            account(program, seconds, seed, Path(folder))
        with tempfile.TemporaryDirectory() as folder:
            on_a_full_device(program, Path(folder))
    except Failed as failure:
        print(f"failed: {failure}")
        return 1
    return 0


if __name__ == "__main__":
    sys.exit(main(sys.argv[1:]))
