"""Makes a million steps in a service that connections share, over 64 connections that come and go, and accounts for them.

    python3 share_account.py PROGRAM STEPS

Each connection submits, joins, starts, finishes, fails, collects and runs fallbacks in groups of either strategy, and every so
often leaves in the middle, with what it has, by a close or by a reset. The service keeps a record, which is run by `run` under
the same settings. The account is right where the record is whole; each line that a connection had answered stands in it just
once with that answer; what else stands in it are steps of the timer, steps that give back what connections left with, and at
most the lines that these had sent without hearing the answer; and no group has a run, a queued ticket or a slot in use at the
end.
"""

from __future__ import annotations

import collections
import json
import random
import socket
import struct
import subprocess
import sys
import tempfile
import threading
import time
from pathlib import Path
from typing import Any

CONNECTIONS = 64
GROUPS = [f"permits{number}" for number in range(4)] + [f"pool{number}" for number in range(4)]
SETTINGS = f"""service.groups = {GROUPS}
service.slots.default = 64
hystrix.command.default.execution.isolation.thread.timeoutInMilliseconds = 50
hystrix.command.default.circuitBreaker.requestVolumeThreshold = 1000
hystrix.threadpool.default = {{coreSize = 4, maxQueueSize = 16, queueSizeRejectionThreshold = 16}}
""" + "".join(
    f'hystrix.command.permits{number}.execution.isolation.strategy = "SEMAPHORE"\n' for number in range(4)
)
# Of so many lines a connection makes one its last.
MOST_LINES = 2000
# how long anything may take, in seconds
PATIENCE = 20.0

# A line without its moment, and the line that answers it.
Step = tuple[str, str]


class Account:
    """What all connections have heard, and what they had not heard when they left."""

    def __init__(self, steps: int) -> None:
        self._lock = threading.Lock()
        self._left = steps
        self.heard: collections.Counter[Step] = collections.Counter()
        self.unheard: collections.Counter[str] = collections.Counter()
        self.failures: list[str] = []

    def more(self, number: int) -> bool:
        """Takes so many of the steps that are still to be made, if there are any."""
        with self._lock:
            self._left -= number
            return self._left > 0 and not self.failures

    def add(self, heard: list[Step], unheard: list[str]) -> None:
        with self._lock:
            self.heard.update(heard)
            self.unheard.update(unheard)


def without_moment(line: dict[str, Any]) -> str:
    """A line as it stands in a record, but for its moment, with its members in one order."""
    said = line | {"op": "read"} if line["op"] == "metrics" else line
    if said["op"] in ("submit", "read"):
        said = {"command": line["group"], **said}
    return json.dumps({name: said[name] for name in sorted(said) if name not in ("now", "wait")})


class Connection:
    """One connection, what it has, and what was answered."""

    def __init__(self, path: str, chance: random.Random) -> None:
        self._socket = socket.socket(socket.AF_UNIX)
        self._socket.settimeout(PATIENCE)
        self._socket.connect(path)
        self._lines = self._socket.makefile("rb")
        self._chance = chance
        self.runs: list[tuple[str, int]] = []
        self.holds: list[tuple[str, int]] = []
        self.heard: list[Step] = []

    def ask(self, **line: Any) -> dict[str, Any]:
        """Sends a line, and reads its answer."""
        self._socket.sendall(json.dumps(line).encode() + b"\n")
        answer = self._lines.readline().decode().rstrip("\n")
        if not answer.startswith('{"error"'):
            self.heard.append((without_moment(line), answer))
        told: dict[str, Any] = json.loads(answer)
        return told

    def leave(self) -> list[str]:
        """Leaves with all that it has, perhaps with a line sent that it hears no answer of."""
        unheard = []
        if self._chance.random() < 0.5:
            line = {"op": "submit", "group": self._chance.choice(GROUPS), "arg": "unheard"}
            self._socket.sendall(json.dumps(line).encode() + b"\n")
            unheard.append(without_moment(line))
        if self._chance.random() < 0.5:
            self._socket.setsockopt(socket.SOL_SOCKET, socket.SO_LINGER, struct.pack("ii", 1, 0))
        self._lines.close()
        self._socket.close()
        return unheard

    def act(self, number: int) -> None:
        """Asks for something that may be asked for."""
        chance = self._chance.random()
        if self.runs and chance < 0.4:
            self.end_run(*self.runs.pop(self._chance.randrange(len(self.runs))))
        elif self.holds and (chance < 0.6 or len(self.holds) > 3):
            self.collect(*self.holds.pop(self._chance.randrange(len(self.holds))))
        elif chance < 0.75:
            self.start(self._chance.choice(GROUPS[4:]))
        else:
            self.submit(self._chance.choice(GROUPS), number)

    def submit(self, group: str, number: int) -> None:
        line: dict[str, Any] = {"op": "submit", "group": group, "arg": f"order {number}"}
        if self._chance.random() < 0.1:
            line |= {"context": 1 + number % 7, "key": "shared"}
        told = self.ask(**line)
        if told["reply"] == "inline":
            self.runs.append((group, told["ticket"]))
        if "ticket" in told:
            self.holds.append((group, told["ticket"]))

    def start(self, group: str) -> None:
        told = self.ask(op="start", group=group)
        if told["reply"] == "assigned":
            self.runs.append((group, told["ticket"]))

    def end_run(self, group: str, ticket: int) -> None:
        if self._chance.random() < 0.8:
            self.ask(op="finish", group=group, ticket=ticket, body=f"body {ticket}")
        else:
            self.ask(op="fail", group=group, ticket=ticket, bad=self._chance.random() < 0.2)

    def collect(self, group: str, ticket: int) -> None:
        """Asks for an answer; where there is none yet, it is asked for again later."""
        told = self.ask(op="collect", group=group, ticket=ticket, wait=self._chance.random() < 0.2)
        if told["reply"] == "pending":
            self.holds.append((group, ticket))
        elif told["reply"] == "run-fallback":
            end = self._chance.choice(("success", "failure", "missing"))
            body = {"body": f"fallback {ticket}"} if end == "success" else {}
            self.ask(op="fallback", group=group, ticket=ticket, end=end, **body)
            self.holds.append((group, ticket))


def make_steps(account: Account, path: str, number: int) -> None:
    """Makes steps over one connection after another."""
    chance = random.Random(number)
    count = 0
    try:
        while account.more(lines := chance.randint(1, MOST_LINES)):
            connection = Connection(path, chance)
            for _ in range(lines):
                count += 1
                connection.act(CONNECTIONS * count + number)
            unheard = connection.leave()
            account.add(connection.heard, unheard)
    except (OSError, ValueError, KeyError) as failure:
        account.failures.append(f"connection {number}: {failure!r}")


def is_of_service(line: dict[str, Any]) -> bool:
    """Whether the service makes such a step by itself: for the timer, or for a connection that has left."""
    match line["op"]:
        case "expire" | "collect":
            return True
        case "fail":
            return line["bad"] is False
        case "fallback":
            return line["end"] in ("failure", "missing")
        case _:
            return False


def faults_of(account: Account, record: list[str], replies: list[str]) -> list[str]:
    """What is amiss in the account."""
    if len(record) != len(replies):
        return [f"{len(record)} lines of the record have {len(replies)} answers"]
    if '"end":true' not in record[-1]:
        return ["the record is not whole"]
    left = account.heard.copy()
    unheard = account.unheard.copy()
    amiss = []
    for text, reply in zip(record[:-1], replies):
        line = json.loads(text)
        said = without_moment(line)
        if left[said, reply] > 0:
            left[said, reply] -= 1
        elif unheard[said] > 0:
            unheard[said] -= 1
        elif not is_of_service(line):
            amiss.append(f"nobody asked for {text}, answered {reply}")
    amiss += [f"not in the record: {said}, answered {reply}" for (said, reply), times in left.items() if times > 0]
    return amiss


def not_at_rest(account: Account, path: str) -> list[str]:
    """The groups of which something is in use, a while after all connections have left: what is queued times out."""
    connection = Connection(path, random.Random(0))
    for _ in range(100):
        told = [(group, connection.ask(op="metrics", group=group)) for group in GROUPS]
        in_use = [f"{group}: {metrics}" for group, metrics in told if metrics["busy"] or metrics["queued"]]
        if not in_use:
            break
        time.sleep(0.05)
    account.add(connection.heard, connection.leave())
    return in_use


def main(program: str, steps: str) -> int:
    folder = Path(tempfile.mkdtemp())
    settings, path, record = folder / "settings.toml", folder / "share.sock", folder / "record.jsonl"
    settings.write_text(SETTINGS)
    words = [program, "share", str(settings), "--socket", str(path), "--connections", str(CONNECTIONS), "--record", str(record)]
    with (folder / "texts").open("w") as texts:
        service = subprocess.Popen(words, stdin=subprocess.PIPE, stdout=subprocess.PIPE, stderr=texts)
    assert service.stdout is not None
    if not service.stdout.readline().startswith(b"listening"):
        sys.exit(f"{program} does not share")
    account = Account(int(steps))
    threads = [threading.Thread(target=make_steps, args=(account, str(path), number)) for number in range(CONNECTIONS)]
    for thread in threads:
        thread.start()
    for thread in threads:
        thread.join()
    amiss = account.failures + not_at_rest(account, str(path))
    service.communicate(timeout=PATIENCE)
    with record.open() as lines:
        run = subprocess.run([program, "run", str(settings)], stdin=lines, stdout=subprocess.PIPE, text=True, check=True)
    amiss += faults_of(account, record.read_text().splitlines(), run.stdout.splitlines())
    heard = sum(account.heard.values())
    print(f"{heard} lines were answered, {len(run.stdout.splitlines()) - 1} steps stand in the record, {len(amiss)} amiss")
    print("\n".join(amiss[:20]))
    return 1 if amiss else 0


if __name__ == "__main__":
    sys.exit(main(*sys.argv[1:]))
