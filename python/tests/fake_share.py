"""A small service in the place of `bulkhead share`: a thread for each connection on a Unix socket, which answers by a table.

It keeps the words of the lines and whose a ticket is, and none of the rules of a group: each submit is let in. A test says
what is answered instead.
"""

from __future__ import annotations

import contextlib
import json
import socket
import threading
from collections import defaultdict, deque
from dataclasses import dataclass, field
from pathlib import Path
from typing import Any, Optional

Line = dict[str, Any]
Answer = dict[str, Any]

FALLBACK_DUE = {"reply": "fallback-due", "cause": "short-circuited"}
METRICS = {
    "reply": "metrics",
    "busy": 1,
    "circuit": "closed",
    "errors": 2,
    "events": {"SUCCESS": 3, "FAILURE": 2},
    "free": 60,
    "percent": 40,
    "queued": 0,
    "total": 5,
}
# what is in force where nothing is said
PROPERTIES = {
    "circuitBreaker.enabled": True,
    "circuitBreaker.errorThresholdPercentage": 50,
    "circuitBreaker.forceClosed": False,
    "circuitBreaker.forceOpen": False,
    "circuitBreaker.requestVolumeThreshold": 20,
    "circuitBreaker.sleepWindowInMilliseconds": 5000,
    "coreSize": 10,
    "execution.isolation.semaphore.maxConcurrentRequests": 10,
    "execution.isolation.strategy": "THREAD",
    "execution.isolation.thread.timeoutInMilliseconds": 1000,
    "execution.timeout.enabled": True,
    "fallback.enabled": True,
    "fallback.isolation.semaphore.maxConcurrentRequests": 10,
    "maxQueueSize": -1,
    "metrics.healthSnapshot.intervalInMilliseconds": 500,
    "metrics.rollingStats.numBuckets": 10,
    "metrics.rollingStats.timeInMilliseconds": 10000,
    "queueSizeRejectionThreshold": 5,
    "requestCache.enabled": True,
    "service.slots": 64,
}


@dataclass
class Ticket:
    """A ticket: whose run it is, who holds it, and how far it has come."""

    run_of: Optional[int]
    holders: list[int]
    arg: str = ""
    name: Optional[tuple[Any, ...]] = None
    fallback_of: Optional[int] = None
    cause: str = ""
    answer: Optional[Answer] = None
    is_queued: bool = False
    ended: bool = field(default=False)


class FakeService:
    """The service. `lines` has what each connection sent, by the connection's number from 1 on."""

    def __init__(self, path: Path, groups: tuple[str, ...] = ("catalog",), commands: tuple[str, ...] = ("report",)) -> None:
        self.path, self.groups, self.commands = path, groups, commands
        self.pools: set[str] = set()
        self.lines: list[tuple[int, Line]] = []
        self.tickets: dict[int, Ticket] = {}
        self.changed = threading.Condition()
        self.connections = 0
        # what the next lines of an operation are answered by; None closes the connection
        self.said: defaultdict[str, deque[Optional[Answer]]] = defaultdict(deque)
        # operations whose lines are not answered before they are taken out
        self.held: set[str] = set()
        # the contexts that each connection entered, and the properties that changed
        self.entered: dict[int, list[int]] = {}
        self.values: dict[tuple[str, str], Any] = {}
        self._open: dict[int, socket.socket] = {}
        self._is_up = False
        self.up()

    def up(self) -> None:
        """Begins to listen."""
        self._listener = socket.socket(socket.AF_UNIX, socket.SOCK_STREAM)
        self.path.unlink(missing_ok=True)
        self._listener.bind(str(self.path))
        self._listener.listen(64)
        self._is_up = True
        threading.Thread(target=self._listen, args=(self._listener,), daemon=True).start()

    def down(self) -> None:
        """Ends, and closes all connections."""
        with self.changed:
            self._is_up = False
            self.changed.notify_all()
        # whoever sleeps in accept is woken by it
        self._listener.shutdown(socket.SHUT_RDWR)
        self._listener.close()
        self.path.unlink(missing_ok=True)
        self.drop()

    def drop(self) -> None:
        """Closes all connections that are open, and goes on."""
        with self.changed:
            of = [*self._open.values()]
        for one in of:
            with contextlib.suppress(OSError):  # it was closed meanwhile
                one.shutdown(socket.SHUT_RDWR)
        self.until(lambda: not set(of) & set(self._open.values()))

    def until(self, holds: Any) -> None:
        """Waits until something holds of what the service keeps."""
        with self.changed:
            assert self.changed.wait_for(holds, 10), "it does not come to hold"

    def say(self, op: str, *answers: Optional[Answer]) -> None:
        """Has the next lines of an operation answered so."""
        self.said[op] += answers

    def let_go(self, op: str) -> None:
        """Has the lines of an operation answered again."""
        with self.changed:
            self.held.discard(op)
            self.changed.notify_all()

    def ops(self, connection: Optional[int] = None) -> list[str]:
        """The operations that were asked for, those for the names of groups left out."""
        with self.changed:
            return [
                line["op"] for of, line in self.lines if line["op"] != "groups" and (connection is None or of == connection)
            ]

    def last(self) -> Line:
        """The line that came last."""
        with self.changed:
            return self.lines[-1][1] if self.lines else {"op": None}

    def open_now(self) -> int:
        """How many connections are open."""
        with self.changed:
            return len(self._open)

    def settled(self) -> bool:
        """Whether nobody has anything: no run, no holder, no fallback."""
        return all(not one.holders and one.run_of is None and one.fallback_of is None for one in self.tickets.values())

    def _listen(self, listener: socket.socket) -> None:
        while True:
            try:
                one, _ = listener.accept()
            except OSError:
                return
            with self.changed:
                self.connections += 1
                number = self.connections
                self._open[number] = one
            threading.Thread(target=self._serve, args=(number, one), daemon=True).start()

    def _serve(self, number: int, one: socket.socket) -> None:
        try:
            with one.makefile("rb") as lines:
                for line in lines:
                    assert len(line) <= 1025, "a line has at most 1,024 bytes"
                    answer = self._answer(number, json.loads(line))
                    if answer is None:
                        break
                    one.sendall(json.dumps(answer, separators=(",", ":"), sort_keys=True).encode() + b"\n")
        except OSError:
            pass
        finally:
            self._take_back(number)
            one.close()

    def _take_back(self, number: int) -> None:
        with self.changed:
            for ticket in self.tickets.values():
                if number in (ticket.run_of, ticket.fallback_of):
                    ticket.answer = {"reply": "error", "cause": "failure", "fallback": "missing"}
                    ticket.run_of = ticket.fallback_of = None
                ticket.holders = [one for one in ticket.holders if one != number]
            for context in self.entered.pop(number, []):
                self._close(number, {"context": context})
            del self._open[number]
            self.changed.notify_all()

    def _answer(self, number: int, line: Line) -> Optional[Answer]:
        op = line["op"]
        with self.changed:
            self.lines.append((number, line))
            self.changed.notify_all()
            self.changed.wait_for(lambda: op not in self.held or not self._is_up)
            if self.said[op]:
                said = self.said[op].popleft()
                return self._own(number, line, said) if said is not None else None
            if op == "groups":
                return {"groups": [*self.groups], "reply": "groups"}
            if line["group"] not in self.groups:
                return {"error": "group"}
            if line.get("command", line["group"]) not in (line["group"], *self.commands):
                return {"error": "command"}
            answer: Optional[Answer] = getattr(self, f"_{op}")(number, line)
            self.changed.notify_all()
            return answer

    def _own(self, number: int, line: Line, said: Answer) -> Answer:
        """What a test says: a ticket is made where one is told."""
        if line["op"] == "submit" and said.get("reply") in ("inline", "fallback-due", "queued"):
            made = Ticket(number if said["reply"] == "inline" else None, [number], line["arg"])
            made.cause, made.is_queued = said.get("cause", ""), said["reply"] == "queued"
            return said | {"ticket": self._add(made)}
        return said

    def _add(self, ticket: Ticket) -> int:
        number = len(self.tickets) + 1
        self.tickets[number] = ticket
        return number

    def _submit(self, number: int, line: Line) -> Answer:
        name = (line["group"], line.get("command"), line["context"], line["key"]) if "context" in line else None
        for at, ticket in self.tickets.items():
            if name is not None and ticket.name == name:
                ticket.holders.append(number)
                return {"reply": "joined", "ticket": at}
        if line["group"] in self.pools:
            return {"reply": "queued", "ticket": self._add(Ticket(None, [number], line["arg"], is_queued=True))}
        return {"reply": "inline", "ticket": self._add(Ticket(number, [number], line["arg"], name))}

    def _waited(self, number: int, holds: Any) -> bool:
        """Waits until something holds, and tells whether the client is still there."""
        while not holds():
            with contextlib.suppress(BlockingIOError):
                if not self._open[number].recv(1, socket.MSG_PEEK | socket.MSG_DONTWAIT):
                    return False
            self.changed.wait(0.01)
        return True

    def _start(self, number: int, line: Line) -> Answer:
        found: list[int] = []

        def is_there() -> bool:
            found.extend(at for at, one in self.tickets.items() if one.is_queued)
            return bool(found) or not self._is_up or not line.get("wait", False)

        if not self._waited(number, is_there):
            return {"error": "gone"}
        if not found:
            return {"reply": "idle"}
        ticket = self.tickets[found[0]]
        ticket.is_queued, ticket.run_of = False, number
        return {"reply": "assigned", "ticket": found[0], "arg": ticket.arg}

    def _ended(self, number: int, line: Line, answer: Optional[Answer]) -> Answer:
        ticket = self.tickets.get(line["ticket"])
        if ticket is None or ticket.run_of != number:
            return {"reply": "not-running"}
        ticket.run_of = None
        if ticket.ended:
            return {"reply": "late"}
        ticket.answer, ticket.cause = answer, "failure"
        return {"reply": "done"}

    def _finish(self, number: int, line: Line) -> Answer:
        return self._ended(number, line, {"reply": "value", "body": line["body"]})

    def _fail(self, number: int, line: Line) -> Answer:
        return self._ended(number, line, {"reply": "bad-request"} if line["bad"] else None)

    def time_out(self, number: int) -> None:
        """Times a run out."""
        with self.changed:
            self.tickets[number].ended, self.tickets[number].cause = True, "timeout"
            self.changed.notify_all()

    def _collect(self, number: int, line: Line) -> Answer:
        ticket = self.tickets.get(line["ticket"])
        if ticket is None or number not in ticket.holders:
            return {"reply": "no-ticket"}

        def is_pending() -> bool:
            return ticket.answer is None and (not ticket.cause or ticket.fallback_of is not None)

        if line.get("wait", False):
            if not self._waited(number, lambda: not is_pending() or not self._is_up):
                return {"error": "gone"}
        if is_pending():
            return {"reply": "pending"}
        if ticket.answer is None:
            ticket.fallback_of = number
            return {"reply": "run-fallback", "cause": ticket.cause}
        ticket.holders.remove(number)
        return ticket.answer

    def _fallback(self, number: int, line: Line) -> Answer:
        ticket = self.tickets.get(line["ticket"])
        if ticket is None or ticket.fallback_of != number:
            return {"reply": "not-in-fallback"}
        ticket.fallback_of = None
        if line["end"] == "success":
            ticket.answer = {"reply": "fallback-value", "cause": ticket.cause, "body": line["body"]}
        else:
            why = "failed" if line["end"] == "failure" else "missing"
            ticket.answer = {"reply": "error", "cause": ticket.cause, "fallback": why}
        return {"reply": "done"}

    def _enter(self, number: int, line: Line) -> Answer:
        self.entered.setdefault(number, []).append(line["context"])
        return {"reply": "entered"}

    def _tune(self, number: int, line: Line) -> Answer:
        self.values[line.get("command", line["group"]), line["property"]] = line["value"]
        return {"reply": "tuned"}

    def _properties(self, number: int, line: Line) -> Answer:
        name = line.get("command", line["group"])
        told = {**PROPERTIES, **{of: value for (whose, of), value in self.values.items() if whose == name}}
        return {"reply": "properties", "properties": told}

    def _totals(self, number: int, line: Line) -> Answer:
        return {"reply": "totals", "events": {"SUCCESS": 7}}

    def _close(self, number: int, line: Line) -> Answer:
        released = [one for one in self.tickets.values() if one.name and one.name[2] == line["context"]]
        for ticket in released:
            ticket.name = None
        return {"reply": "closed", "released": len(released)}

    def _metrics(self, number: int, line: Line) -> Answer:
        return METRICS
