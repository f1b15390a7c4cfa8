"""One group: its tickets, its commands and its steps."""

from __future__ import annotations

from dataclasses import dataclass, field
from typing import Any, Callable, Optional

from .settings import GroupProps, Subject

Reply = dict[str, Any]
Name = tuple[int, str]

ERRORS = ("FAILURE", "TIMEOUT", "THREAD_POOL_REJECTED", "SEMAPHORE_REJECTED")


@dataclass
class Ticket:
    """One execution of a command. `state` is a word, and `cause` or `answer` what belongs to it."""

    serial: int
    command: int
    arg: str
    name: Optional[Name]
    submitted: int
    state: str
    busy: bool = False
    holders: int = 1
    cached: bool = False
    cause: str = ""
    answer: Optional[Reply] = None

    @property
    def is_kept(self) -> bool:
        """Whether a run of it goes on, somebody has still to collect, or further requests may join."""
        return self.busy or self.holders > 0 or self.cached


@dataclass
class Command:
    """What is kept of one command: all that ever happened, and its circuit breaker."""

    props: Subject
    history: list[tuple[int, str]] = field(default_factory=list)
    health_from: int = 0
    circuit: str = "closed"
    opened: int = 0
    test: int = 0
    snapshot: Optional[tuple[int, int, int]] = None

    @property
    def values(self) -> dict[str, Any]:
        """What is in force for it."""
        return self.props.values

    def record(self, moment: int, *kinds: str) -> None:
        """Adds events of the moment."""
        self.history.extend((moment, kind) for kind in kinds)

    def counts(self, moment: int, begin: int = 0) -> dict[str, int]:
        """The events of the rolling window, by kind."""
        width = self.values["window_ms"] // self.values["buckets"]
        last = moment // width
        found: dict[str, int] = {}
        for at, kind in self.history[begin:]:
            if last - self.values["buckets"] < at // width <= last:
                found[kind] = found.get(kind, 0) + 1
        return found

    def health(self, moment: int) -> tuple[int, int]:
        """Errors, and errors with successes, since the circuit last closed."""
        found = self.counts(moment, self.health_from)
        errors = sum(found.get(kind, 0) for kind in ERRORS)
        return errors, errors + found.get("SUCCESS", 0)

    def admit(self, moment: int, serial: int) -> str:
        """Asks the circuit breaker: `pass`, `test` or `short`."""
        if not self.values["circuit_on"]:
            return "pass"
        if self.values["force_open"]:
            return "short"
        if self.values["force_closed"]:
            return "pass"
        if self.circuit == "closed":
            return self._admit_closed(moment)
        if self.circuit == "open" and moment - self.opened >= self.values["sleep_ms"]:
            self.circuit, self.test = "half-open", serial
            return "test"
        return "short"

    def _admit_closed(self, moment: int) -> str:
        if self.snapshot is None or moment - self.snapshot[0] >= self.values["health_ms"]:
            self.snapshot = (moment, *self.health(moment))
        _, errors, total = self.snapshot
        if total >= self.values["volume"] and percent(errors, total) >= self.values["percent"]:
            self.circuit, self.opened = "open", moment
            return "short"
        return "pass"

    def ended(self, serial: int, end: str, moment: int) -> None:
        """A run of the ticket ended with `success`, `error` or `bad`; its event stands in the history."""
        if self.circuit != "half-open" or self.test != serial:
            return
        if end == "success":
            self.circuit, self.snapshot, self.health_from = "closed", None, len(self.history)
            return
        self.circuit = "open"
        if end == "error":
            self.opened = moment


def percent(errors: int, total: int) -> int:
    """The errors of a hundred runs, rounded down; 0 where there was no run."""
    return 100 * errors // total if total else 0


class Group:
    """A group from its registration on."""

    def __init__(self, props: GroupProps, limit: int) -> None:
        self.props = props
        self.limit = limit
        self.commands = [Command(each) for each in props.subjects]
        self.steps = self.latest = 0
        self.next_serial = 1
        self.tickets: list[Ticket] = []

    @property
    def is_in_use(self) -> bool:
        """Whether a run goes on, or an answer is still to be collected."""
        return any(each.busy or each.holders > 0 for each in self.tickets)

    def step(self, op: str, now: int, said: dict[str, Any]) -> Reply:
        """Makes a step, whose members are those of its line; `command` is a number there."""
        if self.steps == self.limit:
            return {"reply": "worn"}
        self.steps += 1
        self.latest = max(self.latest, now)
        reply: Reply = getattr(self, "_" + op)(self.latest, said)
        self.tickets = [each for each in self.tickets if each.is_kept]
        return reply

    def _find(self, serial: int, holds: Callable[[Ticket], bool]) -> Optional[Ticket]:
        return next((each for each in self.tickets if each.serial == serial and holds(each)), None)

    def _count(self, holds: Callable[[Ticket], bool]) -> int:
        return sum(1 for each in self.tickets if holds(each))

    def _submit(self, moment: int, said: dict[str, Any]) -> Reply:
        number = said["command"]
        command = self.commands[number]
        name = (said["context"], said["key"]) if "key" in said and command.values["cache_on"] else None
        for each in self.tickets:
            if name is not None and each.cached and each.command == number and each.name == name:
                each.holders += 1
                command.record(moment, "RESPONSE_FROM_CACHE")
                return {"reply": "joined", "ticket": each.serial}
        if len(self.tickets) >= self.props.pool["slots"]:
            return {"reply": "group-full"}
        serial = self.next_serial
        said_of_circuit = command.admit(moment, serial)
        ticket = Ticket(serial, number, said["arg"], name, moment, "queued", cached=name is not None)
        reply = self._placed(ticket, command, said_of_circuit, moment)
        self.next_serial += 1
        self.tickets.append(ticket)
        return reply

    def _placed(self, ticket: Ticket, command: Command, said_of_circuit: str, moment: int) -> Reply:
        if said_of_circuit == "short":
            return self._rejected(ticket, command, moment, "short-circuited", "SHORT_CIRCUITED")
        if command.values["strategy"] == "SEMAPHORE":
            if self._count(lambda each: each.command == ticket.command and each.busy) < command.values["semaphore"]:
                ticket.state, ticket.busy = "running", True
                return {"reply": "inline", "ticket": ticket.serial}
            return self._rejected(ticket, command, moment, "semaphore-rejected", "SEMAPHORE_REJECTED")
        queued = self._count(lambda each: each.state == "queued")
        if self._pool_busy() + queued < self.props.pool["core"] + self.props.queue_room:
            return {"reply": "queued", "ticket": ticket.serial}
        return self._rejected(ticket, command, moment, "thread-pool-rejected", "THREAD_POOL_REJECTED")

    def _rejected(self, ticket: Ticket, command: Command, moment: int, cause: str, kind: str) -> Reply:
        ticket.state, ticket.cause = "needs-fallback", cause
        command.record(moment, kind)
        if cause != "short-circuited":
            command.ended(ticket.serial, "error", moment)
        return {"cause": cause, "reply": "fallback-due", "ticket": ticket.serial}

    def _pool_busy(self) -> int:
        return self._count(lambda each: each.busy and self.commands[each.command].values["strategy"] == "THREAD")

    def _start(self, moment: int, said: dict[str, Any]) -> Reply:
        ticket = next((each for each in self.tickets if each.state == "queued"), None)
        if ticket is None or self._pool_busy() >= self.props.pool["core"]:
            return {"reply": "idle"}
        ticket.state, ticket.busy = "running", True
        reply = {"arg": ticket.arg, "reply": "assigned", "ticket": ticket.serial}
        if ticket.command:
            reply["command"] = self.commands[ticket.command].props.name
        return reply

    def _finish(self, moment: int, said: dict[str, Any]) -> Reply:
        return self._end(moment, said["ticket"], "success", "SUCCESS", {"body": said["body"], "reply": "value"})

    def _fail(self, moment: int, said: dict[str, Any]) -> Reply:
        if said["bad"]:
            return self._end(moment, said["ticket"], "bad", "BAD_REQUEST", {"reply": "bad-request"})
        return self._end(moment, said["ticket"], "error", "FAILURE", None)

    def _end(self, moment: int, serial: int, end: str, kind: str, answer: Optional[Reply]) -> Reply:
        ticket = self._find(serial, lambda each: each.busy)
        if ticket is None:
            return {"reply": "not-running"}
        ticket.busy = False
        if ticket.state != "running":
            return {"reply": "late"}
        if answer is None:
            ticket.state, ticket.cause = "needs-fallback", "failure"
        else:
            ticket.state, ticket.answer = "answered", answer
        command = self.commands[ticket.command]
        command.record(moment, kind)
        command.ended(serial, end, moment)
        return {"reply": "done"}

    def _expire(self, moment: int, said: dict[str, Any]) -> Reply:
        count = 0
        for ticket in self.tickets:
            command = self.commands[ticket.command]
            is_open = ticket.state in ("queued", "running")
            if command.values["timeout_on"] and is_open and moment - ticket.submitted >= command.values["timeout_ms"]:
                ticket.state, ticket.cause = "needs-fallback", "timeout"
                command.record(moment, "TIMEOUT")
                command.ended(ticket.serial, "error", moment)
                count += 1
        return {"count": count, "reply": "expired"}

    def _collect(self, moment: int, said: dict[str, Any]) -> Reply:
        ticket = self._find(said["ticket"], lambda each: each.holders > 0)
        if ticket is None:
            return {"reply": "no-ticket"}
        if ticket.state == "answered":
            ticket.holders -= 1
            return dict(ticket.answer or {})
        if ticket.state != "needs-fallback":
            return {"reply": "pending"}
        command = self.commands[ticket.command]
        if not command.values["fallback_on"]:
            return self._given_up(ticket, command, moment, "disabled")
        number = ticket.command
        running = self._count(lambda each: each.command == number and each.state == "in-fallback")
        if running >= command.values["fallback_permits"]:
            return self._given_up(ticket, command, moment, "rejected", "FALLBACK_REJECTION")
        ticket.state = "in-fallback"
        return {"cause": ticket.cause, "reply": "run-fallback"}

    def _given_up(self, ticket: Ticket, command: Command, moment: int, word: str, *kinds: str) -> Reply:
        command.record(moment, *kinds, "EXCEPTION_THROWN")
        ticket.state, ticket.answer = "answered", {"cause": ticket.cause, "fallback": word, "reply": "error"}
        ticket.holders -= 1
        return dict(ticket.answer)

    def _fallback(self, moment: int, said: dict[str, Any]) -> Reply:
        ticket = self._find(said["ticket"], lambda each: each.state == "in-fallback")
        if ticket is None:
            return {"reply": "not-in-fallback"}
        command = self.commands[ticket.command]
        ticket.state = "answered"
        if said["end"] == "success":
            command.record(moment, "FALLBACK_SUCCESS")
            ticket.answer = {"body": said["body"], "cause": ticket.cause, "reply": "fallback-value"}
            return {"reply": "done"}
        kind, word = {"failure": ("FALLBACK_FAILURE", "failed"), "missing": ("FALLBACK_MISSING", "missing")}[
            said["end"]
        ]
        command.record(moment, kind, "EXCEPTION_THROWN")
        ticket.answer = {"cause": ticket.cause, "fallback": word, "reply": "error"}
        return {"reply": "done"}

    def _close(self, moment: int, said: dict[str, Any]) -> Reply:
        dropped = [each for each in self.tickets if each.cached and each.name and each.name[0] == said["context"]]
        for each in dropped:
            each.cached = False
        return {"released": len(dropped), "reply": "closed"}

    def _read(self, moment: int, said: dict[str, Any]) -> Reply:
        number = said["command"]
        command = self.commands[number]
        errors, total = command.health(moment)
        return {
            "busy": self._count(lambda each: each.command == number and each.busy),
            "circuit": command.circuit,
            "errors": errors,
            "events": command.counts(moment),
            "free": self.props.pool["slots"] - len(self.tickets),
            "percent": percent(errors, total),
            "queued": self._count(lambda each: each.command == number and each.state == "queued"),
            "reply": "metrics",
            "total": total,
        }
