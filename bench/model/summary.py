"""What a script comes to, command by command."""

from __future__ import annotations

import json
from dataclasses import dataclass, field
from typing import Any, Optional

from .group import Command, Group, Reply, Ticket
from .lines import LineEnds, Script, cut
from .settings import Settings

#: The numbers of a row that are counted, by what is told of a request.
KINDS = {
    "value": "values",
    "fallback-value": "fallback_values",
    "error": "errors",
    "bad-request": "bad_requests",
    "joined": "joined",
    "group-full": "group_full",
    "late": "late",
}

COUNTS = (*KINDS.values(), "admitted", "short_circuited", "rejected", "timeouts", "failures", "worn", "trips")
STAYS = {"open": "open_ms", "half-open": "half_open_ms"}
ASKED = ("admitted", "joined", "short_circuited", "rejected", "group_full", "worn")

#: The members of a row behind its names, in the order in which they are told.
MEMBERS = (
    *("requests", "values", "fallback_values", "errors", "bad_requests", "joined", "group_full", "short_circuited"),
    *("rejected", "timeouts", "failures", "late", "least_ms", "median_ms", "percentile_99_ms", "most_ms"),
    *("open_ms", "trips", "half_open_ms", "worn"),
)

#: The members that are told within one percent.
NEAR = ("median_ms", "percentile_99_ms")


@dataclass
class Row:
    """What the requests of a command came to, and how long each took that has its answer."""

    numbers: dict[str, int] = field(default_factory=lambda: dict.fromkeys([*COUNTS, *STAYS.values()], 0))
    times: list[int] = field(default_factory=list)

    def add(self, name: str, number: int = 1) -> None:
        """Adds to one of the numbers."""
        self.numbers[name] += number

    def told(self) -> dict[str, Optional[int]]:
        """The members behind the names."""
        members: dict[str, Optional[int]] = dict(self.numbers)
        members["requests"] = sum(self.numbers[name] for name in ASKED)
        times = sorted(self.times)
        members["least_ms"], members["most_ms"] = (times[0], times[-1]) if times else (None, None)
        members["median_ms"] = _ranked(times, 50)
        members["percentile_99_ms"] = _ranked(times, 99)
        return {name: members[name] for name in MEMBERS}


def _ranked(times: list[int], percent: int) -> Optional[int]:
    """The least of the times that so many of a hundred do not exceed."""
    return times[-(-len(times) * percent // 100) - 1] if times else None


class Watched(Script):
    """A script of which is kept what its requests came to: a row for each two names of a group and a command."""

    def __init__(self, settings: Settings) -> None:
        self.rows: dict[tuple[str, str], Row] = {}
        super().__init__(settings)
        for name, group in self.groups.items():
            self._rows_of(name, group)

    def _rows_of(self, name: str, group: Group) -> list[Row]:
        """The rows of the group's commands, by their numbers: its own one has the name of the group."""
        names = [name, *(each.name for each in group.props.subjects[1:])]
        return [self.rows.setdefault((name, each), Row()) for each in names]

    def _register(self, group: str, like: str) -> Reply:
        reply = super()._register(group, like)
        self._rows_of(group, self.groups[group])
        return reply

    def _made(self, name: str, op: str, told: dict[str, Any]) -> Reply:
        group = self.groups[name]
        rows = self._rows_of(name, group)
        if group.steps == group.limit:
            if op == "submit":
                rows[told["command"]].add("worn")
            return super()._made(name, op, told)
        latest, circuits = group.latest, [(each.circuit, each.opened) for each in group.commands]
        tickets = {each.serial: (each, each.state) for each in group.tickets}
        reply = super()._made(name, op, told)
        for row, before, command in zip(rows, circuits, group.commands):
            _note_circuit(row, before, command, group.latest - latest)
        for ticket, state in tickets.values():
            _note_ticket(rows[ticket.command], ticket, state, op, group.latest)
        if op == "submit":
            _note_reply(rows[told["command"]], op, told, reply)
        elif told.get("ticket") in tickets:
            _note_reply(rows[tickets[told["ticket"]][0].command], op, told, reply)
        return reply


def _note_circuit(row: Row, before: tuple[str, int], command: Command, passed: int) -> None:
    """How a circuit stood before a step, for so many milliseconds, and whether it opened in it."""
    circuit, opened = before
    if circuit in STAYS:
        row.add(STAYS[circuit], passed)
    if command.circuit == "open" and (circuit == "closed" or command.opened != opened):
        row.add("trips")


def _note_ticket(row: Row, ticket: Ticket, state: str, op: str, moment: int) -> None:
    """What became of a ticket that was in the state before a step."""
    if ticket.state == "answered" and state != "answered":
        row.times.append(moment - ticket.submitted)
    if op == "expire" and ticket.state != state:
        row.add("timeouts")


def _note_reply(row: Row, op: str, told: dict[str, Any], reply: Reply) -> None:
    """What a reply tells of a request."""
    word = reply["reply"]
    if word in KINDS:
        row.add(KINDS[word])
    if op == "submit" and word in ("queued", "inline"):
        row.add("admitted")
    if op == "submit" and word == "fallback-due":
        row.add("short_circuited" if reply["cause"] == "short-circuited" else "rejected")
    if op == "fail" and word == "done" and not told["bad"]:
        row.add("failures")


def summary(settings: Settings, data: bytes) -> list[dict[str, Any]]:
    """The rows that `bulkhead summary --json` tells of the lines of the input."""
    script = Watched(settings)
    try:
        for line in cut(data):
            script.answer(line)
    except LineEnds:
        pass
    return [{"group": group, "command": command} | row.told() for (group, command), row in script.rows.items()]


def differs(told: bytes, want: list[dict[str, Any]]) -> Optional[str]:
    """What is told otherwise of a command, of the first one."""
    rows = [json.loads(line) for line in told.splitlines()]
    for got, right in zip(rows, want):
        for name in NEAR:
            if got[name] is not None and right[name] is not None and 100 * abs(got[name] - right[name]) <= right[name]:
                got[name] = right[name]
        if list(got.items()) != list(right.items()):
            return f"{got}, and not {right}"
    return None if len(rows) == len(want) else f"{len(rows)} commands, and not {len(want)}"
