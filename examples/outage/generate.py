#!/usr/bin/env python3
"""Makes the script of an outage, a minute long, in which the provider of payments stands for a quarter of it.

    ./generate.py PROGRAM [SEED] >script.jsonl      PROGRAM is `bulkhead`; script.jsonl here is of seed 7

Callers, workers and a timer are played against the program line by line: what each does next follows from the reply to its
line, as in a service. The same seed gives the same lines.
"""

import heapq
import itertools
import json
import random
import subprocess
import sys
from collections.abc import Callable
from dataclasses import dataclass, field
from pathlib import Path
from typing import Any

SETTINGS = Path(__file__).with_name("settings.toml")
# The timeout and the workers of a group, as the settings have them, in milliseconds and in number.
TIMEOUT, WORKERS = 800, 6
# No request is made from this moment on. All moments are in milliseconds.
END = 59_400
# So long a request context lasts, and so long after that it is closed.
CONTEXT, CLOSED_AFTER = 5_000, 400


@dataclass(frozen=True)
class Command:
    """A command: how often it is asked for, and how long its dependency takes on a good day."""

    name: str
    group: str
    requests_per_second: float
    least: int
    spread: int
    share_with_key: float = 0.0
    runs_in_caller: bool = False


COMMANDS = [
    Command("catalog", "catalog", 8.5, 30, 50, share_with_key=0.4),
    Command("payment", "payment", 6.5, 60, 90),
    Command("refund", "payment", 1.2, 80, 120),
    Command("search", "search", 5.0, 40, 160, share_with_key=0.2, runs_in_caller=True),
]


@dataclass
class Ticket:
    """What callers know of a ticket."""

    command: Command
    number: int
    submitted: int
    holders: int = 1
    collected: bool = False


@dataclass
class Group:
    """What callers and workers know of a group."""

    tickets: dict[int, Ticket] = field(default_factory=dict)
    waiting: set[int] = field(default_factory=set)
    busy: int = 0
    contexts: set[int] = field(default_factory=set)


class Outage:
    """The minute, moment by moment. Whoever does something next stands in the agenda."""

    settings = SETTINGS
    commands = COMMANDS

    def __init__(self, program: str, seed: int) -> None:
        self.random = random.Random(seed)
        self.order = itertools.count()
        self.agenda: list[tuple[int, int, Callable[..., None], tuple[Any, ...]]] = []
        self.groups = {command.group: Group() for command in self.commands}
        self.program = subprocess.Popen(
            [program, "run", str(self.settings)], text=True, bufsize=1, stdin=subprocess.PIPE, stdout=subprocess.PIPE
        )

    def play(self) -> None:
        """Does all that is on the agenda, and ends the program."""
        for command in self.commands:
            self.plan(self.random.randrange(200), self.submit, command)
        while self.agenda:
            moment, _, act, about = heapq.heappop(self.agenda)
            act(moment, *about)
        self.program.communicate()

    def plan(self, moment: int, act: Callable[..., None], *about: Any) -> None:
        heapq.heappush(self.agenda, (moment, next(self.order), act, about))

    def say(self, op: str, group: str, now: int, **more: Any) -> dict[str, Any]:
        """Gives a line to the program and to standard output, and returns the reply."""
        line = json.dumps({"op": op, "group": group, "now": now, **more}, separators=(",", ":"))
        print(line)
        assert self.program.stdin is not None and self.program.stdout is not None
        self.program.stdin.write(line + "\n")
        reply: dict[str, Any] = json.loads(self.program.stdout.readline())
        return reply

    def timeout(self, command: Command) -> int:
        """The timeout of a command that is in force, in milliseconds."""
        return TIMEOUT

    def run_time(self, command: Command, now: int) -> int:
        """How long a run takes: the provider of payments gets slow at 14 s, stands from 16 s to 33.5 s, and recovers."""
        usual = command.least + self.random.random() ** 2 * command.spread
        if command.group != "payment" or not 14_000 <= now < 33_500:
            return int(usual)
        if now < 16_000:
            return int(usual + (now - 14_000) * 0.45 * self.random.random())
        return int(1_200 + self.random.random() * 2_200)

    def submit(self, now: int, command: Command) -> None:
        """A caller makes a request, and plans the next one of the command."""
        next_one = now + int(self.random.expovariate(command.requests_per_second / 1000)) + 1
        if next_one < END:
            self.plan(next_one, self.submit, command)
        more: dict[str, Any] = {"arg": f"{command.name} {next(self.order) % 1000}"}
        if command.name != command.group:
            more["command"] = command.name
        if self.random.random() < command.share_with_key:
            more |= self.cache_name(command, now)
        reply = self.say("submit", command.group, now, **more)
        group, number = self.groups[command.group], reply["ticket"]
        if reply["reply"] == "joined":
            group.tickets[number].holders += 1
            self.plan(now, self.collect, group.tickets[number])
            return
        ticket = group.tickets[number] = Ticket(command, number, now)
        if reply["reply"] == "fallback-due":
            self.plan(now, self.collect, ticket)
            return
        self.plan(now + self.timeout(command) + self.random.randrange(10), self.expire, ticket)
        if reply["reply"] == "inline":
            self.plan(now + self.run_time(command, now), self.end, ticket)
        else:
            group.waiting.add(number)
            self.plan(now, self.start, command.group)

    def cache_name(self, command: Command, now: int) -> dict[str, Any]:
        """The request context of the moment and a key; whoever uses a context first plans its end."""
        context, contexts = now // CONTEXT, self.groups[command.group].contexts
        name = {"context": context, "key": f"k{self.random.randrange(12)}"}
        ends = (context + 1) * CONTEXT
        if context not in contexts and ends < END:
            contexts.add(context)
            self.plan(ends + CLOSED_AFTER, lambda then: self.say("close", command.group, then, context=context))
        return name

    def start(self, now: int, name: str) -> None:
        """A worker asks for a run where a ticket waits and a worker is free, as those of the service do."""
        group = self.groups[name]
        if group.waiting and group.busy < WORKERS:
            ticket = group.tickets[self.say("start", name, now)["ticket"]]
            group.busy += 1
            group.waiting.discard(ticket.number)
            self.plan(now + self.run_time(ticket.command, now), self.end, ticket)

    def end(self, now: int, ticket: Ticket) -> None:
        """A run ends: well, or as a failure, or because the request was bad."""
        command, odd = ticket.command, self.random.random()
        usual = 0.0 if command.group == "payment" else 0.006
        failing = 0.3 if command.group == "payment" and 14_000 < now < 18_500 else usual
        if odd < failing:
            self.say("fail", command.group, now, ticket=ticket.number, bad=command.group == "catalog" and odd < 0.002)
        else:
            self.say("finish", command.group, now, ticket=ticket.number, body=f"{command.group} {ticket.number}")
        self.plan(now, self.collect, ticket)
        if not command.runs_in_caller:
            self.groups[command.group].busy -= 1
            self.plan(now, self.start, command.group)

    def expire(self, now: int, ticket: Ticket) -> None:
        """The timer times out what is due, soon after the timeout of a ticket that nobody has the answer of."""
        if ticket.collected:
            return
        name = ticket.command.group
        group = self.groups[name]
        self.say("expire", name, now)
        for due in group.tickets.values():
            if not due.collected and due.submitted + self.timeout(due.command) <= now:
                group.waiting.discard(due.number)
                self.plan(now, self.collect, due)

    def collect(self, now: int, ticket: Ticket) -> None:
        """Each holder asks for the answer; one of them runs the fallback where that is due."""
        while ticket.holders:
            reply = self.say("collect", ticket.command.group, now, ticket=ticket.number)["reply"]
            if reply == "pending":
                return
            ticket.collected = True
            if reply == "run-fallback":
                self.plan(now + 1 + self.random.randrange(8), self.fall_back, ticket)
                return
            ticket.holders -= 1

    def fall_back(self, now: int, ticket: Ticket) -> None:
        """The fallback of a ticket ends: that of a refund fails half of the time."""
        fails = ticket.command.name == "refund" and self.random.random() < 0.5
        ended = {"end": "failure"} if fails else {"end": "success", "body": "later"}
        self.say("fallback", ticket.command.group, now, ticket=ticket.number, **ended)
        self.collect(now, ticket)


def main(words: list[str]) -> int:
    if len(words) not in (1, 2):
        print(__doc__, file=sys.stderr)
        return 2
    Outage(words[0], int(words[1]) if len(words) == 2 else 7).play()
    return 0


if __name__ == "__main__":
    sys.exit(main(sys.argv[1:]))
