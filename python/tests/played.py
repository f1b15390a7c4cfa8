"""A small machine after docs/DEFINITIONS.md, played by a seed: what a page is given where no library has to be there.

It plays three groups with four commands, whose provider of payments gets slow, stands, and is well again; and as many
further groups as a test wants, some of them in trouble of another kind. Its clock stands until a test moves it.
"""

from __future__ import annotations

import heapq
import random
from bisect import bisect_left
from collections import Counter, deque
from collections.abc import Callable
from dataclasses import dataclass, field
from itertools import count
from typing import Any, Optional

from bulkhead import _words as words
from bulkhead._groups import Circuit
from bulkhead._looks import CommandLook, GroupLook
from bulkhead.metrics import RUN_BOUNDS, Counters
from bulkhead.settings import CommandSettings, GroupSettings

# when the provider of payments gets slow, stands, and is well again, in milliseconds after the start
SLOW, STANDS, WELL = 40_000, 42_000, 59_500
BASE = {
    "circuitBreaker.enabled": "true",
    "circuitBreaker.errorThresholdPercentage": "50",
    "circuitBreaker.forceClosed": "false",
    "circuitBreaker.forceOpen": "false",
    "circuitBreaker.requestVolumeThreshold": "20",
    "circuitBreaker.sleepWindowInMilliseconds": "5000",
    "execution.isolation.semaphore.maxConcurrentRequests": "10",
    "execution.isolation.strategy": "THREAD",
    "execution.isolation.thread.timeoutInMilliseconds": "800",
    "execution.timeout.enabled": "true",
    "fallback.enabled": "true",
    "fallback.isolation.semaphore.maxConcurrentRequests": "10",
    "metrics.rollingStats.timeInMilliseconds": "10000",
    "requestCache.enabled": "true",
}
_ENDS = {words.FINISH: "success", words.FAIL: "failure", words.FAIL_BAD_REQUEST: "bad_request"}


def settings_of(name: str, **changed: str) -> CommandSettings:
    """What is in force for a command: a keyword has an underscore for each dot of a property."""
    said = BASE | {key.replace("_", "."): value for key, value in changed.items()}
    return CommandSettings(
        name,
        is_pooled=said["execution.isolation.strategy"] == "THREAD",
        timeout_ms=int(said["execution.isolation.thread.timeoutInMilliseconds"]),
        is_cached=True,
        circuit_moves=said["circuitBreaker.enabled"] == "true" and said["circuitBreaker.forceOpen"] == "false",
        permits=int(said["execution.isolation.semaphore.maxConcurrentRequests"]),
        fallback_permits=int(said["fallback.isolation.semaphore.maxConcurrentRequests"]),
        falls_back=said["fallback.enabled"] == "true",
        said=said,
    )


@dataclass
class Behaviour:
    """How callers and the dependency of a command behave: calls a second, and how long a run takes."""

    rate: float
    least: int
    spread: int
    fails: float = 0.003
    slow: float = 0.0
    fallback_fails: float = 0.0
    has_no_fallback: bool = False
    joins: float = 0.0
    has_outage: bool = False


@dataclass
class Ticket:
    """A call on its way."""

    command: PlayedCommand
    ticket: int
    state: str = "queued"
    begun: int = 0

    @property
    def group(self) -> PlayedGroup:
        return self.command.group

    @property
    def place(self) -> PlayedCommand:
        return self.command


class PlayedCommand:
    """A command, by the counters and the circuit breaker that the package has."""

    def __init__(self, group: PlayedGroup, settings: CommandSettings, behaviour: Behaviour) -> None:
        self.group, self.settings, self.behaviour = group, settings, behaviour
        self.counters, self.circuit = Counters(), Circuit()
        self.busy = self.queued = self.in_fallback = 0
        self._seconds: dict[int, Counter[str]] = {}

    @property
    def name(self) -> str:
        return self.settings.name

    def count(self, kind: str, now: int) -> None:
        """An event that is no end of a run."""
        self.counters.events[words.EVENTS.index(kind)] += 1
        self._note(kind, now)

    def count_end(self, operation: int, kind: Optional[str], took: int, now: int) -> None:
        """A run ended after so many milliseconds; without a kind, late."""
        self.counters.ended[operation][bisect_left(RUN_BOUNDS, took)] += 1
        self.counters.run_ms += took
        if kind is not None:
            self._note(kind, now)

    def _note(self, kind: str, now: int) -> None:
        self._seconds.setdefault(now // 1000, Counter())[kind] += 1

    def health(self, now: int) -> tuple[int, int]:
        """Errors and runs of the rolling window."""
        for second in [second for second in self._seconds if second <= now // 1000 - 10]:
            del self._seconds[second]
        counts: Counter[str] = sum(self._seconds.values(), Counter())
        errors = sum(counts[kind] for kind in ("failure", "timeout", "thread_pool_rejected", "semaphore_rejected"))
        return errors, errors + counts["success"]

    def is_let_pass(self, now: int) -> bool:
        """Asks the circuit breaker. Where it opens now, `submitted` says so afterwards."""
        said = self.settings.said
        if said["circuitBreaker.enabled"] == "false":
            return True
        if said["circuitBreaker.forceOpen"] == "true":
            return False
        if self.circuit.state == 0:
            errors, total = self.health(now)
            return total < int(said["circuitBreaker.requestVolumeThreshold"]) or 100 * errors // total < 50
        opened = self.circuit.opened or 0
        return self.circuit.state == 1 and now - opened >= int(said["circuitBreaker.sleepWindowInMilliseconds"])

    def end_circuit(self, ticket: Ticket, operation: int) -> None:
        """Tells the circuit breaker of the end of a run."""
        before = self.circuit
        self.circuit = before.ended(ticket, operation)  # type: ignore[arg-type]
        if before.state and not self.circuit.state:
            self._seconds = {}

    def look(self) -> CommandLook:
        """The command at this moment."""
        return CommandLook(self, self.name, self.settings, self.circuit, self.counters.counted(), self.busy, self.queued)


class PlayedGroup:
    """A group: its commands, its pool, and its slots."""

    def __init__(self, name: str, core: int = 6, queue: int = 4, slots: int = 64) -> None:
        self.name, self.core, self.queue, self.slots = name, core, queue, slots
        self.commands: list[PlayedCommand] = []
        self.waiting: deque[Ticket] = deque()
        self.tickets = self.latest = 0
        self._settings: Optional[GroupSettings] = None

    def tune(self, command: PlayedCommand, **changed: str) -> None:
        """Changes properties of a command."""
        told = {key.replace(".", "_"): value for key, value in command.settings.said.items()}
        command.settings, self._settings = settings_of(command.name, **{**told, **changed}), None

    def look(self) -> GroupLook:
        """The group at this moment."""
        if self._settings is None:
            of = tuple(command.settings for command in self.commands)
            self._settings = GroupSettings(self.name, self.core, of, self.queue, self.slots)
        return GroupLook(self.name, self._settings, self.slots - self.tickets, tuple(one.look() for one in self.commands))

    def pool(self) -> tuple[int, int]:
        """How many runs of the pool are busy, and how many wait."""
        pooled = [command for command in self.commands if command.settings.is_pooled]
        return sum(command.busy for command in pooled), sum(command.queued for command in pooled)


@dataclass(order=True)
class Due:
    """Something that is to happen at a moment."""

    moment: int
    number: int
    act: Callable[..., None] = field(compare=False)
    about: tuple[Any, ...] = field(compare=False)


class World:
    """All groups of a service from its start on. It is what a `Watch` looks at."""

    is_open = True

    def __init__(self, commands: int = 4, seed: int = 7, has_outage: bool = True) -> None:
        self._dice, self._numbers = random.Random(seed), count(1)
        self._agenda: list[Due] = []
        self.moment, self.has_outage = 0, has_outage
        self.groups = made_groups(commands, self._dice)
        for command in [one for group in self.groups for one in group.commands]:
            if command.behaviour.rate:
                self._plan(self._dice.randrange(400), self._submit, command)

    def now(self) -> int:
        return self.moment

    def look(self) -> list[GroupLook]:
        return [group.look() for group in self.groups]

    def command(self, name: str) -> PlayedCommand:
        """The command of a name."""
        return next(one for group in self.groups for one in group.commands if one.name == name)

    def advance(self, to: int) -> None:
        """Does all that happens up to a moment."""
        while self._agenda and self._agenda[0].moment <= to:
            due = heapq.heappop(self._agenda)
            self.moment = due.moment
            due.act(due.moment, *due.about)
        self.moment = to

    def _plan(self, moment: float, act: Callable[..., None], *about: Any) -> None:
        heapq.heappush(self._agenda, Due(int(moment), next(self._numbers), act, about))

    # -- what happens

    def _submit(self, now: int, command: PlayedCommand) -> None:
        of, group = command.behaviour, command.group
        self._plan(now + self._dice.expovariate(of.rate / 1000) + 1, self._submit, command)
        if self._dice.random() < of.joins:
            command.count("response_from_cache", now)
            return
        if group.tickets >= group.slots:
            command.counters.full += 1
            return
        ticket, group.latest = Ticket(command, next(self._numbers)), now
        group.tickets += 1
        if not command.is_let_pass(now):
            self._refuse(now, ticket, words.SHORT_CIRCUITED)
        elif not command.settings.is_pooled:
            self._permit(now, ticket)
        elif sum(group.pool()) >= group.core + group.queue:
            self._refuse(now, ticket, words.POOL_REJECTED)
        else:
            self._placed(ticket, now)
            command.queued += 1
            group.waiting.append(ticket)
            self._start(now, group)

    def _permit(self, now: int, ticket: Ticket) -> None:
        if ticket.command.busy >= (ticket.command.settings.permits or 0):
            self._refuse(now, ticket, words.SEMAPHORE_REJECTED)
            return
        self._placed(ticket, now)
        self._begin(now, ticket)

    def _placed(self, ticket: Ticket, now: int) -> None:
        command = ticket.command
        if command.settings.circuit_moves:
            command.circuit = command.circuit.submitted(words.INLINE, 0, ticket.ticket, now)
        self._plan(now + (command.settings.timeout_ms or 0) + self._dice.randrange(10), self._expire, ticket)

    def _refuse(self, now: int, ticket: Ticket, cause: int) -> None:
        command = ticket.command
        command.count(words.CAUSES[cause - 1].replace("-", "_"), now)
        if command.settings.circuit_moves:
            command.circuit = command.circuit.submitted(words.FALLBACK_DUE, cause, ticket.ticket, now)
        self._fall_back(now, ticket)

    def _start(self, now: int, group: PlayedGroup) -> None:
        while group.waiting and group.pool()[0] < group.core:
            ticket = group.waiting.popleft()
            if ticket.state == "queued":
                ticket.command.queued -= 1
                self._begin(now, ticket)

    def _begin(self, now: int, ticket: Ticket) -> None:
        ticket.state, ticket.begun = "running", now
        ticket.command.busy += 1
        self._plan(now + self._run_time(ticket.command, now), self._end, ticket)

    def _run_time(self, command: PlayedCommand, now: int) -> float:
        of = command.behaviour
        usual = of.least + self._dice.random() ** 2 * of.spread
        if of.has_outage and self.has_outage and SLOW <= now < WELL:
            if now < STANDS:
                return usual + (now - SLOW) * 0.45 * self._dice.random()
            return 1_200 + self._dice.random() * 2_200
        late = (command.settings.timeout_ms or 0) * (1.1 + self._dice.random())
        return late if self._dice.random() < of.slow else usual

    def _end(self, now: int, ticket: Ticket) -> None:
        command, group, took = ticket.command, ticket.group, now - ticket.begun
        command.busy, group.latest = command.busy - 1, now
        if ticket.state == "running":
            self._ended(now, ticket, took)
        else:
            command.count_end(words.EXPIRE, None, took, now)
        self._start(now, group)

    def _ended(self, now: int, ticket: Ticket, took: int) -> None:
        of = ticket.command.behaviour
        fails = 0.3 if of.has_outage and self.has_outage and SLOW < now < SLOW + 4_500 else of.fails
        odd = self._dice.random()
        operation = words.FAIL if odd < fails else words.FAIL_BAD_REQUEST if odd > 0.999 else words.FINISH
        ticket.command.end_circuit(ticket, operation)
        ticket.command.count_end(operation, _ENDS[operation], took, now)
        if operation == words.FAIL:
            self._fall_back(now, ticket)
        else:
            self._gone(ticket)

    def _expire(self, now: int, ticket: Ticket) -> None:
        if ticket.state not in ("queued", "running"):
            return
        if ticket.state == "queued":
            ticket.command.queued -= 1
        ticket.group.latest = now
        ticket.command.count("timeout", now)
        ticket.command.end_circuit(ticket, words.FAIL)
        self._fall_back(now, ticket)

    def _fall_back(self, now: int, ticket: Ticket) -> None:
        command, ticket.state = ticket.command, "fallback"
        if command.behaviour.has_no_fallback:
            command.count("fallback_missing", now)
        elif command.in_fallback >= (command.settings.fallback_permits or 0):
            command.count("fallback_rejection", now)
        else:
            command.in_fallback += 1
            self._plan(now + 1 + self._dice.randrange(8), self._fallen_back, ticket)
            return
        command.count("exception_thrown", now)
        self._gone(ticket)

    def _fallen_back(self, now: int, ticket: Ticket) -> None:
        command = ticket.command
        command.in_fallback -= 1
        if self._dice.random() < command.behaviour.fallback_fails:
            command.count("fallback_failure", now)
            command.count("exception_thrown", now)
        else:
            command.count("fallback_success", now)
        self._gone(ticket)

    def _gone(self, ticket: Ticket) -> None:
        ticket.state = "done"
        ticket.group.tickets -= 1


_ODD: dict[str, tuple[Behaviour, dict[str, str]]] = {
    "ledger": (Behaviour(15, 350, 500), {"execution_isolation_thread_timeoutInMilliseconds": "2000"}),
    "geo": (Behaviour(9, 20, 60, fails=0.12, has_no_fallback=True), {"execution_isolation_strategy": "SEMAPHORE"}),
    "mail": (Behaviour(7, 100, 200, slow=0.09), {}),
    "report": (Behaviour(0, 1, 1), {}),
    "legacy": (Behaviour(2, 50, 50), {"circuitBreaker_forceOpen": "true"}),
    "menu": (Behaviour(4, 20, 40), {"circuitBreaker_enabled": "false"}),
}


def made_groups(commands: int, dice: random.Random) -> list[PlayedGroup]:
    """The groups of an outage, and behind them as many as are wanted, of which the first are odd ones."""
    groups: list[PlayedGroup] = []

    def add(name: str, behaviour: Behaviour, group: Optional[PlayedGroup] = None, **said: str) -> PlayedGroup:
        if group is None:
            group = PlayedGroup(name)
            groups.append(group)
        group.commands.append(PlayedCommand(group, settings_of(name, **said), behaviour))
        return group

    add("catalog", Behaviour(8.5, 30, 50, joins=0.15))
    payment = add("payment", Behaviour(6.5, 60, 90, fails=0, has_outage=True))
    add("refund", Behaviour(1.2, 80, 120, fails=0, has_outage=True, fallback_fails=0.5), payment)
    permits = {"execution_isolation_strategy": "SEMAPHORE", "execution_isolation_semaphore_maxConcurrentRequests": "5"}
    add("search", Behaviour(5.0, 40, 160, fails=0.006, joins=0.04), **permits)
    for name, (behaviour, said) in [*_ODD.items()][: max(0, commands - 4)]:
        add(name, behaviour, **said)
    for number in range(commands - 4 - len(_ODD)):
        rate = dice.choice((0.4, 2, 4, 6, 9, 14))
        add(f"plain-{number + 1}", Behaviour(rate, 10 + dice.randrange(60), 20 + dice.randrange(120), fails=0.004)).core = 10
    return groups
