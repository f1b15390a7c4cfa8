"""What Python knows of a group and of its commands, as the replies tell it."""

from __future__ import annotations

import copy
from math import inf
from typing import TYPE_CHECKING, Optional
from weakref import WeakSet

from . import _words as words
from ._helpers import Helpers
from .metrics import Counters, Health, health_of
from .settings import CommandSettings, GroupSettings

if TYPE_CHECKING:
    from ._pools import Worker
    from ._runs import Run
    from ._tuning import Value


class Circuit:
    """A command's circuit breaker as the replies tell it: what `read` would say, without a step. It never changes."""

    __slots__ = ("healthy_from", "opened", "since", "state", "test", "trips")

    def __init__(self) -> None:
        self.state, self.test = 0, 0
        # since when it is closed, or is not; when it opened last; and how often it did
        self.since: Optional[int] = None
        self.opened: Optional[int] = None
        self.trips = 0
        # the runs, and the wrong ones of them, that no longer count, as it closed since
        self.healthy_from = Health()

    def _then(self, state: int, test: int = 0) -> Circuit:
        after = copy.copy(self)
        after.state, after.test = state, test
        return after

    def _open_at(self, moment: int) -> Circuit:
        after = self._then(1)
        after.opened, after.trips = moment, self.trips + 1
        if self.state == 0:
            after.since = moment
        return after

    def submitted(self, kind: int, cause: int, ticket: int, moment: int) -> Circuit:
        """How it is after a submit that made a ticket."""
        is_due = kind == words.FALLBACK_DUE
        if is_due and cause == words.SHORT_CIRCUITED:
            return self._open_at(moment) if self.state == 0 else self
        if self.state == 0:
            return self
        return self._open_at(moment) if is_due else self._then(2, ticket)

    def ended(self, run: Run, operation: int) -> Circuit:
        """How it is after the end of a run, by its operation: a bad request says nothing of the dependency."""
        if self.state != 2 or run.ticket != self.test:
            return self
        if operation == words.FAIL_BAD_REQUEST:
            return self._then(1)
        moment = run.group.latest
        if operation != words.FINISH:
            return self._open_at(moment)
        after = self._then(0)
        errors, total = health_of(run.place.counters.counted().totals())
        after.since, after.opened, after.healthy_from = moment, None, Health(errors, total + 1)
        return after


class Place:
    """A command of a group, with what is kept of it."""

    def __init__(self, group: Group, number: int, settings: CommandSettings, spelled: str) -> None:
        self.group, self.number, self.settings = group, number, settings
        # the name that no other command of the service has
        self.spelled = spelled
        # how long a run may take, in milliseconds
        self.limit = inf if settings.timeout_ms is None else settings.timeout_ms
        self.renew()

    def renew(self) -> None:
        """Nothing has happened yet."""
        self.circuit, self.counters = Circuit(), Counters()
        # the runs that timed out and go on
        self.late: list[Run] = []
        # the calls that found no slot, and are at their fallback
        self.in_fallback: WeakSet[Run] = WeakSet()


class Group:
    """A group: its commands by their numbers, its threads, and the tickets that somebody needs yet."""

    def __init__(self, number: int, settings: GroupSettings, name: str) -> None:
        self.number, self.name, self.settings = number, name, settings
        self.like, self.core_size = settings.name, settings.core_size
        own, *others = settings.commands
        before = "" if name == settings.name else f"{name}/"
        self.places = (
            Place(self, 0, own, name),
            *(Place(self, at, other, before + other.name) for at, other in enumerate(others, 1)),
        )
        # the properties that changed since, by the number of the command and the name
        self.tunes: dict[tuple[int, str], Value] = {}
        self.runs: dict[int, Run] = {}
        # the moment of its latest step
        self.latest = -1
        self.queued = self.threads = 0
        self.idle: list[Worker] = []
        self.workers: list[Worker] = []
        self.helpers = Helpers(name)
        # why no step is handed in any more: 0, STOPPED, RETIRED or WORN
        self.over = 0

    def renew(self, why: int) -> None:
        """In a forked process: the group is as it was opened. Whoever has a ticket of the parent's is told why it is over."""
        gone = copy.copy(self)
        gone.over, runs = self.over or why, [*self.runs.values()]
        gone.runs = {}
        for run in runs:
            run.group = gone
            run.stop_callers(gone.over)
        self.runs, self.latest, self.queued, self.threads = {}, -1, 0, 0
        self.idle, self.workers, self.helpers = [], [], Helpers(self.name)
        gone.helpers = self.helpers
        if self.over == words.WORN:
            self.over = 0
        for place in self.places:
            place.renew()

    def command_names(self) -> list[str]:
        """The names of the commands by their numbers: the own one goes by the name of the group."""
        return [self.name, *(place.settings.name for place in self.places[1:])]
