"""The whole of a service's turns: beside calls and answers what time and the end bring."""

from __future__ import annotations

from asyncio import AbstractEventLoop
from math import inf
from time import monotonic_ns
from typing import TYPE_CHECKING, Any, Optional, Union

from . import _library, _words as words
from ._answers import Answers
from ._events import TIMEOUT, Listener
from ._groups import Group, Place
from ._pools import Worker
from ._reopening import Reopening
from ._runs import FALLBACK_DUE, LIVE, RETIRED, STOPPED, Run
from ._timer import Timer
from ._transitions import Changes, TransitionTeller
from .errors import NoSuchGroup, Stopped, Worn

if TYPE_CHECKING:
    from collections.abc import Callable

    from ._coroutines import Awaiter, Carried
    from .steps import Service as StepService

_KIND_AT, _COMMAND_AT = _library.KIND_AT, _library.COMMAND_AT


class Core(Answers):
    """The lock, the steps, and what is kept of each ticket."""

    teller: Optional[TransitionTeller] = None

    def __init__(
        self, settings: bytes, opened: StepService, clock: Optional[Callable[[], int]], reopens: bool = False
    ) -> None:
        super().__init__(opened, clock)
        # what a forked process opens the service by, if it does; how many groups are those of the settings
        self.settings, self.reopens, self.listed = settings, reopens, 0
        # whether it is to be closed, where it has still to be opened anew
        self.is_closing = False
        self.has_timer = False
        # the tasks that run functions, and those who wait, by their loops
        self.loops: dict[AbstractEventLoop, dict[Union[Awaiter, Carried], None]] = {}
        # the moment of the latest step when the timer looked last
        self._looked_at = -1
        # the groups for which a worker could not be started, which the timer tries again
        self.short: set[Group] = set()

    def new_worker(self, group: Group) -> Worker:
        """A worker of the group, whose thread starts when it is told."""
        return Worker(self, group)

    def start_teller(self, call: Callable[[str, str, str], object]) -> None:
        """Has changes of circuit breakers told from now on."""
        teller = TransitionTeller(self, call)
        teller.start()
        self.teller = teller

    def listen(self, listener: Listener) -> None:
        """Has events told from now on."""
        if not self.is_open:
            raise Stopped("the service is closed")
        self.events.add(listener)

    def fall_short(self, group: Group) -> None:
        if group not in self.short:
            self.short.add(group)
            if self.alarm is not None:
                self.say(self.alarm)

    # -- time

    def start_timer(self) -> None:
        """Starts the thread that times out what is due."""
        timer = Timer(self)
        self.alarm, self.alarm_at, self.has_timer = timer, inf, True
        timer.start()

    def expire(self, group: Group) -> int:
        """Times out what is due in a group, and tells how many tickets those were."""
        late: list[Run] = []
        if not group.over:
            self.step(group, words.EXPIRE, 0, self._expired, group, late, None)
        return len(late)

    def _expired(self, group: Group, late: list[Run], _: None) -> None:
        if self.reply[_KIND_AT] == words.WORN:
            self.is_over(group, words.WORN)
            self.unit = None
            return
        if not late:
            late += _late(group, group.latest)
        for run in late:
            place = run.place
            if run.task is not None:
                self.told += (run.task,)
            changes = self.circuit_changes(place, place.circuit.ended(run, words.FAIL))
            took = None if run.is_queued else group.latest - run.started
            events, tellers = self.events.of(place, took, (TIMEOUT, None))
            if changes:
                place.circuit, self.changes, told_of = changes
                self.told += told_of
            if run.state == LIVE:
                run.state, group.queued = FALLBACK_DUE, group.queued - run.is_queued
                place.counters.events[TIMEOUT] += 1
                if not run.is_queued:
                    place.late += (run,)
                self.events.kept += events
                if tellers:
                    self.told += tellers
                    self.events.asleep = ()
        self.todo += late
        self.unit = None

    def hire_again(self) -> None:
        """Starts workers that could not be started before, where work waits for them."""
        self.short = {group for group in self.short if group.queued and group.threads < group.core_size}
        for group in self.short:
            for _ in range(min(group.queued, group.core_size - group.threads)):
                self.hire(group)

    def expire_all(self) -> int:
        """Times out what is due in all groups, and tells how many tickets those were."""
        if not self.is_open:
            raise Stopped("the service is closed")
        now, count = self.now(), 0
        for group in [*self.groups.values()]:
            if _late(group, now):
                count += self.expire(group)
                self.settle()
        return count

    def now(self) -> int:
        """The moment of the clock, in milliseconds."""
        return monotonic_ns() // 1_000_000 if self._clock is None else self._clock()

    def read(self, place: Place) -> bytearray:
        """Asks for the metrics of a command: the bytes of the reply. Raises `NoSuchGroup`, `Worn` and `Stopped`."""
        group = place.group
        if not group.over:
            self.given[_COMMAND_AT] = place.number
            self.step(group, words.READ, 0, self._was_read, group, None, None)
        if group.over == RETIRED:
            raise NoSuchGroup(f"{group.name}: the group was retired")
        if group.over == words.WORN:
            raise Worn(f"{group.name}: the group has made all of its steps")
        if group.over:
            raise Stopped("the service is closed")
        return self.reply[:]

    def _was_read(self, group: Group, *_: None) -> None:
        if self.reply[_KIND_AT] == words.WORN:
            self.is_over(group, words.WORN)
        self.unit = None

    def next_due(self) -> float:
        """The moment at which something may time out first, until which the timer sleeps: infinity where nothing may.

        Where nothing runs, but something did since the last time, it is that of a run that begins now: so the timer is not
        woken by each call of a service that has one at a time.
        """
        groups = self.groups.values()
        first = min((run.due for group in groups for run in group.runs.values() if run.state == LIVE), default=inf)
        latest = max((group.latest for group in groups), default=-1)
        if first == inf and latest > self._looked_at:
            first = latest + min(place.limit for group in groups for place in group.places)
        self.alarm_at, self._looked_at = first, latest
        return first

    # -- the end

    def end_group(self, group: Group, why: int = RETIRED) -> None:
        """The group was retired, or the service is closed. May be called again where it was interrupted."""
        self.is_over(group, group.over or why)

    def close(self) -> None:
        """Closes the service: everybody who waits is told, workers end, and the memory is given back."""
        if self.is_open:
            for group in [*self.groups.values()]:
                self.end_group(group, STOPPED)
            self.is_open = False
            for thread in (self.alarm, self.teller, *self.events.listeners):
                if thread is not None:
                    self.say(thread)
            self.opened.close()

    # -- forks

    def locks(self) -> list[Any]:
        """What a fork waits for, in order."""
        return [self._lock]

    def go_on_in_child(self) -> None:
        """In a forked process: nothing of the parent's is used, and the next turn opens the service anew, or none does.

        A fork in the midst of a turn, as by a clock of a test's own, leaves no service that could be opened anew.
        """
        if not self.is_open:
            return
        if not self.reopens or self.is_turning:
            self.stop_in_child()
            return
        for group in self.every_group:
            group.renew(STOPPED)
        if self.record is not None:
            self.record.drop()
        self.opened.forget()
        reopening = Reopening(self.listed, self.has_timer)
        self.owed, self._untold, self.todo, self.unit = [reopening], [], [], None
        self.loops, self.short, self.changes, self._looked_at = {}, set(), Changes(), -1
        self.alarm, self.alarm_at, self.has_acted = None, -inf, False
        self.teller = None if self.teller is None else self.teller.anew()
        self.events = self.events.anew()

    def stop_in_child(self) -> None:
        """In a forked process: the service is its parent's alone, and everything here is `Stopped`."""
        self.is_open = False
        for group in self.every_group:
            group.renew(STOPPED)
            group.over = group.over or STOPPED
        if self.record is not None:
            self.record.drop()
            self.record = None
        self.opened.forget()


def _late(group: Group, moment: int) -> list[Run]:
    """The runs of a group that are to have ended by a moment."""
    return [run for run in group.runs.values() if run.state == LIVE and run.due <= moment]
