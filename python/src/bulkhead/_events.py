"""The events that the core counts, which are told to whoever asked for them: each listener by a thread of its own.

Within a turn an event is noted, and nothing of a listener is called. What waits is kept once for all listeners, and has a
bound: where a listener is that slow, the oldest events are dropped for it, and counted.
"""

from __future__ import annotations

from collections.abc import Callable, Iterable
from typing import TYPE_CHECKING, Any, NamedTuple, Optional

from . import _words as words
from ._tellers import Teller
from .errors import FailedValue, Refused, error_of

if TYPE_CHECKING:
    from ._core import Core
    from ._groups import Place

# how many events wait at most, and how many of them make room where they are too many
ROOM, _CUT = 10_000, 1_000

# an event as it is kept: the number of its kind, its command, its moment, how long the run took, and the exception
Kept = tuple[int, "Place", int, Optional[int], Optional[BaseException]]
# what a step is noted by: events, and who is woken for them
Noted = tuple[tuple[Kept, ...], tuple[Teller, ...]]
NOTHING: Noted = ((), ())

(
    BAD_REQUEST,
    EXCEPTION_THROWN,
    FAILURE,
    FALLBACK_FAILURE,
    FALLBACK_MISSING,
    FALLBACK_REJECTION,
    FALLBACK_SUCCESS,
    RESPONSE_FROM_CACHE,
    SEMAPHORE_REJECTED,
    SHORT_CIRCUITED,
    SUCCESS,
    THREAD_POOL_REJECTED,
    TIMEOUT,
) = range(13)

# by the number of the operation that ended a run, and by the cause of a refusal
OF_ENDS = {words.FINISH: SUCCESS, words.FAIL: FAILURE, words.FAIL_BAD_REQUEST: BAD_REQUEST}
OF_CAUSES = {
    words.SHORT_CIRCUITED: SHORT_CIRCUITED,
    words.POOL_REJECTED: THREAD_POOL_REJECTED,
    words.SEMAPHORE_REJECTED: SEMAPHORE_REJECTED,
}


class Event(NamedTuple):
    """An event that the core counted.

    `kind` is one of the 13 names that `Metrics` has for events, such as "success", "timeout" or "fallback_failure". `group`
    and `command` are names, the latter as `service.metrics` has it. `moment` is that of the step, in milliseconds of the
    service's clock. `took` is how long the run took by these moments, in milliseconds: of the ends of runs, and of a timeout
    whose run had begun, until then; else None. `error` is the exception where there was one: the function's, or a
    `FailedResult`; of a "fallback_failure" the fallback's.
    """

    kind: str
    group: str
    command: str
    moment: int
    took: Optional[int] = None
    error: Optional[BaseException] = None


class Listener(Teller):
    """Who asked for events, with the kinds of them."""

    def __init__(self, turns: Core, call: Callable[[Event], object], kinds: frozenset[int], log: EventLog) -> None:
        super().__init__(turns, call, "bulkhead-events")
        self.kinds, self._log = kinds, log
        # the number of the event that it is told next, and how many it was not told
        self.next = self.dropped = 0

    def take(self) -> list[tuple[Event]]:
        """What it is told, which is kept no longer for it."""
        while True:
            with self._turns.lock:
                kept = self._log.take(self)
            told = [(_event(one),) for one in kept if one[0] in self.kinds]
            if told or not kept:
                return told

    def anew(self, log: EventLog) -> Listener:
        """The same for a forked process."""
        return Listener(self._turns, self._call, self.kinds, log)


class EventLog:
    """The events that wait, by numbers from the first on. Everything here is done under the lock."""

    def __init__(self) -> None:
        self.kept: list[Kept] = []
        self.first = 0
        self.listeners: tuple[Listener, ...] = ()
        # those who found nothing, and have to be woken
        self.asleep: tuple[Listener, ...] = ()
        self._wanted: frozenset[int] = frozenset()
        self.tells_success = False

    def anew(self) -> EventLog:
        """The same of a forked process, to whose listeners nothing was told yet."""
        made = EventLog()
        for listener in self.listeners:
            made.add(listener.anew(made))
        return made

    def add(self, listener: Listener) -> None:
        """Has a listener told what comes from now on."""
        listener.next, wanted = self.first + len(self.kept), self._wanted | listener.kinds
        tells_success = SUCCESS in wanted
        # from here on nothing is called
        self._wanted, self.tells_success = wanted, tells_success
        self.listeners += (listener,)

    def of(self, place: Place, took: Optional[int], *told: tuple[int, Optional[BaseException]]) -> Noted:
        """The events of a step that somebody asked for, by their kinds and exceptions. Adds none, but makes room for them."""
        wanted = self._wanted
        if not wanted:
            return NOTHING
        moment = place.group.latest
        noted = tuple([(kind, place, moment, took, error) for kind, error in told if kind in wanted])
        if not noted:
            return NOTHING
        if len(self.kept) >= ROOM:
            self._make_room()
        return noted, self.asleep

    def of_success(self, place: Place, took: int) -> Noted:
        """The same of a run that gave a value, where somebody asked for such events: it is what each usual call has."""
        if len(self.kept) >= ROOM:
            self._make_room()
        return ((SUCCESS, place, place.group.latest, took, None),), self.asleep

    def _make_room(self) -> None:
        first = self.first + _CUT
        for listener in self.listeners:
            missed = self.kept[max(listener.next - self.first, 0) : _CUT]
            dropped = listener.dropped + sum(one[0] in listener.kinds for one in missed)
            ahead = max(listener.next, first)
            # from here on nothing is called
            listener.dropped, listener.next = dropped, ahead
        kept = self.kept[_CUT:]
        self.kept, self.first = kept, first

    def take(self, listener: Listener) -> list[Kept]:
        """What a listener was not told yet: where that is nothing it sleeps. What all were told is kept no longer."""
        taken = self.kept[listener.next - self.first :]
        if not taken:
            self.asleep = (*self.asleep, listener)
            return taken
        listener.next = self.first + len(self.kept)
        first = min(one.next for one in self.listeners)
        self.kept, self.first = self.kept[first - self.first :], first
        return taken


def numbers_of(kinds: Optional[Iterable[str]]) -> frozenset[int]:
    """The numbers of kinds of events: where none are given, of all. Raises `Refused` where there is no such kind."""
    if kinds is None:
        return frozenset(range(len(words.EVENTS)))
    given = (kinds,) if isinstance(kinds, str) else tuple(kinds)
    for kind in given:
        if kind not in words.EVENTS:
            raise Refused(f"no event is called {kind!r}: there are {', '.join(words.EVENTS)}")
    return frozenset(words.EVENTS.index(kind) for kind in given)


def _event(kept: Kept) -> Event:
    number, place, moment, took, error = kept
    if isinstance(error, FailedValue):
        error = error_of(place.spelled, words.FAILURE, None, error)
    return Event(words.EVENTS[number], place.group.name, place.spelled, moment, took, error)


def of_fallback(operation: int, error: Optional[BaseException], value: Any) -> tuple[tuple[int, Optional[BaseException]], ...]:
    """The events of a fallback's end, by its operation, the function's exception, and the fallback's value or exception."""
    if operation == words.FALLBACK_SUCCESS:
        return ((FALLBACK_SUCCESS, None),)
    if operation == words.FALLBACK_FAILURE:
        raised = value if isinstance(value, BaseException) else None
        return (FALLBACK_FAILURE, raised), (EXCEPTION_THROWN, error)
    return (FALLBACK_MISSING, None), (EXCEPTION_THROWN, error)


def of_giving_up(fallback: int, error: Optional[BaseException]) -> tuple[tuple[int, Optional[BaseException]], ...]:
    """The events of an answer for which no fallback was run, by the number of why."""
    rejected = ((FALLBACK_REJECTION, None),) if fallback == words.REJECTED else ()
    return *rejected, (EXCEPTION_THROWN, error)
