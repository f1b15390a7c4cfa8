"""The metrics of a command: those that the core tells at a moment, and what is counted from replies since the start."""

from __future__ import annotations

from collections.abc import Mapping, Sequence
from dataclasses import dataclass
from typing import NamedTuple

from . import _words as words

# upper bounds of a histogram of run times, in whole milliseconds: two to a doubling, from one millisecond to an hour
RUN_BOUNDS = tuple(sorted({round(2 ** (half / 2)) for half in range(44)} | {3_600_000}))


@dataclass(frozen=True)
class Metrics:
    """The metrics of a command at a moment. The events are those of the rolling window, by kind."""

    circuit: str
    errors: int
    total: int
    percent: int
    busy: int
    queued: int
    free: int
    bad_request: int
    exception_thrown: int
    failure: int
    fallback_failure: int
    fallback_missing: int
    fallback_rejection: int
    fallback_success: int
    response_from_cache: int
    semaphore_rejected: int
    short_circuited: int
    success: int
    thread_pool_rejected: int
    timeout: int


@dataclass(frozen=True)
class Totals:
    """How many events of each kind a command has had since its group was there."""

    bad_request: int = 0
    exception_thrown: int = 0
    failure: int = 0
    fallback_failure: int = 0
    fallback_missing: int = 0
    fallback_rejection: int = 0
    fallback_success: int = 0
    response_from_cache: int = 0
    semaphore_rejected: int = 0
    short_circuited: int = 0
    success: int = 0
    thread_pool_rejected: int = 0
    timeout: int = 0


def totals_in(events: Mapping[str, int]) -> Totals:
    """The counts of a line, which leaves out events that did not happen."""
    return Totals(**{name: events.get(name.upper(), 0) for name in words.EVENTS})


class Counters:
    """What is counted of a command since the service was opened, each number of which only rises."""

    __slots__ = ("ended", "events", "full", "run_ms")

    def __init__(self) -> None:
        # how many runs took how long, by the number of the operation that ended them; of Expire those that ended late
        operations = range(words.EXPIRE + 1)
        self.ended = [[0] * (len(RUN_BOUNDS) + 1) if operation in _ENDS else [] for operation in operations]
        # events by their numbers, save those that are the end of a run
        self.events = [0] * len(words.EVENTS)
        # calls that found no slot free, and how long runs took together
        self.full = self.run_ms = 0

    def counted(self) -> Counted:
        """A copy of it all, which is short as it is made within the service's lock."""
        ended = tuple([tuple(self.ended[operation]) for operation in _ENDS])
        return Counted(tuple(self.events), ended, self.full, self.run_ms)


class Counted(NamedTuple):
    """The counters of a command at a moment."""

    events: tuple[int, ...]
    # by how runs ended: with a value, a failure, a bad request, and late
    ended: tuple[tuple[int, ...], ...]
    full: int = 0
    run_ms: int = 0

    def totals(self) -> tuple[int, ...]:
        """Events since the start, by the numbers of their kinds."""
        told = [*self.events]
        for kind, counts in zip(_ENDED, self.ended):
            told[kind] = sum(counts)
        return tuple(told)

    def buckets(self) -> tuple[int, ...]:
        """How many runs took how long: up to each of the bounds, and longer."""
        return tuple(map(sum, zip(*self.ended)))


def health_of(totals: Sequence[int]) -> Health:
    """What health goes by, of the counts of events by the numbers of their kinds."""
    errors = sum(totals[kind] for kind in _ERRORS)
    return Health(errors, errors + totals[words.EVENTS.index("success")])


class Health(NamedTuple):
    """Runs that went wrong, and all of them."""

    errors: int = 0
    total: int = 0

    @property
    def percent(self) -> int:
        """The errors of a hundred runs, rounded down."""
        return 100 * self.errors // self.total if self.total else 0


_ENDS = (words.FINISH, words.FAIL, words.FAIL_BAD_REQUEST, words.EXPIRE)
_ENDED = [words.EVENTS.index(kind) for kind in ("success", "failure", "bad_request")]
_ERRORS = [words.EVENTS.index(kind) for kind in ("failure", "timeout", "thread_pool_rejected", "semaphore_rejected")]
