"""What a service keeps of its last minutes: columns of a second, which the page draws and tools sum up."""

from __future__ import annotations

from array import array
from collections import deque
from itertools import groupby
from typing import NamedTuple, TypeVar, Union

from .. import _words as words
from .._looks import HELD_OPEN, CommandLook
from ..metrics import RUN_BOUNDS, Counted, Health, health_of

# how many columns are kept, and how long each is in milliseconds
KEPT, COLUMN_MS = 300, 1000
# over how many columns run times are told
_TIMED = 60
_STATES = (*words.CIRCUITS, HELD_OPEN)
_KINDS = tuple(kind.upper() for kind in words.EVENTS)

T = TypeVar("T")


class Columns:
    """Numbers by their names, and perhaps a state, for each of the columns that are kept.

    A name takes its room when it has a number above 0 for the first time.
    """

    def __init__(self, born: int) -> None:
        # the number of the first column, and of the one behind the last
        self.born = self.next = born
        self._numbers: dict[str, array[int]] = {}
        self._states = bytearray(KEPT)

    def put(self, column: int, numbers: dict[str, int], state: int = 0) -> None:
        """Keeps a column that is over. Those before it that were not put are empty."""
        for at in range(max(self.next, column + 1 - KEPT), column + 1):
            self._states[at % KEPT] = state
            for kept in self._numbers.values():
                kept[at % KEPT] = 0
        self.next, at = column + 1, column % KEPT
        for name, number in numbers.items():
            if number:
                self._numbers.setdefault(name, array("I", [0]) * KEPT)[at] = number

    def since(self, first: int) -> dict[str, list[int]]:
        """The numbers from a column on, by those names that have one above 0."""
        told = {name: self._cut(kept, first) for name, kept in self._numbers.items()}
        return {name: numbers for name, numbers in told.items() if any(numbers)}

    def states_since(self, first: int) -> list[list[object]]:
        """The states from a column on: each with how many columns it has, one behind the other."""
        return [[_STATES[state], len([*same])] for state, same in groupby(self._cut(self._states, first))]

    def sum(self, name: str, columns: int) -> int:
        """The sum of a name over the last columns."""
        kept = self._numbers.get(name)
        return 0 if kept is None else sum(self._cut(kept, self.next - columns))

    def most(self, name: str, columns: int) -> int:
        """The greatest number of a name in the last columns."""
        kept = self._numbers.get(name)
        return 0 if kept is None else max(self._cut(kept, self.next - columns), default=0)

    def _cut(self, kept: Union[array[int], bytearray], first: int) -> list[int]:
        first = max(first, self.born, self.next - KEPT)
        if first >= self.next:
            return []
        start, end = first % KEPT, (self.next - 1) % KEPT + 1
        return [*kept[start:end]] if start < end else [*kept[start:], *kept[:end]]


class Latency(NamedTuple):
    """How long runs took, in milliseconds, over the last minute: the mean, and by percentiles."""

    mean: int
    percentiles: dict[str, int]


class CommandPast:
    """The past of a command, from its first look on."""

    def __init__(self, look: CommandLook, column: int, counted: Counted) -> None:
        self.look, self.columns = look, Columns(column)
        self._last = counted, counted.totals(), look.circuit.trips if counted is look.counted else 0
        self._healths = deque([(column, health_of(self._last[1]))])
        self._timed = deque([(column, counted.buckets(), counted.run_ms)])
        window = int(look.settings.said.get("metrics.rollingStats.timeInMilliseconds", 10_000))
        self._window = max(1, min(KEPT, window // COLUMN_MS))

    def take(self, look: CommandLook, column: int) -> None:
        """Keeps what came since the last look as a column that is over."""
        counted, totals, trips = self._last
        is_same = look.counted == counted
        after = totals if is_same else look.counted.totals()
        numbers = {} if is_same else {kind: now - then for kind, now, then in zip(_KINDS, after, totals)}
        numbers |= {"busy": look.busy, "queued": look.queued, "opened": look.circuit.trips - trips}
        self.columns.put(column, numbers, _STATES.index(look.state))
        self.look, self._last = look, (look.counted, after, look.circuit.trips)
        _keep(self._healths, (column + 1, health_of(after)), self._window)
        buckets = self._timed[-1][1] if is_same else look.counted.buckets()
        _keep(self._timed, (column + 1, buckets, look.counted.run_ms), _TIMED)

    def health(self) -> Health:
        """The runs of the rolling window since the circuit breaker closed: by looks, and so right to a second."""
        now, then, closed = self._healths[-1][1], self._healths[0][1], self.look.circuit.healthy_from
        errors = now.errors - max(then.errors, closed.errors)
        return Health(max(0, errors), max(0, now.total - max(then.total, closed.total)))

    def rolling(self, kind: str) -> int:
        """How many events of a kind the rolling window has."""
        return self.columns.sum(kind, self._window)

    def most_busy(self) -> int:
        """The most runs at a look within the rolling window."""
        return self.columns.most("busy", self._window)

    def latency(self, percentiles: tuple[str, ...]) -> Latency:
        """How long the runs of the last minute took, by the bounds of the histogram; 0 where there were none."""
        (_, before, ms_before), (_, after, ms_after) = self._timed[0], self._timed[-1]
        counts = [now - then for now, then in zip(after, before)]
        number = sum(counts)
        mean = (ms_after - ms_before) // number if number else 0
        return Latency(mean, {told: _at(counts, float(told), number) for told in percentiles})


def _keep(kept: deque[T], one: T, columns: int) -> None:
    """Keeps what a look told for so many columns: the first is the latest that is no younger."""
    kept.append(one)
    while len(kept) > 1 and kept[1][0] <= one[0] - columns:  # type: ignore[index]
        kept.popleft()


def _at(counts: list[int], percentile: float, number: int) -> int:
    """The bound below which so many of a hundred runs ended."""
    wanted, so_far = percentile * number / 100, 0
    for bound, count in zip((*RUN_BOUNDS, RUN_BOUNDS[-1]), counts):
        so_far += count
        if count and so_far >= wanted:
            return bound
    return 0


def first_of(wanted: int, upto: int) -> int:
    """The first column that is told to whoever asks for those from a number on."""
    return min(max(wanted, upto - KEPT, 0), upto)

