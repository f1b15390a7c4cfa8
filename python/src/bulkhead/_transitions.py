"""What is told of circuit breakers that changed: in order, by a thread of its own."""

from __future__ import annotations

from collections.abc import Callable
from typing import TYPE_CHECKING, NamedTuple

from . import _words as words
from ._tellers import Teller

if TYPE_CHECKING:
    from ._core import Core

# what `on_transition` is called with: the name of a command, and its circuit's states
Change = tuple[str, str, str]


class Changes(NamedTuple):
    """What is still to be told, and how many changes were not, as too many waited."""

    waiting: tuple[Change, ...] = ()
    dropped: int = 0


# how many changes wait at most
ROOM = 1000


def with_change(changes: Changes, name: str, before: int, after: int) -> Changes:
    """The changes with one more behind them, or where there is no room for it one more that was dropped."""
    if len(changes.waiting) >= ROOM:
        return changes._replace(dropped=changes.dropped + 1)
    return changes._replace(waiting=(*changes.waiting, (name, words.CIRCUITS[before], words.CIRCUITS[after])))


class TransitionTeller(Teller):
    """The thread that calls `on_transition`."""

    def __init__(self, turns: Core, call: Callable[[str, str, str], object]) -> None:
        super().__init__(turns, call, "bulkhead-transitions")

    def take(self) -> tuple[Change, ...]:
        return self._turns.take_changes()

    def anew(self) -> TransitionTeller:
        """The same for a forked process."""
        return TransitionTeller(self._turns, self._call)
