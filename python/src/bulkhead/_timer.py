"""The timer: a thread that times out what is due, and runs no foreign code."""

from __future__ import annotations

import threading
from contextlib import suppress
from typing import TYPE_CHECKING

from ._unraisable import tell_unraisable
from .errors import Stopped

if TYPE_CHECKING:
    from ._core import Core

# how long it sleeps at most, in seconds: a wake that was lost costs no more than this
_LONGEST = 60.0
# how long it pauses behind what it has to try again, in seconds
_PAUSE = 0.01


class Timer:
    """The daemon thread of one service."""

    def __init__(self, turns: Core) -> None:
        self._turns = turns
        self._wake, self._claim = threading.Lock(), threading.Lock()
        self._wake.acquire()

    def start(self) -> None:
        """Starts the thread. To start it twice is to start it once."""
        threading.Thread(target=self._work, name="bulkhead-timer", daemon=True).start()

    def tell(self, by_timer: bool) -> None:
        """Wakes the thread: something is due earlier than it sleeps."""
        with suppress(RuntimeError):  # awake already
            self._wake.release()

    def _work(self) -> None:
        if not self._claim.acquire(blocking=False):
            return  # another thread is at it
        while self._turns.is_open:
            try:
                self._look()
            except BaseException as error:
                tell_unraisable(error, self._work)
                self._wake.acquire(timeout=_PAUSE)

    def _look(self) -> None:
        """Times out what is due, or sleeps until something is."""
        turns = self._turns
        ahead = turns.turn(self._ahead, by_timer=True)
        if ahead <= 0:
            with suppress(Stopped):
                turns.turn(turns.expire_all, by_timer=True)
        elif turns.short:
            self._wake.acquire(timeout=min(ahead / 1000, _PAUSE))
            turns.turn(turns.hire_again, by_timer=True)
        else:
            self._wake.acquire(timeout=min(ahead / 1000, _LONGEST))

    def _ahead(self) -> float:
        """In how many milliseconds something is due first."""
        return self._turns.next_due() - self._turns.now()
