"""The helpers of a group: threads that run what a timeout or a failure sets off, as the fallback of a future."""

from __future__ import annotations

import threading
from collections.abc import Callable
from contextlib import suppress
from typing import Optional

from ._unraisable import tell_unraisable

Work = Callable[[], object]
# what is raised where there is no thread to be had
NO_THREAD = (RuntimeError, MemoryError)


class Helpers:
    """A thread for each piece of work. Where none can be started there is a spare one, which was started before."""

    def __init__(self, group: str) -> None:
        self._name = f"bulkhead-{group}-helper"
        self._left: list[Work] = []
        self._starting, self._wake = threading.Lock(), threading.Lock()
        self._wake.acquire()
        self._has_spare = self._is_over = False

    def begin(self) -> None:
        """Starts the spare thread, unless it is there. Raises RuntimeError where it cannot be started."""
        if not self._has_spare:
            with self._starting:
                if not self._has_spare:
                    self._start(self._stand_by)
                    self._has_spare = True

    def tell(self, by_timer: bool) -> None:
        """The group is over: the spare thread ends behind what is left."""
        self._is_over = True
        self._wake_spare()

    def help_out(self, work: Work) -> None:
        """Has a thread do a piece of work."""
        try:
            self._start(self._help, work)
        except NO_THREAD:
            self._left.append(work)
            self._wake_spare()

    def _start(self, target: Callable[..., None], *arguments: object) -> None:
        threading.Thread(target=target, args=arguments, name=self._name, daemon=True).start()

    def _wake_spare(self) -> None:
        with suppress(RuntimeError):  # awake already
            self._wake.release()

    def _next(self) -> Optional[Work]:
        with suppress(IndexError):
            return self._left.pop(0)
        return None

    def _help(self, work: Optional[Work]) -> None:
        """Does a piece of work, and then what is left of others, as there are threads again."""
        while work is not None:
            try:
                work()
            except BaseException as error:
                tell_unraisable(error, work)
            work = self._next()

    def _stand_by(self) -> None:
        """The spare thread: tries once more to start one for what is left, and does it itself where that fails."""
        while not self._is_over:
            self._wake.acquire()
            while (work := self._next()) is not None:
                try:
                    self._start(self._help, work)
                except NO_THREAD:
                    self._help(work)
