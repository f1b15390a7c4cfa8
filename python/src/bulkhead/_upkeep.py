"""What has to be looked after while nobody calls."""

from __future__ import annotations

import threading
import time
import weakref
from collections.abc import Callable
from typing import Optional

from ._helpers import NO_THREAD
from ._unraisable import tell_unraisable

# how long it pauses behind a look that raised, in seconds
_PAUSE = 0.1


class Upkeep:
    """A daemon thread that is there as long as there is something to look after.

    `look` is a method that does what is due, and tells in how many seconds it is to be called again, or None where nothing is
    left. Its object is not kept by this.
    """

    def __init__(self, name: str, look: Callable[[], Optional[float]]) -> None:
        self._name, self._look = name, weakref.WeakMethod(look)
        self._lock, self._is_there, self._is_wanted = threading.RLock(), False, False

    def begin(self) -> bool:
        """There is something to look after. Tells whether the thread is there: the system may have none to give."""
        with self._lock:
            self._is_wanted = True
            if not self._is_there:
                try:
                    threading.Thread(target=self._work, name=self._name, daemon=True).start()
                    self._is_there = True
                except NO_THREAD:
                    pass
            return self._is_there

    def _work(self) -> None:
        while (pause := self._looked()) is not None:
            time.sleep(pause)

    def _looked(self) -> Optional[float]:
        with self._lock:
            self._is_wanted = False
        look = self._look()
        try:
            pause = None if look is None else look()
        except BaseException as error:
            tell_unraisable(error, look)
            pause = _PAUSE
        with self._lock:
            if pause is None and self._is_wanted:  # since that look
                pause = 0.0
            self._is_there = pause is not None
        return pause
