"""Threads that tell what happened: no call of a command waits for them, and nothing that they call ends them."""

from __future__ import annotations

import threading
from collections.abc import Callable, Sequence
from contextlib import suppress
from typing import TYPE_CHECKING, Any

from ._unraisable import tell_unraisable

if TYPE_CHECKING:
    from ._core import Core


class Teller:
    """A daemon thread that calls a function with each thing that is to be told, in order."""

    def __init__(self, turns: Core, call: Callable[..., object], name: str) -> None:
        self._turns, self._call, self._name = turns, call, name
        self._wake, self._claim = threading.Lock(), threading.Lock()
        self._wake.acquire()

    def take(self) -> Sequence[tuple[Any, ...]]:
        """The arguments of the calls that are due, which are kept no longer."""
        raise NotImplementedError

    def start(self) -> None:
        """Starts the thread. To start it twice is to start it once."""
        threading.Thread(target=self._work, name=self._name, daemon=True).start()

    def tell(self, by_timer: bool) -> None:
        """Wakes the thread: there is something to tell, or the service is closed."""
        if self._wake.locked():
            with suppress(RuntimeError):  # awake already
                self._wake.release()

    def _work(self) -> None:
        if not self._claim.acquire(blocking=False):
            return  # another thread is at it
        while (waiting := self.take()) or self._turns.is_open:
            for told in waiting:
                try:
                    self._call(*told)
                except BaseException as error:
                    tell_unraisable(error, self._call)
            if not waiting:
                self._wake.acquire()
