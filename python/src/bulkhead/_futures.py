"""A holder that is a `concurrent.futures.Future`."""

from __future__ import annotations

import threading
from collections.abc import Callable
from concurrent.futures import Future, InvalidStateError
from functools import partial
from typing import TYPE_CHECKING, Any, Optional

from . import _words as words
from ._runs import FallbackEnd, Holder, Run

if TYPE_CHECKING:
    from ._core import Core


class FutureHolder(Holder):
    """A future that is answered by the thread which ends the ticket, or by a helper of the group."""

    # whether a coroutine that awaited it was cancelled, which the future of a run that goes on cannot be
    is_unwanted = False
    # how its fallback ended, where that may have to be told by another turn
    _fell_back: Optional[FallbackEnd] = None

    def __init__(self, turns: Core) -> None:
        self._turns = turns
        self.future: Future[Any] = Future()
        self._beginning, self._has_begun = threading.RLock(), False

    def is_gone(self) -> bool:
        return self.has_left or self.is_unwanted or self.future.cancelled()

    def give_back(self, turns: Core) -> None:
        if self._fell_back is None or self.run is None:
            super().give_back(turns)
        elif self.outcome == words.RUN_FALLBACK:
            turns.end_fallback(self.run, self._fell_back, self)

    def begin(self) -> None:
        """From now on it is running, and cannot be cancelled; where it was before, whoever waits is told so."""
        with self._beginning:
            if not self._has_begun:
                self._has_begun = True
                self.future.set_running_or_notify_cancel()

    def tell(self, by_timer: bool) -> None:
        run = self.run
        if self.has_left:
            return
        if run is not None and (by_timer or self.outcome == words.RUN_FALLBACK):
            run.group.helpers.help_out(self._fall_back if self.outcome == words.RUN_FALLBACK else self.resolve)
        elif not self.is_open():
            self.resolve()

    def resolve(self) -> None:
        """Hands the answer to the future. May be called again where it was interrupted."""
        future = self.future
        self.begin()
        try:
            if self.outcome in (words.VALUE, words.FALLBACK_VALUE):
                future.set_result(self.value)
            else:
                future.set_exception(self.exception())
        except InvalidStateError:
            pass  # it was cancelled, or has its answer

    def fall_back_apart(self) -> None:
        """Runs the fallback of a call that got no ticket, in a helper."""
        if self.refused is not None:
            self.begin()
            self.take_fallback(_fallen_back(self.refused.fall_back, self.refused))
        self.resolve()

    def _fall_back(self) -> None:
        """Runs the fallback in the variables of the ticket's first caller; that turn tells the future again."""
        turns, run = self._turns, self.run
        assert run is not None, "a fallback is of a ticket"
        self.begin()
        self._fell_back = ended = _fallen_back(partial(turns.run_fallback, run), run)
        try:
            turns.turn_of(turns.end_fallback, run, ended, self)
        except BaseException:
            turns.owed += (self,)
            raise
        if not self.is_open():
            self.resolve()


def _fallen_back(fall_back: Callable[[], FallbackEnd], run: Run) -> FallbackEnd:
    """How a fallback ended that was run in the variables of a call's caller. Raises nothing."""
    try:
        return fall_back() if run.variables is None else run.variables.copy().run(fall_back)
    except BaseException as error:
        return words.FALLBACK_FAILURE, error
