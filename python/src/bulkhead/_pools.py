"""The pool of a group: its workers, which run functions."""

from __future__ import annotations

import threading
from typing import TYPE_CHECKING, Any, Optional

from . import _library, _words as words
from ._failures import PLAIN, End
from ._groups import Group
from ._helpers import NO_THREAD
from ._runs import Run, Waiter
from ._unraisable import tell_unraisable

if TYPE_CHECKING:
    from ._core import Core

_KIND_AT, _NUMBER_WORD = _library.KIND_AT, _library.NUMBER_WORD
_START, _ASSIGNED = words.START, words.ASSIGNED
# how long a worker pauses behind a turn that raised, in seconds
_PAUSE = 0.01


class Worker:
    """A daemon thread of one group, which asks for runs and does them."""

    def __init__(self, turns: Core, group: Group) -> None:
        self._turns, self._group = turns, group
        self._wake, self._claim = threading.Lock(), threading.Lock()
        self._wake.acquire()
        # whether the group does not count it yet
        self.is_new = True
        self._is_started = self._is_idle = self._is_over = False
        self._given: Optional[Run] = None

    def tell(self, by_timer: bool) -> None:
        """Wakes its thread, or starts it. One that cannot be started leaves its work to the others."""
        if self._is_started:
            try:
                self._wake.release()
            except RuntimeError:
                pass  # awake already
            return
        thread = threading.Thread(target=self._work, name=f"bulkhead-{self._group.name}-worker", daemon=True)
        try:
            thread.start()
        except NO_THREAD:
            self._turns.turn(self._turns.dismiss, self, self._group)

    def _work(self) -> None:
        if not self._claim.acquire(blocking=False):
            return  # it was told twice, and another thread is at it
        self._is_started = True
        turn, ask, wait, thread = self._turns.turn_of, self._ask, self._wake.acquire, threading.get_ident()
        run = ended = None
        while not self._is_over:
            try:
                run = turn(ask, run, ended, None)
            except BaseException as error:
                # asked once more: what was ended is ended then, and what was given is given still
                tell_unraisable(error, self._work)
                wait(timeout=_PAUSE)
                continue
            if run is None and self._is_idle:
                wait()
                run = self._given
            self._given = None
            if run is not None:
                if run.is_cached:
                    run.thread = thread
                ended = _run(run)

    def go_on(self, turns: Core) -> None:
        """Asks for a run while the worker sleeps, in the turn of a submit, which spares it a turn of its own."""
        group = self._group
        if self._given is None and group.queued and not group.over:
            turns.step(group, _START, 0, self.started, group, None, None)
        turns.work_done()

    def _ask(self, before: Optional[Run], ended: Optional[End], _: None) -> Optional[Run]:
        """Tells how the run before ended, if there was one, and asks for the next one."""
        turns, group = self._turns, self._group
        if self._is_idle:
            if self in group.idle:
                group.idle.remove(self)  # it was woken for nothing
            self._is_idle = False
        if before is not None and ended is not None:
            turns.end(before, ended, None)
            if turns.todo:
                turns.settle()
            told = turns.told
            if told and (type(told[0]) is not Waiter or len(told) > 1) and turns.calls_back():
                return None  # callbacks of futures come before the next run
        if group.over:
            self._is_over = True
            return None
        given = self._given
        if group.queued and given is None:
            turns.step(group, _START, 0, self.started, group, None, None)
            given = self._given
        if given is None:
            self._is_idle = True
            group.idle += (self,)
        return given

    def started(self, group: Group, *_: None) -> None:
        """Takes over the reply to a start."""
        turns = self._turns
        kind = turns.reply[_KIND_AT]
        if kind == _ASSIGNED:
            self._given = run = group.runs[turns.numbers[_NUMBER_WORD]]
            run.submitted = run.started
            run.is_queued, run.started, group.queued = False, group.latest, group.queued - 1
        elif kind == words.WORN:
            turns.is_over(group, kind)
        turns.unit = None


def _run(run: Run) -> End:
    """Runs the function in the variables of its caller. What nobody waits for any more is not run. Raises nothing."""
    waiting = run.waiting
    if waiting and waiting[0].is_gone() and not run.is_cached and all([holder.is_gone() for holder in waiting]):
        return words.FAIL_BAD_REQUEST, None, None
    run.has_begun = True  # whoever joins from now on looks at it
    try:
        for holder in run.waiting:
            holder.begin()
        assert run.variables is not None, "a run of a worker"
        ended: End = run.variables.run(run.perform)
    except BaseException as error:
        return PLAIN.of_error(error)
    return ended
