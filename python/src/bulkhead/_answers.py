"""Answers: how runs and fallbacks end, and who collects."""

from __future__ import annotations

import threading
from bisect import bisect_left
from typing import Any, Optional

from . import _library, _words as words
from ._events import EXCEPTION_THROWN, FALLBACK_REJECTION, NOTHING, OF_ENDS, of_fallback, of_giving_up
from ._failures import End
from ._runs import ANSWERED, FALLBACK_DUE, IN_FALLBACK, NOBODY, STILL_OPEN, FallbackEnd, Holder, Run
from ._submits import Submits
from .metrics import RUN_BOUNDS

_MISSING = words.FALLBACK_MISSING
_FINISH, _FAIL, _DONE, _COLLECT, _VALUE = words.FINISH, words.FAIL, words.DONE, words.COLLECT, words.VALUE
_ANSWERS = (words.VALUE, words.FALLBACK_VALUE, words.ERROR, words.BAD_REQUEST)
_KIND_AT, _CAUSE_AT, _FALLBACK_AT = _library.KIND_AT, _library.CAUSE_AT, _library.FALLBACK_AT
_OPERATION_AT = _library.OPERATION_AT


class Answers(Submits):
    """Turns that end runs and fallbacks, and collect for whoever holds a ticket."""

    def end(self, run: Run, ended: End, own: Optional[Holder]) -> None:
        """Tells how a run ended. A holder who ran it has to collect yet, and does so first.

        A value that one holder alone waits for, as is usual, is collected in place.
        """
        group, place = run.group, run.place
        if group.over:
            if own is not None and own.is_open():
                own.runs_it, own.outcome = False, group.over
            return
        operation, value, _ = ended
        waiting = run.waiting if own is None else [own]
        is_usual = operation == _FINISH and run.holders == 1 and waiting and not (run.is_cached or place.circuit.state)
        kind = self.make_step(group, operation, run.ticket, (self._ended, run, ended, own))
        took = group.latest - run.started
        if kind != _DONE or took or not is_usual:
            self._ended(run, ended, own)
            return
        log = self.events
        if log.tells_success:
            events, tellers = log.of_success(place, took)
            log.kept += events
            if tellers:
                self.told += tellers
                log.asleep = ()
        # what is usual is taken over in place, and nothing is called
        holder = waiting[0]
        holder.runs_it = False
        run.task, run.waiting = None, waiting
        run.value, run.state = value, ANSWERED
        place.counters.ended[_FINISH][0] += 1  # below a millisecond
        self.todo += (run,)
        self.unit = None
        if self.make_next(_COLLECT, (self.collected, run, holder, NOBODY)) != _VALUE:
            self.collected(run, holder, NOBODY)
            return
        holder.value, holder.outcome = value, _VALUE
        run.waiting = NOBODY
        if own is None:
            self.told += (holder,)
        del group.runs[run.ticket], self.todo[-1]
        self.unit = None

    def _ended(self, run: Run, ended: End, own: Optional[Holder]) -> None:
        kind, place, waiting, changes, row = self.reply[_KIND_AT], run.place, run.waiting, None, None
        (events, tellers), late = NOTHING, place.late
        operation, value, error = ended
        took = run.group.latest - run.started
        bucket = bisect_left(RUN_BOUNDS, took)
        if own is not None and own.outcome in STILL_OPEN:
            waiting = [own, *waiting]
        if kind != _DONE:
            self._not_ended(run, own, kind)
        elif place.circuit.state:
            changes = self.circuit_changes(place, place.circuit.ended(run, operation))
        if kind == _DONE:
            events, tellers = self.events.of(place, took, (OF_ENDS[operation], error))
        if kind in (_DONE, words.LATE):
            row = place.counters.ended[operation if kind == _DONE else words.EXPIRE]
        if late:
            late = [one for one in late if one is not run]
        # from here on nothing is called
        self.events.kept += events
        if tellers:
            self.told += tellers
            self.events.asleep = ()
        run.waiting, run.thread, run.task = waiting, None, None
        if own is not None:
            own.runs_it = False
        if kind == _DONE:
            run.state = FALLBACK_DUE if operation == _FAIL else ANSWERED
            run.value, run.error = value, error
        if changes:
            place.circuit, self.changes, told_of = changes
            self.told += told_of
        place.late = late
        if row is not None:
            row[bucket] += 1
            place.counters.run_ms += took
        self.todo += (run,)
        self.unit = None

    def _not_ended(self, run: Run, holder: Optional[Holder], kind: int) -> None:
        """An end that was not taken, as that of a run which timed out: a holder of its own waits for what comes of it."""
        if kind == words.WORN:
            self.is_over(run.group, kind)
        if holder is not None and holder.is_open():
            holder.wait_ready()

    def end_fallback(self, run: Run, ended: FallbackEnd, holder: Optional[Holder]) -> None:
        """Tells how a fallback ended. The holder who ran it collects first."""
        if run.group.over:
            if holder is not None:
                holder.outcome = run.group.over
            return
        operation, value = ended
        self.step(run.group, operation, run.ticket, self.fallback_ended, run, value, holder)

    def fallback_ended(self, run: Run, value: Any, holder: Optional[Holder]) -> None:
        """Takes over the reply to the end of a fallback."""
        kind, waiting = self.reply[_KIND_AT], run.waiting
        if kind == words.WORN:
            self.is_over(run.group, kind)
        if holder is not None:
            waiting = [holder, *waiting]
        (events, tellers), counts, first, thrown = NOTHING, run.place.counters.events, 0, 0
        if kind == words.DONE:
            told = of_fallback(self.given[_OPERATION_AT], run.error, value)
            events, tellers = self.events.of(run.place, None, *told)
            first, thrown = told[0][0], len(told) - 1
        # from here on nothing is called
        if kind == words.DONE:
            counts[first] += 1
            counts[EXCEPTION_THROWN] += thrown
        self.events.kept += events
        if tellers:
            self.told += tellers
            self.events.asleep = ()
        run.waiting, run.value, run.state, run.is_unowned, run.thread = waiting, value, ANSWERED, False, None
        if holder is not None and kind == words.DONE:
            holder.outcome = words.PENDING
        self.todo += (run,)
        self.unit = None

    def run_fallback(self, run: Run) -> FallbackEnd:
        """Runs the fallback of a ticket in this thread, outside of a turn: how it ended, and its value."""
        run.thread = threading.get_ident()
        return run.fall_back()

    def leave(self, holder: Holder) -> None:
        """A holder whose thread was interrupted: what it owes is done, and whoever ends the ticket collects for it."""
        run = holder.run
        if run is None or not holder.is_open():
            return
        if run.group.over:
            holder.outcome = run.group.over
            return
        holder.has_left = True
        if holder.runs_it:
            self.end(run, (words.FAIL_BAD_REQUEST, None, holder.error), None if run.body.is_awaited else holder)
        elif holder.outcome == words.RUN_FALLBACK:
            self.end_fallback(run, (_MISSING, None), holder)
        else:
            self.todo += (run,)

    # -- collects

    def collected(self, run: Run, holder: Holder, left: list[Holder]) -> None:
        """Takes over the reply to a collect for a holder, behind whom others are left."""
        reply = self.reply
        kind, cause = reply[_KIND_AT], reply[_CAUSE_AT]
        if kind in _ANSWERS:
            counts, holders, thrown, rejected = run.place.counters.events, run.holders - 1, 0, 0
            events, tellers = NOTHING
            if kind == words.ERROR and run.state == FALLBACK_DUE:  # nobody was asked for it before
                told = of_giving_up(reply[_FALLBACK_AT], run.error)
                events, tellers = self.events.of(run.place, None, *told)
                thrown, rejected = 1, len(told) - 1
            # from here on nothing is called
            if thrown:
                counts[EXCEPTION_THROWN] += 1
                counts[FALLBACK_REJECTION] += rejected
            self.events.kept += events
            if tellers:
                self.told += tellers
                self.events.asleep = ()
            run.holders, run.waiting, holder.value, holder.outcome = holders, left, run.value, kind
            if kind != _VALUE:
                run.state, holder.error, holder.cause, holder.fallback = ANSWERED, run.error, cause, reply[_FALLBACK_AT]
            if holder.is_told:
                self.told += (holder,)
            if not holders and not run.is_cached:
                del run.group.runs[run.ticket]
            if not left:
                del self.todo[-1]
        elif kind == words.RUN_FALLBACK and holder.is_gone():
            run.cause, run.state, run.is_unowned = cause, IN_FALLBACK, True
        elif kind == words.RUN_FALLBACK:
            run.cause, run.state, run.waiting, holder.outcome = cause, IN_FALLBACK, left, kind
            if holder.is_told:
                self.told += (holder,)
        else:
            if kind == words.WORN:
                self.is_over(run.group, kind)
            del self.todo[-1]
        self.unit = None

