"""Submits: what becomes of a call, and of the ticket that it gets or joins."""

from __future__ import annotations

from typing import TYPE_CHECKING, Optional

from . import _library, _words as words
from ._events import NOTHING, OF_CAUSES, RESPONSE_FROM_CACHE
from ._groups import Group
from ._pools import Worker
from ._runs import ANSWERED, FALLBACK_DUE, NOBODY, Holder, Run
from ._turns import Turns

if TYPE_CHECKING:
    from .contexts import RequestContext

_pack_shared, _SHARED_AT = _library.STEP_SHARED.pack_into, _library.SHARED_AT
_KEY_AT, _COMMAND_AT = _library.KEY_AT, _library.COMMAND_AT
_KIND_AT, _CAUSE_AT, _NUMBER_WORD = _library.KIND_AT, _library.CAUSE_AT, _library.NUMBER_WORD
_SUBMIT, _START = words.SUBMIT, words.START
_INLINE, _QUEUED, _FALLBACK_DUE = words.INLINE, words.QUEUED, words.FALLBACK_DUE
# the replies to a submit that made a ticket
_PLACED = (_QUEUED, _INLINE, _FALLBACK_DUE)
# the request context of a call, and its key of `checked_key`
Shared = tuple["RequestContext", tuple[type, object]]


class Submits(Turns):
    """Turns that submit calls."""

    def submit(self, run: Run, holder: Holder, shared: Optional[Shared]) -> None:
        """Submits a call for a holder, who gets the ticket of this run or that of another one."""
        group, place, context = run.group, run.place, None
        if group.over:
            holder.outcome, holder.spelled = group.over, place.spelled
            return
        operation = _SUBMIT
        if shared is not None and shared[0].is_open and place.settings.is_cached:
            operation, context = words.SUBMIT_SHARED, self._share(run, *shared)
        self.given[_COMMAND_AT] = place.number
        kind = self.make_step(group, operation, 0, (self._submitted, run, holder, context))
        if context is not None or place.circuit.state:
            self._submitted(run, holder, context)
        elif kind == _INLINE and not run.body.is_awaited:
            # what is usual is taken over in place, and nothing is called
            run.ticket = ticket = self.numbers[_NUMBER_WORD]
            run.started = started = group.latest
            holder.run, holder.runs_it, group.runs[ticket] = run, True, run
            run.due = due = started + place.limit
            if due < self.alarm_at and self.alarm is not None:
                self.alarm_at = due
                self.told += (self.alarm,)
            self.unit = None
        elif kind == _QUEUED and group.idle:
            self._handed(run, holder, group.idle[-1])
        else:
            self._submitted(run, holder, None)

    def _handed(self, run: Run, holder: Holder, worker: Worker) -> None:
        """Takes over a ticket for which a worker sleeps, and hands it to that one at once."""
        group = run.group
        # nothing is called but the library
        run.ticket = ticket = self.numbers[_NUMBER_WORD]
        run.started = started = group.latest
        run.waiting, holder.run, group.runs[ticket] = [holder], run, run
        run.is_queued, group.queued = True, group.queued + 1
        run.due = due = started + run.place.limit
        if due < self.alarm_at and self.alarm is not None:
            self.alarm_at = due
            self.told += (self.alarm,)
        del group.idle[-1]
        self.told += (worker,)
        self.todo += (worker,)
        self.unit = None
        self.make_next(_START, (worker.started, group, None, None))
        worker.started(group, None, None)
        del self.todo[-1]

    def _share(self, run: Run, context: RequestContext, key: tuple[type, object]) -> RequestContext:
        """Has the submit that follows share an answer within a context."""
        name = context.name_of(key)
        self.given[_KEY_AT : _KEY_AT + len(name)] = name
        _pack_shared(self.given, _SHARED_AT, context.number, 0, len(name))
        context.groups[run.group], run.is_cached = None, True
        return context

    def _submitted(self, run: Run, holder: Holder, context: Optional[RequestContext]) -> None:
        """Takes over the reply to a submit, mostly a new ticket."""
        kind, ticket, group, place = self.reply[_KIND_AT], self.numbers[_NUMBER_WORD], run.group, run.place
        cause, kind_of_cause, changes, worker, waiting, (events, tellers) = 0, 0, None, None, NOBODY, NOTHING
        if kind != _INLINE or run.body.is_awaited:
            if kind not in _PLACED:
                self._not_placed(run, holder, kind, ticket)
                return
            worker, waiting = self._waits(run, holder, kind)
        if place.circuit.state or kind == _FALLBACK_DUE:
            cause = self.reply[_CAUSE_AT]
            if place.settings.circuit_moves:
                changes = self.circuit_changes(place, place.circuit.submitted(kind, cause, ticket, group.latest))
        if kind == _FALLBACK_DUE:
            kind_of_cause = OF_CAUSES[cause]
            events, tellers = self.events.of(place, None, (kind_of_cause, None))
        # from here on nothing is called
        run.ticket, run.waiting, run.started = ticket, waiting, group.latest
        holder.run, holder.runs_it = run, kind == _INLINE
        group.runs[ticket] = run
        if context is not None:
            context.runs += (run,)
        if changes:
            place.circuit, self.changes, told_of = changes
            self.told += told_of
        if kind == _FALLBACK_DUE:
            run.state = FALLBACK_DUE
            place.counters.events[kind_of_cause] += 1
            self.events.kept += events
            if tellers:
                self.told += tellers
                self.events.asleep = ()
            self.todo += (run,)
        else:
            run.due = due = group.latest + place.limit
            if due < self.alarm_at and self.alarm is not None:
                self.alarm_at = due
                self.told += (self.alarm,)
            if kind == _QUEUED:
                run.is_queued, group.queued = True, group.queued + 1
        if worker is not None:
            self.told += (worker,)
            if worker.is_new:
                group.threads, group.workers, worker.is_new = group.threads + 1, [*group.workers, worker], False
            else:
                del group.idle[-1]
                self.todo += (worker,)
        self.unit = None

    def _waits(self, run: Run, holder: Holder, kind: int) -> tuple[Optional[Worker], list[Holder]]:
        """What a ticket wants that its holder waits for: who is to be told of it, and who waits."""
        holder.wait_ready()
        return (self._free_worker(run.group) if kind == words.QUEUED else None), [holder]

    def _not_placed(self, run: Run, holder: Holder, kind: int, ticket: int) -> None:
        """Takes over that a holder shares the answer of another ticket, or gets none."""
        if kind == words.JOINED:
            self._joined(run.group.runs[ticket], holder)
            return
        if kind == words.GROUP_FULL:
            self._full(run, holder)
            return
        self.is_over(run.group, kind)
        # from here on nothing is called
        holder.outcome, holder.spelled = kind, run.place.spelled
        self.unit = None

    def _full(self, run: Run, holder: Holder) -> None:
        """Takes over that no slot was free: there is no ticket, and the fallback is run without one."""
        counters, fallback = run.place.counters, run.enter_fallback()
        # from here on nothing is called
        counters.full += 1
        holder.outcome, holder.refused, holder.fallback = words.GROUP_FULL, run, fallback
        self.unit = None

    def _joined(self, run: Run, holder: Holder) -> None:
        """Takes over that a holder shares the answer of a ticket."""
        holder.wait_ready()
        counts = run.place.counters.events
        events, tellers = self.events.of(run.place, None, (RESPONSE_FROM_CACHE, None))
        # from here on nothing is called
        counts[RESPONSE_FROM_CACHE] += 1
        self.events.kept += events
        if tellers:
            self.told += tellers
            self.events.asleep = ()
        holder.run = run
        run.holders += 1
        run.waiting = [*run.waiting, holder]
        if run.state in (FALLBACK_DUE, ANSWERED):
            self.todo += (run,)
        self.unit = None

    def hire(self, group: Group) -> None:
        """One more worker of a group, where it may have more."""
        if group.threads >= group.core_size or group.over:
            return
        worker = self.new_worker(group)
        group.threads, group.workers, worker.is_new = group.threads + 1, [*group.workers, worker], False
        self.told += (worker,)

    def hire_first(self, group: Group) -> None:
        """The first worker of a group, where it has none yet."""
        if not group.threads:
            self.hire(group)

    def dismiss(self, worker: Worker, group: Group) -> None:
        """A worker whose thread could not be started is none."""
        if worker in group.workers:
            group.workers.remove(worker)
            group.threads -= 1
            self.fall_short(group)

    def fall_short(self, group: Group) -> None:
        """A worker of the group could not be started."""
        raise NotImplementedError

    def _free_worker(self, group: Group) -> Optional[Worker]:
        """A worker that sleeps, or a new one where there may be more."""
        if group.idle:
            return group.idle[-1]
        return self.new_worker(group) if group.threads < group.core_size else None

    def new_worker(self, group: Group) -> Worker:
        """A worker of the group, whose thread starts when it is told."""
        raise NotImplementedError
