"""Calls, and those who have to collect their answers."""

from __future__ import annotations

import copy
import threading
from collections.abc import Callable
from contextlib import suppress
from contextvars import Context as Variables
from math import inf
from typing import TYPE_CHECKING, Any, Optional

from . import _words as words
from ._failures import PLAIN, End, Judge, passes_through
from ._groups import Group, Place
from ._limits import full_error
from .errors import CommandError, Interrupted, NoSuchGroup, Stopped, Worn, error_of

if TYPE_CHECKING:
    from ._core import Core

_FINISH, _COLLECT = words.FINISH, words.COLLECT

# states of a ticket, as far as Python has to know them
LIVE, FALLBACK_DUE, IN_FALLBACK, ANSWERED = range(4)

# the states in which a holder has something to collect
_COLLECTABLE = (ANSWERED, FALLBACK_DUE)

# who waits for a run for which nobody does; a list that waits is never changed but for another one
NOBODY: list[Holder] = []

# what a holder is told beside the replies to a collect: those below are no numbers of the library
UNTOLD, STOPPED, RETIRED = 0, -1, -2

STILL_OPEN = frozenset((UNTOLD, words.PENDING, words.RUN_FALLBACK))

# how a fallback ended: the operation that tells it, and its value or its exception
FallbackEnd = tuple[int, Any]


class Body:
    """A function with its fallback, as a command of a group has them. A coroutine function is awaited."""

    __slots__ = ("fallback", "function", "group", "is_awaited", "is_plain", "judge", "place")

    def __init__(
        self,
        place: Place,
        function: Callable[..., Any],
        fallback: Optional[Callable[..., Any]],
        is_awaited: bool,
        judge: Judge = PLAIN,
    ) -> None:
        self.place, self.group = place, place.group
        self.function, self.fallback, self.is_awaited = function, fallback, is_awaited
        # what is a failure, and whether any value is a good one
        self.judge, self.is_plain = judge, judge is PLAIN

    def moved(self, place: Place) -> Body:
        """The same as a command of another group."""
        return Body(place, self.function, self.fallback, self.is_awaited, self.judge)


class Run:
    """A call and, from its submit until nobody needs it, what Python keeps of its ticket.

    Its arguments and values never cross to the core.
    """

    # what stands in the class need not be set for each run; what a usual call reads is set, as that is read sooner
    ticket = started = cause = 0
    # the moment of its submit, where a worker began it later
    submitted: Optional[int] = None
    state, due = LIVE, inf
    is_queued = has_begun = is_full = False
    waiting = NOBODY
    value: Any = None
    error: Optional[BaseException] = None
    variables: Optional[Variables] = None
    # the thread, or the task of a loop, that runs the function or the fallback
    thread: Optional[int] = None
    task: Any = None

    def __init__(self, body: Body, arguments: tuple[Any, ...], named: dict[str, Any]) -> None:
        self.body, self.arguments, self.named = body, arguments, named
        self.place: Place = body.place
        self.group: Group = body.group
        self.holders = 1
        self.is_cached = self.is_unowned = False

    def perform(self) -> End:
        """Runs the function."""
        body = self.body
        try:
            value = body.function(*self.arguments, **self.named)
            return (_FINISH, value, None) if body.is_plain else body.judge.of_value(value)
        except BaseException as error:
            return body.judge.of_error(error)

    def fall_back(self) -> FallbackEnd:
        """Runs the fallback, if there is one. A BaseException that is no Exception passes through."""
        fallback = self.body.fallback
        if fallback is None:
            return words.FALLBACK_MISSING, None
        try:
            return words.FALLBACK_SUCCESS, fallback(*self.arguments, **self.named, cause=self.error_due())
        except Exception as error:
            return words.FALLBACK_FAILURE, error

    def enter_fallback(self) -> int:
        """Takes one of the fallback's permits, where no slot was free: 0, or the number of why the fallback is not run.

        These calls are counted apart from those that have a ticket. May be called again.
        """
        settings, among = self.place.settings, self.place.in_fallback
        self.is_full = True
        if not settings.falls_back:
            return words.DISABLED
        if self.body.fallback is None:
            return words.MISSING
        if self not in among and settings.fallback_permits is not None and len(among) >= settings.fallback_permits:
            return words.REJECTED
        among.add(self)
        return 0

    def go_on(self, turns: Core) -> None:
        """Makes the next step that a holder's answer wants: a collect for a holder, if one is due."""
        group, waiting = self.group, self.waiting
        if group.over:
            turns.answer_all(self, group.over)
        elif waiting and self.state in _COLLECTABLE and not self.is_unowned:
            holder, left = (waiting[0], NOBODY) if len(waiting) == 1 else _first(waiting)
            turns.step(group, _COLLECT, self.ticket, turns.collected, self, holder, left)
        elif self.is_unowned:
            turns.step(group, words.FALLBACK_MISSING, self.ticket, turns.fallback_ended, self, None, None)
        else:
            turns.work_done()

    def stop_callers(self, why: int) -> None:
        """In a forked process: its thread, where it waited for the run, goes on and is told why there is no answer."""
        for holder in self.waiting:
            if isinstance(holder, Caller):
                holder.outcome = why
                holder.tell(False)

    def error_due(self) -> CommandError:
        """Why the fallback is due, as a new exception."""
        if self.is_full:
            return full_error(self.place)
        return error_of(self.place.spelled, self.cause, None, self.error)


def _first(waiting: list[Holder]) -> tuple[Holder, list[Holder]]:
    """Who collects next, and who after that: those who are gone come last, so that another one runs the fallback."""
    first = next((holder for holder in waiting if not holder.is_gone()), waiting[0])
    return first, [holder for holder in waiting if holder is not first]


class Holder:
    """One who has to collect the answer of a ticket. What it was told stands in `outcome` and the fields behind it."""

    # whether it is let go on by `tell` once it is told
    is_told = True
    # what it begins with stands in the class, so that to make one is short
    run: Optional[Run] = None
    outcome = UNTOLD
    cause = fallback = 0
    # of which command, where it has no run
    spelled = ""
    # whether it owes the run: it has to run the function, or to start the task that does
    runs_it = False
    has_left = False
    value: Any = None
    error: Optional[BaseException] = None
    # the call that got no ticket, where no slot was free
    refused: Optional[Run] = None

    def is_open(self) -> bool:
        """Whether the ticket has still to be collected for it."""
        return self.outcome in STILL_OPEN

    def is_gone(self) -> bool:
        """Whether nobody waits for the answer any more."""
        return self.has_left

    def wait_ready(self) -> None:
        """Called under the lock, before it may be told."""

    def owes_fallback(self) -> bool:
        """Whether it has to run the fallback of a call that got no ticket."""
        return self.refused is not None and self.outcome == words.GROUP_FULL and not self.fallback

    def fall_back(self) -> None:
        """Runs that fallback, if it has to."""
        if self.owes_fallback() and self.refused is not None:
            self.take_fallback(self.refused.fall_back())

    def take_fallback(self, ended: FallbackEnd) -> None:
        """Takes over how that fallback ended."""
        operation, self.value = ended
        if self.refused is not None:
            self.refused.place.in_fallback.discard(self.refused)
        if operation == words.FALLBACK_SUCCESS:
            self.outcome = words.FALLBACK_VALUE
        else:
            self.fallback = words.FAILED

    def give_back(self, turns: Core) -> None:
        """What it owes is done, where that was not possible before."""
        turns.leave(self)

    def begin(self) -> None:
        """The function, or the fallback, begins to run. May be called again."""

    def tell(self, by_timer: bool) -> None:
        """Lets whoever waits go on. May be called twice."""

    def answer(self) -> Any:
        """The value, or a new exception that is raised."""
        if self.outcome in (words.VALUE, words.FALLBACK_VALUE):
            return self.value
        error = self.exception()
        raised = getattr(error, "fallback_error", None)
        try:
            raise error
        finally:
            if raised is not None:
                error.__context__ = raised  # where the caller handles an exception, `raise` has put that one there
            del error, raised

    def exception(self) -> BaseException:
        """A new exception for what it was told, which no other holder gets."""
        run, error = self.run, self.error
        spelled = run.place.spelled if run else self.spelled
        raised = self.value if self.fallback == words.FAILED and isinstance(self.value, BaseException) else None
        if self.outcome == words.ERROR:
            return error_of(spelled, self.cause, self.fallback, error, raised)
        if self.outcome == words.BAD_REQUEST:
            return copied(error) if error is not None and passes_through(error) else _interrupted(spelled, error)
        if self.outcome == words.GROUP_FULL and self.refused is not None:
            return full_error(self.refused.place, self.fallback, raised)
        if self.outcome == words.WORN:
            return Worn(f"{spelled}: the group has made all of its steps")
        if self.outcome in (RETIRED, words.NO_GROUP):
            return NoSuchGroup(f"{spelled}: the group was retired")
        return Stopped("the service is closed")


def copied(error: BaseException) -> BaseException:
    """A copy of it, or where it cannot be copied the same one."""
    with suppress(Exception):
        made = copy.copy(error)
        if type(made) is type(error):
            made.__cause__, made.__traceback__ = error.__cause__, error.__traceback__
            made.__context__, made.__suppress_context__ = error.__context__, error.__suppress_context__
            return made
    return error


def _interrupted(spelled: str, error: Optional[BaseException]) -> Interrupted:
    made = Interrupted(f"{spelled}: the run was interrupted" + (f" by {type(error).__name__}" if error else ""))
    made.__cause__ = error
    return made


class Caller(Holder):
    """A thread that runs the function itself, and waits only where it shares an answer or its run timed out."""

    is_told = False
    wake: Optional[threading.Lock] = None

    def wait_ready(self) -> None:
        if self.wake is None:
            wake = threading.Lock()
            wake.acquire()
            self.wake, self.is_told = wake, True

    def wait(self) -> None:
        """Waits until it is told."""
        if self.wake is not None and self.outcome in (UNTOLD, words.PENDING):
            self.wake.acquire()

    def tell(self, by_timer: bool) -> None:
        try:
            if self.wake is not None:
                self.wake.release()
        except RuntimeError:
            pass  # released already


class Waiter(Caller):
    """A thread that waits for what another one runs."""

    is_told = True

    def __init__(self) -> None:
        self.wake = wake = threading.Lock()
        wake.acquire()
