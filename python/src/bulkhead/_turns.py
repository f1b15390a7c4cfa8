"""Turns: steps under the one lock of a service, and what Python keeps of them.

An exception of a signal handler can come at any call within a turn. So each step has a function that takes its reply
over, which works on locals first and then stores all that changes in statements that call nothing; where a turn is left
by an exception, what it had begun is done again from the reply, and then all that follows from it.
"""

from __future__ import annotations

import threading
from collections.abc import Callable
from functools import partial
from math import inf
from time import monotonic_ns as _monotonic_ns
from typing import TYPE_CHECKING, Any, Optional, Protocol, TypeVar

from . import _library
from ._events import EventLog
from ._groups import Circuit, Group, Place
from ._recording import Act
from ._runs import Caller, Run
from ._tellers import Teller
from ._transitions import Change, Changes, with_change
from ._unraisable import tell_unraisable
from .errors import BadStep, Reentered, Stopped

if TYPE_CHECKING:
    from ._recording import Entry, Record
    from .steps import Service as StepService

# how often something is begun again that an exception of a signal handler broke off
AGAIN = range(100)
_pack_head = _library.STEP_HEAD.pack_into
_OPERATION_AT, _KIND_AT = _library.OPERATION_AT, _library.KIND_AT
# the kind while a group is registered or retired, which no reply has
_ACT = 255
# what takes a reply over, by three things of its own
Done = Callable[[Any, Any, Any], None]
Unit = tuple[Done, Any, Any, Any]


class Told(Protocol):
    """Somebody who is let go on after a turn."""

    def tell(self, by_timer: bool) -> None: ...


class Owed(Protocol):
    """Something that could not be done where it came up, as too deep in the stack or in the midst of a turn."""

    def give_back(self, turns: Any) -> None: ...


class Work(Protocol):
    """Something that steps have still to be made for in the same turn."""

    def go_on(self, turns: Any) -> None: ...


A = TypeVar("A")
B = TypeVar("B")
C = TypeVar("C")
T = TypeVar("T")

# of no turn: nobody is ever put into it
_NOBODY: list[Told] = []


class _Unfinished:
    """Has the next turn look at what a turn left half done."""

    def give_back(self, turns: Turns) -> None:
        """All was done before it."""


_UNFINISHED = (_Unfinished(),)


def _spread(begin: Callable[..., T], arguments: tuple[Any, ...], _: None) -> T:
    return begin(*arguments)


def _tell_each(told: list[Told], by_timer: bool) -> None:
    """Lets those who were told go on. A loop of its own: where one ends a `try`, some versions of Python leave it out."""
    while told:
        told[-1].tell(by_timer)
        del told[-1]


class Turns:
    """The lock, the steps, and what is kept of each ticket."""

    def __init__(self, opened: StepService, clock: Optional[Callable[[], int]]) -> None:
        self._lock = threading.RLock()
        self.opened = opened
        # the clock of a test, if it has one of its own
        self._clock = clock
        # a step as the library reads it, its reply, the words of that, and the call that makes the one of the other
        self.given, self.reply, self.numbers = opened.given, opened.told, opened.numbers
        self.ask_library: Callable[[], object] = partial(_library.make_step, *opened.places)
        # the same, and with a record a note of it
        self.ask: Callable[[], object] = self.ask_library
        # the line of a registration or a retirement, and its answer
        self._line, self._answer, self._length = b"", _library.Answer(), _library.Length()
        # who is let go on after the turn that goes on, if one does
        self.told: list[Told] = _NOBODY
        self.unit: Optional[Unit] = None
        self.todo: list[Work] = []
        # what the next turn does first; `+=` of a tuple adds to it, which is no call and so never too deep in the stack
        self.owed: list[Owed] = []
        self._untold: list[Told] = []
        self._is_noted = True
        self.kind_at = _KIND_AT
        self.is_open, self.has_acted = True, False
        # the moment of the turn, which its first step reads
        self._moment: Optional[int] = None
        self.record: Optional[Record] = None
        # until when the timer sleeps, and how it is woken; where there is none it is never woken
        self.alarm_at: float = -inf
        self.alarm: Optional[Told] = None
        # the changes of circuit breakers, and who tells them, if somebody asked for it
        self.changes = Changes()
        self.teller: Optional[Teller] = None
        self.events = EventLog()
        # those that are there, by their names, and those that ever were, by their numbers
        self.groups: dict[str, Group] = {}
        self.every_group: list[Group] = []

    def has_stepped(self) -> bool:
        """Whether a step was made, or a group came or went."""
        return self.has_acted or any(group.latest >= 0 for group in self.every_group)

    @property
    def is_turning(self) -> bool:
        """Whether a turn goes on, where the lock is this thread's."""
        return self.told is not _NOBODY

    @property
    def lock(self) -> Any:
        """The lock, for what is taken out of a turn's results."""
        return self._lock

    # -- a turn

    def turn(self, begin: Callable[..., T], *arguments: Any, by_timer: bool = False) -> T:
        """One turn of the lock: what `begin` does, and all that follows from it. Then who was told is let go on.

        Raises `Reentered` where this thread is in a turn already, and leaves nothing half done at any exception.
        """
        return self.turn_of(_spread, begin, arguments, None, by_timer)

    def turn_of(self, begin: Callable[[A, B, C], T], one: A, other: B, more: C, by_timer: bool = False) -> T:
        """The same of a function of three arguments, as each call needs it, which is shorter."""
        told: list[Told] = []
        try:
            with self._lock:
                if self.told is not _NOBODY:
                    raise Reentered("a command was called in the midst of a turn, as by a finalizer or a signal handler")
                self.told, self._moment = told, None
                try:
                    if self.owed:
                        self._catch_up()
                    result = begin(one, other, more)
                    if self.todo:
                        self.settle()
                except BaseException:
                    self.owed += _UNFINISHED
                    self._mend()
                    raise
                finally:
                    self.told = _NOBODY
            return result
        finally:
            if told:
                stopped: Optional[BaseException] = None
                for _ in AGAIN:  # a signal handler may raise wherever a call begins or ends, so there is none outside
                    try:
                        _tell_each(told, by_timer)
                        break
                    except RecursionError as error:
                        stopped = error
                        break
                    except BaseException as error:
                        stopped = error
                if stopped is not None:
                    self._untold += told
                    self.owed += _UNFINISHED
                    raise stopped

    def work_done(self) -> None:
        """What the turn goes on with is done."""
        del self.todo[-1]

    def settle(self) -> None:
        """Makes the steps that follow from what was done."""
        todo = self.todo
        while todo:
            todo[-1].go_on(self)

    def _catch_up(self) -> None:
        """Does what was owed. Where it is too deep in the stack for it here too, this turn fails, and the next one does it."""
        self._mend()
        if self.unit is not None or self.todo:
            raise RecursionError("what an earlier turn left half done is too deep here")
        self.told += self._untold
        self._untold.clear()
        owed = self.owed
        while owed:
            try:
                owed[0].give_back(self)
                self.settle()
            except RecursionError:
                raise
            except Exception as error:
                tell_unraisable(error, owed[0])
            del owed[0]

    def _mend(self) -> None:
        """Brings to its end what an exception left half done. Another exception in the midst of it does not stop it.

        What is too deep in the stack is left to the next turn.
        """
        for _ in AGAIN:
            try:
                unit = self.unit
                if unit is not None and self._is_made():
                    if not self._is_noted:
                        self._note()
                    done, one, other, more = unit
                    done(one, other, more)
                self.unit = None
                self.settle()
                return
            except RecursionError:
                return
            except BaseException:
                continue
        self.todo.clear()

    def _is_made(self) -> bool:
        """Whether the library has done what the unit is about."""
        kind = self.reply[_KIND_AT]
        return self._length.value > 0 if kind == _ACT else kind > 0

    def step(self, group: Group, operation: int, ticket: int, done: Done, one: Any, other: Any, more: Any) -> None:
        """Makes a step of a group that is not over, at the moment of the turn, and hands its reply over to `done`.

        What it has beside a ticket stands in `given` before.
        """
        self.make_step(group, operation, ticket, (done, one, other, more))
        done(one, other, more)

    def make_step(self, group: Group, operation: int, ticket: int, unit: Unit) -> int:
        """Makes a step of a group that is not over, at the moment of the turn, and gives the kind of its reply.

        Whoever calls it takes the reply over at once; `unit` does where an exception breaks that off.
        """
        moment = self._moment
        if moment is None:
            clock = self._clock
            moment = self._moment = _monotonic_ns() // 1_000_000 if clock is None else clock()
        try:
            if moment < group.latest:
                moment = group.latest
            _pack_head(self.given, 0, group.number, moment, ticket)
        except Exception:
            raise BadStep(f"the clock has to give whole milliseconds from 0 on, and gave {moment!r}") from None
        reply = self.reply
        self.given[_OPERATION_AT] = operation
        reply[_KIND_AT] = 0
        group.latest = moment
        self.unit = unit
        ask = self.ask  # in two: a call of what an object holds is longer else
        ask()
        return reply[_KIND_AT]

    def make_next(self, operation: int, unit: Unit) -> int:
        """The same for the group and the ticket of the step before, in the same turn."""
        reply = self.reply
        self.given[_OPERATION_AT] = operation
        reply[_KIND_AT] = 0
        self.unit = unit
        ask = self.ask
        ask()
        return reply[_KIND_AT]

    def act(self, line: bytes, done: Done, one: Any, other: Any, more: Any) -> None:
        """Has a line answered that registers or retires a group, and hands over to `done`, which asks for the `answer`."""
        if not self.is_open:
            raise Stopped("the service is closed")
        self._line, self._length.value, self.has_acted = line, 0, True
        self.reply[_KIND_AT] = _ACT
        self.unit, self._is_noted = (done, one, other, more), self.record is None
        self.opened.line_into(line, self._answer, self._length)
        self._note()
        done(one, other, more)

    def moment_of(self, group: Group) -> int:
        """The moment of the turn, for a line of a group. Raises `BadStep` where the clock gives none."""
        moment = self._moment
        if moment is None:
            clock = self._clock
            moment = self._moment = _monotonic_ns() // 1_000_000 if clock is None else clock()
        if type(moment) is not int:
            raise BadStep(f"the clock has to give whole milliseconds from 0 on, and gave {moment!r}")
        return max(moment, group.latest)

    def answer(self) -> bytes:
        """The answer to the line of an act."""
        return bytes(self._answer[: self._length.value])

    def begin_record(self, record: Record) -> None:
        """Notes each step from now on."""
        self.record, self.ask = record, self.ask_and_note

    def ask_and_note(self) -> None:
        """Makes the step, and keeps a note of it."""
        self._is_noted = False
        self.ask_library()
        self._note()

    def _note(self) -> None:
        """Keeps what was done for the record, in order."""
        record = self.record
        if record is not None:
            is_act = self.reply[_KIND_AT] == _ACT
            entry = Act(self._line, self.answer()) if is_act else record.entry(self.given, self.reply)
            record.keep(entry)
        self._is_noted = True

    def take_pending(self, record: Record) -> list[Entry]:
        """What a record has to write yet, which it keeps no longer."""
        with self._lock:
            pending, record.pending = record.pending, []
        return pending

    # -- who is told

    def is_over(self, group: Group, why: int) -> None:
        """No step of the group is handed in any more, and everybody who waits in it is told so."""
        group.over = why
        for run in [*group.runs.values()]:
            self.answer_all(run, why, is_last=False)
        for worker in group.workers:
            self.say(worker)
        self.say(group.helpers)

    def answer_all(self, run: Run, why: int, is_last: bool = True) -> None:
        """Tells everybody who waits for a run why there is no answer."""
        for holder in run.waiting:
            holder.outcome = why
            self.say(holder)
        run.waiting = []
        run.group.runs.pop(run.ticket, None)
        if is_last:
            del self.todo[-1]

    def say(self, one: Told) -> None:
        """Has somebody go on after this turn."""
        self.told.append(one)

    def calls_back(self) -> bool:
        """Whether what follows this turn is more than to let callers go on."""
        return not all([isinstance(one, (Caller, Teller)) for one in self.told])

    def circuit_changes(self, place: Place, after: Circuit) -> Any:
        """What changes of a circuit breaker: how it is afterwards, the changes to be told, and by whom."""
        circuit = place.circuit
        if circuit is after:
            return None
        if circuit.state == after.state or self.teller is None:
            return after, self.changes, ()
        return after, with_change(self.changes, place.spelled, circuit.state, after.state), (self.teller,)

    def take_changes(self) -> tuple[Change, ...]:
        """The changes that are to be told, which are kept no longer."""
        with self._lock:
            waiting, self.changes = self.changes.waiting, self.changes._replace(waiting=())
        return waiting
