"""Commands: functions whose calls are steps of a group."""

from __future__ import annotations

import asyncio
import copy
from collections.abc import Callable, Coroutine
from concurrent.futures import Future
from contextvars import copy_context
from threading import get_ident
from typing import TYPE_CHECKING, Any, Generic, Optional, TypeVar

from . import _coroutines, _words as words
from ._declared import Declared, not_queued
from ._failures import passes_through
from ._futures import FutureHolder
from ._runs import STILL_OPEN, UNTOLD, Body, Caller, Holder, Run, Waiter
from ._typing import ParamSpec
from .contexts import checked_key
from .errors import Reentered, Refused

if TYPE_CHECKING:
    from ._core import Core
    from ._submits import Shared
    from .service import CommandService

_VALUE = words.VALUE

P = ParamSpec("P")
R = TypeVar("R")
T = TypeVar("T")
Self = TypeVar("Self", bound="_CoreDeclared")


class _CoreDeclared(Declared):
    """What the two kinds of command share: the function, and the group and the number of the command in it."""

    def __init__(
        self,
        service: CommandService,
        body: Body,
        key: Optional[Callable[..., Any]],
    ) -> None:
        super().__init__(body)
        self._service, self._key = service, key
        self._turns: Core = service.turns
        # looked up once, which each call would do else
        self._turn, self._submit, self._end = self._turns.turn_of, self._turns.submit, self._turns.end
        self._is_pooled = body.place.settings.is_pooled

    def of(self: Self, group: str) -> Self:
        """The same command in a group that was registered like this one's.

        Raises `NoSuchGroup` where no group that is there has the name, and `Refused` where it is not like this one's.
        A group that is retired is not found again: ask once more after its name was registered again.
        """
        of, body = self._service.group(group), self._body
        if of.like != body.group.like:
            raise Refused(f"{group} was not registered like {body.group.like}, which has the command {self.name}")
        made = copy.copy(self)
        made._body = body.moved(of.places[body.place.number])
        return made

    def _run(self, arguments: tuple[Any, ...], named: dict[str, Any]) -> Run:
        """A call that has not been submitted yet."""
        return Run(self._body, (*self._bound, *arguments) if self._bound else arguments, named)

    def _shared(self, run: Run) -> Optional[Shared]:
        """The request context and the key of a call, if it has both."""
        context = self._service.current.get()
        if context is None or self._key is None:
            return None
        key = checked_key(self._key(*run.arguments, **run.named))
        return None if key is None else (context, key)

    def _leave(self, holder: Holder, error: BaseException) -> None:
        """What a holder owes is done, whatever comes in between."""
        if holder.run is None or not holder.is_open():
            return
        if holder.error is None:
            holder.error = error
        while True:
            try:
                self._turns.turn(self._turns.leave, holder)
                return
            except Exception:
                return
            except BaseException:
                continue


class Command(_CoreDeclared, Generic[P, R]):
    """A command of a plain function. To call it is to execute it."""

    def __call__(self, *args: P.args, **kwargs: P.kwargs) -> R:
        """Executes the command: its value, or the fallback's. Raises a `CommandError` where there is neither."""
        body, turn = self._body, self._turn
        arguments: tuple[Any, ...] = args
        if self._bound:
            arguments = (*self._bound, *args)
        run = Run(body, arguments, kwargs)
        shared = None if self._key is None else self._shared(run)
        holder = self._pooled_holder(run) if self._is_pooled else Caller()
        try:
            turn(self._submit, run, holder, shared)
            if holder.runs_it:
                if run.is_cached:
                    run.thread = get_ident()
                ended = run.perform()
                holder.error = ended[2]
                turn(self._end, run, ended, holder)
                if holder.outcome != _VALUE:
                    _raise_own(holder, ended[0])
                    holder.wait()
            elif holder.outcome == UNTOLD:
                if holder.run is not run:
                    self._refuse_own(holder)
                holder.wait()
            if holder.outcome == _VALUE:
                value: R = holder.value
                return value
            if holder.outcome == words.RUN_FALLBACK and holder.run is not None:
                run = holder.run
                turn(self._turns.end_fallback, run, self._turns.run_fallback(run), holder)
            elif holder.refused is not None:
                holder.fall_back()
        except BaseException as error:
            if holder.outcome in STILL_OPEN:
                self._turns.owed += (holder,)  # where the stack has no room for the call below
                self._leave(holder, error)
            raise
        answer: R = holder.answer()
        return answer

    def queue(self, *args: P.args, **kwargs: P.kwargs) -> Future[R]:
        """Queues the command, which has to run under THREAD: a future of what a call would give or raise.

        It can be cancelled until its function begins to run.
        """
        return self._queued(args, kwargs).future

    async def run(self, *args: P.args, **kwargs: P.kwargs) -> R:
        """The same for a coroutine: awaits what a call would give. Where it is cancelled nobody waits for the run."""
        holder = self._queued(args, kwargs)
        try:
            value: R = await asyncio.wrap_future(holder.future)
        except asyncio.CancelledError:
            holder.is_unwanted = True
            raise
        return value

    def _queued(self, args: tuple[Any, ...], kwargs: dict[str, Any]) -> FutureHolder:
        """A call that was submitted, as a future."""
        if not self._is_pooled:
            raise not_queued(self.name)
        run = self._run(args, kwargs)
        shared = None if self._key is None else self._shared(run)
        run.variables = copy_context()
        if not run.group.threads:
            self._hire()
        holder = FutureHolder(self._turns)
        try:
            self._turn(self._submit, run, holder, shared)
            if holder.owes_fallback():
                run.group.helpers.help_out(holder.fall_back_apart)
            elif holder.run is None:
                holder.resolve()
            elif holder.outcome == UNTOLD and holder.run is not run:
                self._refuse_own(holder)
                if holder.run.has_begun:
                    holder.begin()
        except BaseException as error:
            if holder.outcome in STILL_OPEN:
                self._turns.owed += (holder,)  # where the stack has no room for the call below
                self._leave(holder, error)
            raise
        return holder

    def _refuse_own(self, holder: Holder) -> None:
        """Raises where the caller, who shares the answer of another call, would wait for a run of its own thread."""
        run = holder.run
        if run is not None and run.thread == get_ident():
            raise Reentered(f"{self.name}: the run would wait for itself")

    def _pooled_holder(self, run: Run) -> Waiter:
        """Who waits for a run of a worker, which has the variables of its caller."""
        run.variables = copy_context()
        if not run.group.threads:
            self._hire()
        return Waiter()

    def _hire(self) -> None:
        """Starts the first threads of the group: a worker, and the spare helper."""
        turns, group = self._turns, self._body.group
        group.helpers.begin()
        turns.turn(turns.hire_first, group)
        if not group.threads and not group.over:
            raise RuntimeError(f"no thread could be started for {group.name}")


def _raise_own(holder: Holder, operation: int) -> None:
    """Raises in its own thread what the function raised, where that says nothing of the dependency."""
    error = holder.error
    if error is not None and operation == words.FAIL_BAD_REQUEST:
        if not passes_through(error) or holder.outcome == words.BAD_REQUEST:
            raise error


class AsyncCommand(_CoreDeclared, Generic[P, T]):
    """A command of a coroutine function, which runs as a task under SEMAPHORE. To await its call is to execute it."""

    def __call__(self, *args: P.args, **kwargs: P.kwargs) -> Coroutine[Any, Any, T]:
        """Executes the command: its value, or the fallback's, which may be a coroutine function too."""
        return self.run(*args, **kwargs)

    async def run(self, *args: P.args, **kwargs: P.kwargs) -> T:
        """The same. At its timeout the caller is answered at once, and the task is cancelled."""
        run = self._run(args, kwargs)
        value: T = await _coroutines.execute(self._turns, run, self._shared(run), self._leave)
        return value

    def queue(self, *args: P.args, **kwargs: P.kwargs) -> Future[T]:
        """Refused: a coroutine function runs in the loop of its caller."""
        raise Refused(f"{self.name} is a coroutine function: await it")
