"""Commands whose function is a coroutine function: each run is a task of its caller's loop."""

from __future__ import annotations

import asyncio
import inspect
from collections.abc import Callable
from contextlib import suppress
from typing import TYPE_CHECKING, Any, Optional, Union

from . import _words as words
from ._failures import End, LoopClosed
from ._runs import UNTOLD, FallbackEnd, Holder, Run
from .errors import Reentered

if TYPE_CHECKING:
    from ._core import Core
    from ._submits import Shared


def is_coroutine_function(function: object) -> bool:
    """Whether a call of it is awaited."""
    return inspect.iscoroutinefunction(function) or inspect.iscoroutinefunction(getattr(function, "__call__", None))


class Awaiter(Holder):
    """A coroutine that waits in a loop."""

    def __init__(self, turns: Core, loop: asyncio.AbstractEventLoop) -> None:
        self._turns, self._loop = turns, loop
        self._future: asyncio.Future[None] = loop.create_future()

    def is_gone(self) -> bool:
        return self.has_left or self._loop.is_closed()

    async def wait(self) -> None:
        """Waits until it is told."""
        if self.outcome in (UNTOLD, words.PENDING):
            await self._future

    def tell(self, by_timer: bool) -> None:
        try:
            self._loop.call_soon_threadsafe(self._set)
        except RuntimeError:  # the loop is closed, so nobody runs the fallback
            if self.is_open():
                self._turns.turn(self._turns.leave, self)

    def _set(self) -> None:
        if not self._future.done():
            self._future.set_result(None)

    def sweep(self) -> None:
        """Leaves the ticket, where the loop was closed and nobody goes on in it."""
        if self._loop.is_closed():
            self._turns.turn(self._turns.leave, self)
            forget(self._turns, self._loop, self)


class Carried:
    """The task that runs a function. Who is told of it cancels it."""

    def __init__(self, turns: Core, run: Run, loop: asyncio.AbstractEventLoop) -> None:
        self._turns, self._run, self._loop = turns, run, loop
        self.task: Optional[asyncio.Task[Any]] = None

    def start(self, holder: Awaiter) -> None:
        """Starts the task, for the holder that owes the run.

        Arguments that do not fit are a failure of the function, as for a plain one.
        """
        run = self._run
        try:
            coroutine = run.body.function(*run.arguments, **run.named)
        except Exception as error:
            self._turns.turn_of(self._turns.end, run, run.body.judge.of_error(error), None)
            holder.runs_it = False
            return
        self.task = self._loop.create_task(coroutine)
        # twice: where an interrupt breaks the loop off at the first, the second is still to come
        self.task.add_done_callback(self._done)
        self.task.add_done_callback(self._done)
        of_loop = self._turns.loops[self._loop]
        # from here on nothing is called
        of_loop[self], holder.runs_it = None, False

    def tell(self, by_timer: bool) -> None:
        """Cancels the task: the run took too long, or nobody waits for it."""
        if self.task is not None:
            with suppress(RuntimeError):  # the loop is closed
                self._loop.call_soon_threadsafe(self.task.cancel)

    def cancel_unless_wanted(self) -> None:
        """Cancels the task of a run that nobody waits for any more."""
        if all(other.is_gone() for other in self._run.waiting):
            self.tell(False)

    def _done(self, task: asyncio.Task[Any]) -> None:
        if task.cancelled():
            self.end((words.FAIL_BAD_REQUEST, None, asyncio.CancelledError()))
            return
        error, judge = task.exception(), self._run.body.judge
        self.end(judge.of_value(task.result()) if error is None else judge.of_error(error))

    def end(self, ended: End) -> None:
        """Tells how the run ended, unless it was told."""
        self._turns.turn(self._end, ended)
        forget(self._turns, self._loop, self)

    def _end(self, ended: End) -> None:
        if self._run.task is self:
            self._turns.end(self._run, ended, None)

    def sweep(self) -> None:
        """Ends the run of a loop that does not run: where the loop was closed, or an interrupt kept the end from it."""
        if self._loop.is_closed():
            self.end((words.FAIL_BAD_REQUEST, None, LoopClosed("the event loop was closed")))
        elif self.task is not None and self.task.done():
            self._done(self.task)


def sweep(turns: Core) -> None:
    """Brings to its end what loops that do not run have left behind."""
    for loop, of_loop in [*turns.loops.items()]:
        if not loop.is_running():
            for one in [*of_loop]:
                one.sweep()
            if not of_loop:
                turns.loops.pop(loop, None)


def forget(turns: Core, loop: asyncio.AbstractEventLoop, one: Union[Awaiter, Carried]) -> None:
    """Nothing of it is left to be done."""
    of_loop = turns.loops.get(loop)
    if of_loop is not None:
        of_loop.pop(one, None)
        if not of_loop:
            turns.loops.pop(loop, None)


def _is_own(run: Run) -> bool:
    carried = run.task
    return carried is not None and carried.task is asyncio.current_task()


async def execute(
    turns: Core,
    run: Run,
    shared: Optional[Shared],
    leave: Callable[[Holder, BaseException], None],
) -> Any:
    """Executes a call in the loop that runs."""
    if turns.loops:
        sweep(turns)
    loop = asyncio.get_running_loop()
    holder = Awaiter(turns, loop)
    try:
        turns.loops.setdefault(loop, {})[holder] = None
        turns.turn_of(turns.submit, run, holder, shared)
        if holder.owes_fallback():
            holder.take_fallback(await fall_back(run))
        if holder.run is None:
            return holder.answer()
        run = holder.run
        if holder.runs_it:
            run.task = carried = Carried(turns, run, loop)
            carried.start(holder)
        elif holder.outcome == UNTOLD and _is_own(run):
            raise Reentered(f"{run.place.spelled}: the run would wait for itself")
        await holder.wait()
        if holder.outcome == words.RUN_FALLBACK:
            turns.turn_of(turns.end_fallback, run, await fall_back(run), holder)
            await holder.wait()
    except BaseException as error:
        carried = run.task
        turns.owed += (holder,)  # where the stack has no room for the call below
        leave(holder, error)
        if carried is not None:
            carried.cancel_unless_wanted()
        raise
    finally:
        forget(turns, loop, holder)
    return holder.answer()


async def fall_back(run: Run) -> FallbackEnd:
    """Runs the fallback, which may be a coroutine function."""
    operation, value = run.fall_back()
    if operation != words.FALLBACK_SUCCESS or not inspect.isawaitable(value):
        return operation, value
    try:
        return operation, await value
    except Exception as error:
        return words.FALLBACK_FAILURE, error
