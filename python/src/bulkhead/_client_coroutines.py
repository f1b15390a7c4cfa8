"""Calls of a client whose function is a coroutine function: each run is a task of its caller's loop.

The lines of such a call are answered at once, and the loop stands still as long. Where a call waits for another process,
or for a connection that is opened, the loop goes on.
"""

from __future__ import annotations

import asyncio
import inspect
from contextlib import suppress
from math import inf
from typing import Any, Optional

from . import _lines, _words as words
from ._client_calls import Call
from ._connection import Lost
from ._coroutines import fall_back
from ._failures import End
from .errors import add_fallback_error

# how long a call that timed out here waits until the service has timed it out too, in seconds, at first and at most
_LOOK, _LONGEST_LOOK = 0.001, 0.05

# the tasks that run functions, by their loops, until their ends were told
_carried: dict[asyncio.AbstractEventLoop, dict[Carried, None]] = {}


class Carried:
    """The task that runs the function of a call, and what is told of its end."""

    def __init__(self, call: Call, loop: asyncio.AbstractEventLoop) -> None:
        self.call, self.loop = call, loop
        self.task: Optional[asyncio.Task[Any]] = None

    async def run(self, coroutine: Any) -> None:
        """Runs it until it ends, which is told, or until its time is over; then it is cancelled, and the service waited for.

        What ends sooner than the service has timed it out would be told as a bad request.
        """
        self.task = task = self.loop.create_task(coroutine)
        _carried.setdefault(self.loop, {})[self] = None
        call = self.call
        call.enter(task)
        await asyncio.wait({task}, timeout=None if call.place.limit == inf else call.place.limit / 1000)
        if task.done():
            call.end(_end_of(call, task))
            return
        task.cancel()
        pause = _LOOK
        while not call.look():
            await asyncio.sleep(pause)
            pause = min(2 * pause, _LONGEST_LOOK)
        task.add_done_callback(self._end_late)

    def _end_late(self, task: asyncio.Task[Any]) -> None:
        """Tells the end of a run that timed out, or whose caller has left."""
        with suppress(Lost):  # the service has ended it then
            self.call.end_late(_end_of(self.call, task))

    def leave(self) -> None:
        """The caller goes on: what is left is done now, or once the task has ended."""
        task = self.task
        if task is None or task.done():
            self.close_up(task)
        else:
            task.cancel()
            task.add_done_callback(self.close_up)

    def close_up(self, task: Optional[asyncio.Task[Any]]) -> None:
        """Nothing is left of the call behind it."""
        of_loop = _carried.get(self.loop, {})
        of_loop.pop(self, None)
        if not of_loop:
            _carried.pop(self.loop, None)
        try:
            if task is not None:
                self._end_late(task)
        finally:
            self.call.give_back()
            self.call.release()


def _end_of(call: Call, task: asyncio.Task[Any]) -> End:
    """How a run ended, by its task."""
    if task.cancelled():
        return words.FAIL_BAD_REQUEST, None, asyncio.CancelledError()
    error, judge = task.exception(), call.body.judge
    return judge.of_value(task.result()) if error is None else judge.of_error(error)


def _sweep() -> None:
    """Ends the runs of loops that were closed in the midst of them."""
    for loop in [*_carried]:
        if loop.is_closed():
            for carried in [*_carried.get(loop, {})]:
                carried.close_up(None)


async def execute(call: Call) -> Any:
    """Executes a call in the loop that runs."""
    _sweep()
    carried = Carried(call, asyncio.get_running_loop())
    try:
        try:
            call.enter(asyncio.current_task())
            if not call.open_ready():
                await _open(call)
            call.submit()
            if call.is_full:
                return await _refused(call)
            await _answered(call, carried)
            if call.owes_fallback():
                call.end_fallback(await fall_back(call))
            return call.result()
        except Lost as error:
            lost = error
        return await _alone(call, lost)
    finally:
        carried.leave()


async def _open(call: Call) -> None:
    """Opens the connection of a call in another thread, as a service that does not answer may be long."""
    opening = asyncio.get_running_loop().run_in_executor(None, call.open)
    try:
        await asyncio.shield(opening)
    except asyncio.CancelledError:

        def opened(done: asyncio.Future[None]) -> None:
            if not done.cancelled():
                done.exception()
            call.release()

        opening.add_done_callback(opened)
        raise


async def _answered(call: Call, carried: Carried) -> None:
    """Brings a call to its answer, or to the fallback that it has to run."""
    if call.is_running:
        try:
            coroutine = call.body.function(*call.arguments, **call.named)
        except Exception as error:
            call.end(call.body.judge.of_error(error))
        else:
            await carried.run(coroutine)
    if call.is_alone and not call.told:
        line = _lines.collect(call.body.group_name, call.ticket, True)
        call.told = await call.linked().wait_in_loop(line, call.look_for_service())
    call.collect()


async def _refused(call: Call) -> Any:
    """What a call comes to that found no slot."""
    holder = call.refused_holder()
    if holder.owes_fallback():
        holder.take_fallback(await fall_back(call))
    return holder.answer()


async def _alone(call: Call, lost: Lost) -> Any:
    """What a call comes to without the service."""
    if call.has_own_value():
        return call.own_value()
    error = call.known_alone(lost)
    answer = call.fallback_alone(error)
    if not inspect.isawaitable(answer):
        return answer
    try:
        return await answer
    except Exception as raised:
        error.fallback = "failed"
        add_fallback_error(error, raised)
    raise error
