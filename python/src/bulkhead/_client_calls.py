"""Calls of a client: each decision is asked of the service, and the function runs here.

A call knows what its connection still owes: a run that has to be ended, a fallback, an answer to collect. Whatever comes in
between, that is given back line by line, or the connection is closed, and the service takes it back.
"""

from __future__ import annotations

import threading
import time
from typing import Any, Optional

from . import _lines, _words as words
from ._client_bodies import ClientBody, Keyed
from ._connection import Answer, Connection, Look, Lost
from ._events import OF_CAUSES, RESPONSE_FROM_CACHE
from ._failures import End, passes_through
from ._runs import FallbackEnd, Holder, Run, copied
from .errors import (
    BadRequest,
    CommandError,
    Error,
    NoSuchCommand,
    NoSuchGroup,
    Reentered,
    Refused,
    Unreachable,
    add_fallback_error,
    error_of,
)

_KINDS = {word: number for number, word in enumerate(words.KINDS, 1)}
_CAUSES = {word: number for number, word in enumerate(words.CAUSES, 1)}
_FALLBACKS = {word: number for number, word in enumerate(words.FALLBACKS, 1)}
_FALLBACK_ENDS = {
    words.FALLBACK_SUCCESS: "success",
    words.FALLBACK_FAILURE: "failure",
    words.FALLBACK_MISSING: "missing",
}
_PLACED = ("inline", "fallback-due", "joined", "queued")
# in seconds: a service that is there may be so long
_SHORTEST_LOOK = 0.05
_ANSWERS = ("value", "fallback-value", "error", "bad-request")


class Call(Run):
    """A call, from its submit until nothing of it is left."""

    body: ClientBody
    # the connection that it went over, and the same where it is for this call alone
    link: Optional[Connection] = None
    _own: Optional[Connection] = None
    # a submit without an answer, a run to end, a holder to collect, and a fallback to end
    is_asked = is_running = is_held = is_in_fallback = False
    is_joined = False
    ended: Optional[End] = None
    fell_back: Optional[FallbackEnd] = None
    told: Answer = {}
    _entered: tuple[tuple[Keyed, object], ...] = ()
    began = 0.0

    def __init__(
        self, body: ClientBody, arguments: tuple[Any, ...], named: dict[str, Any], keyed: Optional[Keyed]
    ) -> None:
        super().__init__(body, arguments, named)
        self.keyed = keyed
        # whether it has a connection for itself: it may wait for another process, or be queued against what its command wants
        self.is_alone = keyed is not None or not body.is_inline

    def enter(self, who: object) -> None:
        """Notes the thread or the task that is at a call with a key. Raises `Reentered` where it would wait for itself."""
        if self.keyed is None:
            return
        at = self.keyed, who
        if at in self.body.at:
            raise Reentered(f"{self.place.spelled}: the run would wait for itself")
        self._entered = (*self._entered, at)
        self.body.at[at] = self

    # -- the submit

    def submit(self) -> None:
        """Asks for a run. Raises `Lost`, and a `CommandError` or an `Error` where there is none."""
        answer = self._placed()
        if answer.get("error") == "full" and not self.is_alone:
            self.is_asked, self.is_alone, self.link = False, True, None
            answer = self._placed()
        reply, body = answer.get("reply"), self.body
        if reply in _PLACED:
            self.ticket, self.is_held, self.is_joined = answer["ticket"], True, reply == "joined"
            self.is_running = reply == "inline"
            body.is_inline, body.is_queued = body.is_inline or self.is_running, reply == "queued"
        self.is_asked = False
        if self.keyed is not None and not self.keyed[0].is_open:
            self.keyed[0].end_in(body.group_name)
        if reply == "fallback-due":
            body.count_event(OF_CAUSES[_CAUSES[answer["cause"]]])
        elif reply == "joined":
            body.count_event(RESPONSE_FROM_CACHE)
        elif reply == "group-full":
            body.count_full()
            self.is_full = True
            return
        if reply not in _PLACED:
            raise self._not_placed(answer)
        self._look_placed()
        self.began = time.monotonic()

    def _look_placed(self) -> None:
        """Raises where the ticket is none of a command that its caller runs."""
        self.body.refuse_queued()

    def _placed(self) -> Answer:
        try:
            return self._submitted()
        except Lost as lost:
            # nothing was run yet, and what the old connection got is taken back, so it may be asked for again
            self.body.links.slowed(lost)
            self.body.links.drop_free()
            if self.keyed is not None:
                self.keyed[0].left(self.body.group_name)
            return self._submitted()

    def _submit_line(self) -> bytes:
        body = self.body
        if self.keyed is None:
            return body.plain_line
        context, key = self.keyed
        context.used[body.group_name] = None
        return _lines.submit(body.group_name, body.command_name, "", context.number, key)

    def open_ready(self) -> bool:
        """Takes the connection that it goes over, where none need be opened, and tells whether it did."""
        links = self.body.links
        if self.is_alone:
            self.link = self._own = links.take_ready()
        else:
            self.link = links.ready()
        return self.link is not None

    def open(self) -> None:
        """Takes the connection that it goes over. Raises `Lost`, and `Stopped` where the client is closed."""
        self._release_own()
        if self.is_alone:
            self.link = self._own = self.body.links.take()
        else:
            self.link = self.body.links.shared()

    def _submitted(self) -> Answer:
        if self.link is None or self.link.is_lost:
            self.open()
        link, line = self.linked(), self._submit_line()
        if self.keyed is not None:
            self.keyed[0].enter(self.body.group_name)
            # where no answer comes, the submit may be done behind the end of its context, and would keep a slot for good
            link.last_words = _lines.close(self.body.group_name, self.keyed[0].number)
        self.is_asked = True
        try:
            answer = link.ask(line, passed=self.passed_over)[0]
        except Reentered:
            self.is_asked = False  # nothing was sent, and the line that goes on is not to be disturbed
            raise
        except Lost as lost:
            self.is_asked = not lost.goes_on
            raise
        link.last_words = b""
        return answer

    def _not_placed(self, answer: Answer) -> Exception:
        spelled, why = self.place.spelled, answer.get("error")
        if why == "group":
            return NoSuchGroup(f"{spelled}: the service has no such group")
        if why == "command":
            return NoSuchCommand(f"{spelled}: the service has no such command")
        if answer.get("reply") == "worn":
            return self._holder(answer).exception()  # type: ignore[return-value]
        return Error(f"{spelled}: the service answered {answer}")

    # -- ends and answers

    def end(self, ended: End) -> None:
        """Tells how the run ended. A call that may share its answer collects it with a line of its own."""
        operation, value, error = ended
        text = ""
        if operation == words.FINISH and self.keyed is not None:
            try:
                text = self.body.checked_text(value)
            except Exception as why:
                operation, value, error = words.FAIL_BAD_REQUEST, None, why
        self.ended = operation, value, error
        group, ticket = self.body.group_name, self.ticket
        if operation == words.FINISH:
            line = _lines.finish(group, ticket, text)
        else:
            line = _lines.fail(group, ticket, operation == words.FAIL_BAD_REQUEST)
        took = time.monotonic() - self.began
        if self.is_alone:
            (done,) = self._ask(line)
        else:
            done, self.told = self._ask(line, _lines.collect(group, ticket))
        self.is_running = False
        if done.get("reply") == "done":  # what comes late counts for nothing
            self.value, self.error = value, error
        self.body.count_end(operation, done.get("reply"), took)

    def end_late(self, ended: End) -> None:
        """Tells the end of a run whose caller is answered by its timeout or has left, unless it was told."""
        if self.is_running:
            self.is_running = False
            (done,) = self._ask(_lines.fail(self.body.group_name, self.ticket, ended[0] != words.FAIL), is_last=False)
            self.body.count_end(ended[0], done.get("reply"), time.monotonic() - self.began)

    def collect(self) -> None:
        """Asks for the answer, where it has not come yet, and waits for it where another process is at it."""
        if not self.told:
            line = _lines.collect(self.body.group_name, self.ticket, self.is_alone)
            self.told = self.linked().wait(line, self.look_for_service()) if self.is_alone else self._ask(line)[0]
        self.take_answer()

    def look_for_service(self) -> Look:
        """How it is looked whether the service is there, so that a wait for one that is not ends by its time.

        That is the client's `timeout=`, or that of the command where it is shorter; half of it is for the look.
        """
        links, limit = self.body.links, self.place.limit / 1000
        return Look(max(min(links.timeout, limit) / 2, _SHORTEST_LOOK), links.look)

    def look(self) -> bool:
        """Whether there is an answer already."""
        (self.told,) = self._ask(_lines.collect(self.body.group_name, self.ticket), is_last=False)
        if self.told.get("reply") == "pending":
            self.told = {}
            return False
        return True

    def take_answer(self) -> None:
        """Takes over what a collect was told. Raises `Lost` where the service ended before there was an answer."""
        reply = self.told.get("reply")
        if reply in _ANSWERS or reply == "worn":
            self.is_held = False
            if reply in _ANSWERS and not self.is_joined:
                self.body.count_answer(reply, self.told.get("fallback"))
        elif reply == "run-fallback":
            self.is_in_fallback, self.cause = True, _CAUSES.get(self.told["cause"], 0)
        else:
            raise Lost(f"the service is stopping: it answered {self.told}")

    def owes_fallback(self) -> bool:
        """Whether this call has to run the fallback."""
        return self.is_in_fallback

    def end_fallback(self, ended: FallbackEnd) -> None:
        """Tells how the fallback ended, and collects."""
        operation, value = ended
        body, text = self.body, ""
        if operation == words.FALLBACK_SUCCESS and self.keyed is not None:
            try:
                text = body.checked_text(value)
            except Exception as error:
                operation, value = words.FALLBACK_FAILURE, error
        self.fell_back = operation, value
        said = text if operation == words.FALLBACK_SUCCESS else None
        line = _lines.fallback(body.group_name, self.ticket, _FALLBACK_ENDS[operation], said)
        _, self.told = self._ask(line, _lines.collect(body.group_name, self.ticket))
        self.is_in_fallback = False
        self.take_answer()

    def result(self) -> Any:
        """The value of the answer, or raises what it says."""
        reply, ended, fell_back = self.told.get("reply"), self.ended, self.fell_back
        if ended is not None and ended[0] == words.FAIL_BAD_REQUEST and ended[2] is not None:
            if not passes_through(ended[2]) or reply == "bad-request":
                raise ended[2]
        if reply == "value" and ended is not None and ended[0] == words.FINISH:
            return ended[1]
        if reply == "fallback-value" and fell_back is not None:
            return fell_back[1]
        if reply in ("value", "fallback-value"):
            texts = self.body.texts
            return texts.decode(self.told["body"]) if texts is not None else self.told["body"]
        raise self._holder(self.told).exception()

    def _holder(self, answer: Answer) -> Holder:
        """One who was told an answer, by the numbers of its words."""
        holder = Holder()
        holder.run, holder.outcome = self, _KINDS[answer["reply"]]
        holder.cause = _CAUSES.get(answer.get("cause", ""), 0)
        holder.fallback = _FALLBACKS.get(answer.get("fallback", ""), 0)
        holder.error = self.error
        if self.fell_back is not None and self.fell_back[0] == words.FALLBACK_FAILURE:
            holder.value = self.fell_back[1]
        if self.is_joined and holder.outcome == words.BAD_REQUEST:
            holder.error = BadRequest(f"{self.place.spelled}: the run of another call found the request bad")
        return holder

    # -- where no slot was free

    def refused_holder(self) -> Holder:
        """One who was told that no slot was free, and may have to run the fallback."""
        holder = Holder()
        with self.body.links.counting:
            holder.fallback = self.enter_fallback()
        holder.outcome, holder.refused = words.GROUP_FULL, self
        return holder

    # -- without the service

    def known_alone(self, lost: Lost) -> CommandError:
        """Why there is no answer of the service: the function's failure, where it ran, or that the service is gone."""
        ended, spelled = self.ended, self.place.spelled
        if ended is not None and ended[0] == words.FAIL:
            return error_of(spelled, words.FAILURE, None, ended[2])
        self.body.count_unreachable()
        error = Unreachable(f"{spelled}: {lost}")
        error.__cause__ = lost
        return error

    def has_own_value(self) -> bool:
        """Whether this call came to its own end before the connection was lost: a value, or a bad request."""
        ended, fell_back = self.ended, self.fell_back
        if fell_back is not None:
            return True
        return ended is not None and ended[0] != words.FAIL

    def own_value(self) -> Any:
        """The value that it came to by itself, or raises its exception."""
        if self.fell_back is not None:
            operation, value = self.fell_back
            if operation == words.FALLBACK_SUCCESS:
                return value
            is_missing = operation == words.FALLBACK_MISSING
            fallback, raised = (words.MISSING, None) if is_missing else (words.FAILED, value)
            raise error_of(self.place.spelled, self.cause, fallback, self.error, raised)
        assert self.ended is not None, "it has ended"
        _, value, error = self.ended
        if error is not None:
            raise error
        return value

    def fallback_alone(self, error: CommandError) -> Any:
        """What the fallback gives without the service, where the team chose so. Raises the error else."""
        fallback = self.body.fallback
        if not self.body.falls_back:
            raise error
        if fallback is None:
            error.fallback = "missing"
            raise error
        try:
            return fallback(*self.arguments, **self.named, cause=copied(error))
        except Exception as raised:
            error.fallback = "failed"
            add_fallback_error(error, raised)
        raise error

    # -- what is given back

    def give_back(self) -> None:
        """Ends and collects what it still has; where that cannot be told, the service takes it back."""
        link = self.link
        if link is None or link.is_lost:
            return
        try:
            self._give_back(link)
        except Lost as lost:
            if not lost.goes_on:
                link.close()
        except BaseException as error:
            link.close()
            if not isinstance(error, Exception):
                raise

    def _give_back(self, link: Connection) -> None:
        group, ticket = self.body.group_name, self.ticket
        if self.is_asked:
            link.close()  # what it was told is not known
            return
        # a line that was done already makes no step, so what may have been told just now is told once more
        fail: tuple[bytes, ...] = (_lines.fail(group, ticket, True),) if self.is_running else ()
        self.is_running = False
        if not self.is_held:
            if fail:
                self._ask(*fail)
            return
        missing, collect = _lines.fallback(group, ticket, "missing"), _lines.collect(group, ticket)
        told = self._ask(*fail, missing, collect)[-1]
        if told.get("reply") == "run-fallback":
            told = self._ask(missing, collect)[-1]
        if told.get("reply") == "pending" and self.is_alone:
            link.close()
        self.is_held = False

    def passed_over(self, answer: Answer) -> tuple[bytes, ...]:
        """What gives back what a line got whose answer came too late: lines, whose answers are passed over too."""
        group, self.ticket = self.body.group_name, answer.get("ticket", self.ticket)
        reply, collect = answer.get("reply"), _lines.collect(group, self.ticket)
        if reply == "inline":
            return _lines.fail(group, self.ticket, True), collect
        if reply == "run-fallback":
            return _lines.fallback(group, self.ticket, "missing"), collect
        return (collect,) if reply == "fallback-due" else ()

    def release(self) -> None:
        """Gives a connection back that it had for itself, and lets its thread and tasks go."""
        for at in self._entered:
            self.body.at.pop(at, None)
        self._release_own()

    def _release_own(self) -> None:
        own, self._own = self._own, None
        if own is not None:
            self.body.links.give(own)

    def linked(self) -> Connection:
        """The connection that it went over."""
        if self.link is None:
            raise Lost("the connection was lost")
        return self.link

    def _ask(self, *lines: bytes, is_last: bool = True) -> list[Answer]:
        """Has lines answered, the last ones of the call but for what they are answered."""
        try:
            return self.linked().ask(*lines, passed=self.passed_over, is_owed=True)
        except Lost as lost:
            if lost.goes_on and is_last:  # they are still done, and what comes of them is given back
                self.is_running = self.is_held = self.is_in_fallback = False
            raise


class Asked(Call):
    """A call of a command under THREAD, which a worker process runs: its argument and its value are texts."""

    def __init__(self, body: ClientBody, arg: str) -> None:
        super().__init__(body, (arg,), {}, None)
        self.is_alone, self._arg = True, arg

    def _look_placed(self) -> None:
        if self.is_running:
            raise Refused(f"{self.place.spelled} runs under SEMAPHORE, in its caller: no worker takes it")

    def _submit_line(self) -> bytes:
        return _lines.submit(self.body.group_name, self.body.command_name, self._arg)


def execute(call: Call) -> Any:
    """Executes a call in this thread."""
    try:
        try:
            call.enter(threading.get_ident())
            call.submit()
            if call.is_full:
                return _refused(call)
            if call.is_running:
                call.end(call.perform())
            call.collect()
            if call.owes_fallback():
                call.end_fallback(call.fall_back())
            return call.result()
        except Lost as error:
            lost = error
        call.give_back()
        return _alone(call, lost)
    except BaseException:
        call.give_back()
        raise
    finally:
        call.release()


def _refused(call: Call) -> Any:
    """What a call comes to that found no slot."""
    holder = call.refused_holder()
    holder.fall_back()
    return holder.answer()


def _alone(call: Call, lost: Lost) -> Any:
    """What a call comes to without the service."""
    if call.has_own_value():
        return call.own_value()
    return call.fallback_alone(call.known_alone(lost))
