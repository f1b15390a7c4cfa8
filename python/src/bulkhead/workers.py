"""Worker processes of a group under THREAD: each asks a service that processes share for queued runs, and does them."""

from __future__ import annotations

import logging
import threading
from collections.abc import Callable, Mapping
from contextlib import suppress
from typing import Optional

from . import _lines, _words as words
from ._connection import Address, Answer, Connection, Lost, checked_address
from ._failures import PLAIN
from ._links import Opener
from .errors import Error, NoSuchGroup, Worn

_log = logging.getLogger("bulkhead")

# what runs a command: it is called with the argument of the request, and gives the text of the answer
Function = Callable[[str], str]


def work(address: Address, group: str, functions: Mapping[str, Function], *, timeout: float = 1.0) -> None:
    """Works for a group until the process ends: asks for a queued run, runs its command's function, and tells how it ended.

    `functions` has a function for each command of the group by its name, the group's own one under the group's name. It is
    called with the argument of the request, a str of at most 64 bytes, and gives the text of the answer, one of at most 256.
    What it raises fails the run, and `BadRequest` says that the request is at fault; so does a text that cannot be told, and
    a command without a function.

    Where the service is not there, or was lost, it is tried again after a moment that grows up to two seconds. Raises
    `NoSuchGroup` and `Worn`. An exception beyond `Exception`, as a KeyboardInterrupt, ends the run as a bad request and
    passes through; a process that is killed has its run failed by the service. `Worker` is the same with an end.
    """
    Worker(address, group, functions, timeout=timeout).run()


class Worker:
    """A worker of a group, which `stop` ends: another thread calls it, or a signal handler."""

    def __init__(
        self, address: Address, group: str, functions: Mapping[str, Function], *, timeout: float = 1.0
    ) -> None:
        if not functions or not all(callable(function) for function in functions.values()):
            raise Error("a worker has a function for each command of its group, by the command's name")
        self._group, self._functions = group, dict(functions)
        self._address = checked_address(address)
        self._timeout = timeout
        self._link: Optional[Connection] = None
        self._is_waiting = self._is_stopped = False
        self._pausing = threading.Event()

    def stop(self) -> None:
        """Ends the loop: at once where it waits for a run, else behind the run that goes on.

        A run that the service assigns in that very moment is failed by the service, as that of a worker which died.
        """
        self._is_stopped = True
        self._pausing.set()
        link = self._link
        if self._is_waiting and link is not None:
            link.hang_up()

    def run(self) -> None:
        """Works until `stop` is called, as `work` does until the process ends."""
        opener = Opener(Connection, self._address, self._timeout)
        while not self._is_stopped:
            try:
                link, names = opener.open()
            except Lost as lost:
                _log.warning("a worker of %s: %s", self._group, lost)
                self._pausing.wait(opener.pause.length)
                continue
            try:
                if self._group not in names:
                    raise NoSuchGroup(f"the service has no group {self._group!r}")
                self._link = link
                self._work(link)
            except Lost as lost:
                if not self._is_stopped:
                    _log.warning("a worker of %s: %s", self._group, lost)
                    opener.failed(lost)
                    self._pausing.wait(opener.pause.length)
            finally:
                self._link = None
                link.close()

    def _work(self, link: Connection) -> None:
        answer = self._waited(link)
        while True:
            reply = answer.get("reply")
            if reply == "worn":
                raise Worn(f"{self._group}: the group has made all of its steps")
            if reply != "assigned" or self._is_stopped:
                raise Lost(f"the service is stopping: it answered {answer}")
            link.ask(self._done(link, answer))
            if self._is_stopped:
                return
            answer = self._waited(link)

    def _waited(self, link: Connection) -> Answer:
        """Asks for a run, and waits until there is one."""
        self._is_waiting = True
        try:
            if self._is_stopped:
                raise Lost("the worker was stopped")
            return link.wait(_lines.start(self._group))
        finally:
            self._is_waiting = False

    def _done(self, link: Connection, assigned: Answer) -> bytes:
        """Does a run: the line that tells how it ended."""
        name, ticket = assigned.get("command", self._group), assigned["ticket"]
        function = self._functions.get(name)
        try:
            if function is None:
                raise LookupError(f"the worker has no function for {name}")
            text = _lines.checked_text(function(assigned["arg"]), f"the function of {name}")
            return _lines.finish(self._group, ticket, text)
        except Exception as error:
            is_bad = PLAIN.of_error(error)[0] == words.FAIL_BAD_REQUEST
            if not is_bad:
                _log.warning("a run of %s failed: %r", name, error, exc_info=error)
            return _lines.fail(self._group, ticket, is_bad)
        except BaseException:
            with suppress(Lost):  # the service has failed the run then
                link.ask(_lines.fail(self._group, ticket, True))
            raise
