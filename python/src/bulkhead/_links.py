"""The connections of a process to a service: one that its calls share, and some of their own for calls that wait.

A service has few connections to give (64 at most) and many tickets for each, so calls share one: each of their lines is
answered at once. A line that waits holds up those behind it, so a call that may wait for another process has a connection
for as long as it lasts.
"""

from __future__ import annotations

import os
import threading
import time
import weakref
from collections.abc import Callable, Iterator
from contextlib import contextmanager, suppress
from typing import Generic, Optional, TypeVar, Union

from . import _lines
from ._connection import Answer, Connection, Lost
from ._shared_connection import SharedConnection
from ._sockets import close_ended
from ._upkeep import Upkeep
from .errors import Reentered, Stopped

C = TypeVar("C", bound=Connection)

# how many connections of their own are kept for later calls, and for how many seconds
_KEPT, KEPT_FOR = 4, 1.0
# how many ends of request contexts are kept to be told later
_OWED = 1000


class Pause:
    """How long nothing is tried after a failure, in seconds: twice as long after each in a row, up to a bound."""

    SHORTEST, LONGEST = 0.05, 2.0

    def __init__(self, clock: Callable[[], float]) -> None:
        self._clock = clock
        self._until, self.length = 0.0, 0.0

    def failed(self) -> None:
        """Begins the next pause."""
        self.length = min(max(2 * self.length, self.SHORTEST), self.LONGEST)
        self._until = self._clock() + self.length

    def answered(self) -> None:
        """The service answers, so there is none."""
        self._until = self.length = 0.0

    def is_over(self) -> bool:
        """Whether something may be tried."""
        return not self.length or self._clock() >= self._until


class Opener(Generic[C]):
    """Opens connections of a kind, and where it fails lets a growing time pass before it tries again."""

    def __init__(
        self, kind: type[C], address: Union[str, int], timeout: float, clock: Callable[[], float] = time.monotonic
    ) -> None:
        self._kind, self._address, self._timeout = kind, address, timeout
        self.pause = Pause(clock)
        self._trying, self._is_trying = threading.RLock(), False
        self._why = ""

    @contextmanager
    def trying(self) -> Iterator[None]:
        """One thread tries at a time. After a failure the others do not wait for it."""
        if not self._trying.acquire(blocking=not self.pause.length):
            raise Lost(f"{self._why}; it is tried again now")
        try:
            if self._is_trying:
                raise Reentered("a connection is opened by this thread now, as a signal handler found it")
            self._is_trying = True
            try:
                yield
            finally:
                self._is_trying = False
        finally:
            self._trying.release()

    def look_over(self) -> None:
        """Raises `Lost` where a pause goes on for a connection that is late."""
        if not self.pause.is_over():
            lost = Lost(f"{self._why}; it is asked again after {self.pause.length:g} s", is_slow=True)
            lost.has_paused = True
            raise lost

    def open(self) -> tuple[C, list[str]]:
        """A connection that has answered by the names of the groups, and these. Raises `Lost`."""
        if not self.pause.is_over():
            raise Lost(f"{self._why}; it is tried again after {self.pause.length:g} s")
        close_ended()
        try:
            made = self._kind(self._address, self._timeout)
            try:
                names = made.ask(_lines.GROUPS)[0].get("groups")
                if not isinstance(names, list):
                    raise Lost(f"what answers at {self._address} is no service of bulkhead")
            except BaseException:
                made.close()
                raise
        except Lost as lost:
            self.failed(lost)
            raise
        self.pause.answered()
        return made, names

    def failed(self, lost: Lost) -> None:
        """Begins a pause, for a reason that is told meanwhile; one failure begins one pause."""
        if not lost.has_paused:
            lost.has_paused, self._why = True, str(lost)
            self.pause.failed()


class Links:
    """The connections of one process. A forked child has none of its parent's, and opens its own as it needs them."""

    def __init__(
        self, address: Union[str, int], timeout: float, clock: Callable[[], float] = time.monotonic
    ) -> None:
        self._opening, self._clock, self.timeout = (address, timeout, clock), clock, timeout
        self.is_closed = False
        # the ends of request contexts that could not be told, in their order
        self._owed: dict[bytes, None] = {}
        self._begin()
        _every.add(self)

    def _begin(self) -> None:
        self._shared: Optional[SharedConnection] = None
        # those that are kept for later calls, and since when; the one that was used last is last
        self._free: list[tuple[Connection, float]] = []
        self._keeping = Upkeep("bulkhead-kept-connections", self.give_up_unused)
        # those that calls have for themselves now; one that a call does not give back is closed as it is dropped
        self._lent: weakref.WeakSet[Connection] = weakref.WeakSet()
        # the lock of what is counted of calls; a fork may leave an old one taken
        self.counting = threading.RLock()
        self._opener, self._own_opener = Opener(SharedConnection, *self._opening), Opener(Connection, *self._opening)
        self.names: list[str] = []

    def shared(self) -> SharedConnection:
        """The connection that calls share, which is opened where there is none. Raises `Lost`, and `Stopped` at the end."""
        link = self._opened()
        if link is not None:
            if link.is_late:
                self._opener.look_over()
            elif self._opener.pause.length:
                self._opener.pause.answered()
            return link
        with self._opener.trying():
            link = self._opened()
            if link is None:
                self._look_open()
                link, self.names = self._opener.open()
                self._shared = link
                self._look_open()
                self._pay(link)
        return link

    def _look_open(self) -> None:
        """Raises `Stopped` after the end, and leaves no connection open then."""
        if self.is_closed:
            self.close()
            raise Stopped("the client is closed")

    def _pay(self, link: Connection) -> None:
        owed, self._owed = self._owed, {}
        if owed:
            try:
                link.ask(*owed)
            except BaseException:
                self._owed = owed | self._owed
                raise

    def _opened(self) -> Optional[SharedConnection]:
        link = self._shared
        return None if link is None or link.is_lost else link

    def ready(self) -> Optional[SharedConnection]:
        """The connection that calls share, where it need not be opened, and no answer is late."""
        link = self._opened()
        return None if link is None or link.is_late else link

    def take_ready(self) -> Optional[Connection]:
        """A connection for one call alone, where none need be opened for it."""
        with suppress(IndexError):
            while self.ready() is not None:
                link, _ = self._free.pop()
                if not link.is_lost:
                    self._lent.add(link)
                    return link
        return None

    def take(self) -> Connection:
        """A connection for one call alone. Raises `Lost`. Whoever takes it gives it back, or closes it."""
        self.shared()
        ready = self.take_ready()
        if ready is not None:
            return ready
        with self._own_opener.trying():
            link, _ = self._own_opener.open()
        self._lent.add(link)
        self._look_open()
        return link

    def give(self, link: Connection) -> None:
        """Gives back a connection of one call, over which nothing is under way any more."""
        self._lent.discard(link)
        if link.is_lost:
            return
        if len(self._free) >= _KEPT or self.is_closed:
            link.close()
            return
        self._free.append((link, self._clock()))
        if self.is_closed or not self._keeping.begin():
            self.drop_free()

    def give_up_unused(self) -> Optional[float]:
        """Closes what was kept so long, and tells in how many seconds the next one is due, if one is kept."""
        due = self._clock() - KEPT_FOR
        for one in [*self._free]:
            link, since = one
            if since <= due:
                with suppress(ValueError):  # a call was sooner
                    self._free.remove(one)
                    link.close()
        return min((since - due for _, since in [*self._free]), default=None)

    def drop_free(self) -> None:
        """Closes what is kept for later calls: where one connection was lost, the others mostly are too."""
        while self._free:
            with suppress(IndexError):
                self._free.pop()[0].close()

    def ask(self, *lines: bytes, is_owed: bool = False) -> list[Answer]:
        """Has lines answered over the shared connection; where that was lost meanwhile, once more over a new one."""
        try:
            return self.shared().ask(*lines, is_owed=is_owed)
        except Lost as lost:
            self.slowed(lost)
            return self.shared().ask(*lines, is_owed=is_owed)

    def end_context(self, line: bytes) -> None:
        """Has the end of a request context told, now or as soon as that can be. Raises `Stopped`."""
        link = self._opened()
        if link is not None and link.is_late:
            link.owe((line,))
            return
        try:
            self.ask(line, is_owed=True)
        except Reentered:  # as in a finalizer in the midst of a line
            link = self._opened()
            if link is None:
                self.owe(line)
            else:
                link.owe((line,))
        except Lost as lost:
            if not lost.goes_on:
                self.owe(line)

    def look(self, limit: float) -> None:
        """Raises `Lost` where the service does not answer within so many seconds."""
        self.shared().ask(_lines.GROUPS, limit=limit)

    def slowed(self, lost: Lost) -> None:
        """Raises the loss where the service is too slow, so that it is not asked again at once."""
        if lost.is_slow:
            if self.ready() is None:
                self._opener.failed(lost)
            raise lost

    def owe(self, line: bytes) -> None:
        """Has the end of a request context told with the next connection. Of very many the first are forgotten."""
        self._owed[line] = None
        if len(self._owed) > _OWED:
            with suppress(KeyError):
                del self._owed[next(iter(self._owed))]

    def close(self) -> None:
        """Closes all connections: the service takes back what they had."""
        self.is_closed = True
        for link in (self._shared, *self._lent):
            if link is not None:
                link.close()
        self.drop_free()

    def forget(self) -> None:
        """In a forked process: the connections are the parent's."""
        for link in (self._shared, *self._lent, *(link for link, _ in self._free)):
            if link is not None:
                link.forget()
        self._owed = {}
        self._begin()


_every: weakref.WeakSet[Links] = weakref.WeakSet()


def _after_fork_in_child() -> None:
    for links in [*_every]:
        links.forget()


if hasattr(os, "register_at_fork"):
    os.register_at_fork(after_in_child=_after_fork_in_child)
