"""One connection to a service that processes share: lines that are sent, and an answer to each."""

from __future__ import annotations

import asyncio
import json
import os
import socket
import threading
import weakref
from collections.abc import Callable
from contextlib import suppress
from typing import Any, NamedTuple, Optional, Union

from ._sockets import close_behind, opened
from .errors import Error, Reentered

# the path of a Unix socket, or a port of 127.0.0.1
Address = Union[str, "os.PathLike[str]", int]
Answer = dict[str, Any]
# what is made of an answer that came too late: the lines that give back what it gives
Passed = Callable[[Answer], tuple[bytes, ...]]

# how many lines are sent before their answers are read, so that neither side waits for room with both
AT_ONCE = 64
_READ = 1 << 16
# what `json.loads` goes by, which is shorter
_read_json = json.JSONDecoder().raw_decode
_PATH_LIMIT = 107
# what the system says where a time is over
_SLOW = (TimeoutError, socket.timeout, BlockingIOError)


class Lost(Exception):
    """A connection cannot be opened, or is of no use any more: what was sent may have been done or not.

    `is_slow` tells that the service is there and did not answer in time, so that to ask it again at once would be in vain;
    `goes_on` that the connection is none the worse: what the lines get that were sent is given back, and so are lines that
    have to be; `has_paused` that nothing is tried for a time because of it.
    """

    def __init__(self, why: str, is_slow: bool = False, goes_on: bool = False) -> None:
        super().__init__(why)
        self.is_slow, self.goes_on, self.has_paused = is_slow, goes_on, False


def checked_address(address: Address) -> Union[str, int]:
    """A path as it can be opened from any folder, or a port. Raises `Error` where it is neither."""
    if isinstance(address, int) and not isinstance(address, bool):
        if 1 <= address <= 65_535:
            return address
        raise Error(f"a port is 1 to 65535, and not {address}")
    if not isinstance(address, (str, os.PathLike)):
        raise Error(f"a service is the path of its socket or its port, and not {type(address).__name__}")
    path = os.fspath(address)
    absolute = os.path.abspath(path)
    # a path that is too long is refused by the system, so one that fits as it was given is left so
    return absolute if len(os.fsencode(absolute)) <= _PATH_LIMIT else path


def nothing_more(_: Answer) -> tuple[bytes, ...]:
    """What came too late gives nothing that has to be given back."""
    return ()


class Look(NamedTuple):
    """How it is found whether the service is there while an answer is waited for: a look each `period` seconds."""

    period: float
    # raises `Lost` where the service does not answer within that time
    ask: Callable[[float], object]

    def once(self) -> None:
        """Looks."""
        self.ask(self.period)


class Connection:
    """A connection, whose lines are sent and answered under its lock.

    Whoever breaks an exchange off loses the connection, since answers would be taken for those to other lines; the service
    then takes back what it had.
    """

    def __init__(self, address: Union[str, int], timeout: float) -> None:
        try:
            self._socket = opened(address, timeout)
        except OSError as error:
            raise Lost(f"{address} cannot be reached: {error}", isinstance(error, _SLOW)) from error
        # one that is dropped is closed without a word
        self._dropped = weakref.finalize(self, self._socket.close)
        self._dropped.atexit = False
        self._timeout, self._rest = timeout, bytearray()
        # how long an answer may take at present
        self._limit: Optional[float] = timeout
        self._lock, self._is_busy = threading.RLock(), False
        self._is_in_loop = False
        self.is_lost = False
        # a line that is sent before it is closed, behind what was not answered yet
        self.last_words = b""

    def close(self) -> None:
        """Closes it, which may be done from another thread; what it had is taken back by the service."""
        self.is_lost = True
        last_words, self.last_words = self.last_words, b""
        if last_words:
            self._dropped.detach()
            close_behind(self._socket, last_words)
            return
        with suppress(OSError):  # it is not connected any more
            self._socket.shutdown(socket.SHUT_RDWR)
        if not self._is_in_loop:  # a loop that reads it finds its end, and closes it
            self._socket.close()

    def hang_up(self) -> None:
        """Says that no further line comes: the service then answers a line that waits."""
        with suppress(OSError):  # it is not connected any more
            self._socket.shutdown(socket.SHUT_WR)

    def forget(self) -> None:
        """Closes it in a forked process, where its parent's connection goes on."""
        self.is_lost = True
        self._socket.close()

    def ask(
        self,
        *lines: bytes,
        limit: Optional[float] = None,
        passed: Passed = nothing_more,
        is_owed: bool = False,
    ) -> list[Answer]:
        """Sends lines that are answered at once, within `limit` seconds each, and gives their answers in their order.

        Where the connection outlives answers that are late, they are told to `passed`, and lines that are owed are sent later.
        """
        return self._exchange(lines, self._timeout if limit is None else limit, None)

    def wait(self, line: bytes, look: Optional[Look] = None) -> Answer:
        """Sends a line that is answered later, and waits for its answer: as long as `look` finds the service there.

        Without it the wait has no end.
        """
        return self._exchange((line,), None if look is None else look.period, look)[0]

    async def wait_in_loop(self, line: bytes, look: Look) -> Answer:
        """The same for a coroutine. One that is cancelled loses the connection."""
        self._is_in_loop = True
        try:
            self._send((line,))
            while b"\n" not in self._rest and not await self._readable(look.period):
                await asyncio.get_running_loop().run_in_executor(None, look.once)
            return self._answer()
        except BaseException as error:
            self.is_lost = True
            raise_lost(error)
            raise
        finally:
            self._is_in_loop = False
            if self.is_lost:
                self.close()

    async def _readable(self, longest: float) -> bool:
        """Whether there is something to read within so many seconds."""
        loop, reader = asyncio.get_running_loop(), self._socket.fileno()
        is_there: asyncio.Future[None] = loop.create_future()
        loop.add_reader(reader, _set, is_there)
        try:
            done, _ = await asyncio.wait({is_there}, timeout=longest)
            return bool(done)
        finally:
            loop.remove_reader(reader)

    def _exchange(self, lines: tuple[bytes, ...], limit: Optional[float], look: Optional[Look]) -> list[Answer]:
        with self._lock:
            if self._is_busy:
                raise Reentered("the connection is in the midst of another line of this thread, as by a signal handler")
            try:
                self._is_busy = True
                self._set_limit(limit)
                answers = []
                for at in range(0, len(lines), AT_ONCE):
                    some = lines[at : at + AT_ONCE]
                    self._send(some)
                    answers += [self._answer(look) for _ in some]
                return answers
            except BaseException as error:
                self.close()
                raise_lost(error)
                raise
            finally:
                self._is_busy = False

    def _set_limit(self, limit: Optional[float]) -> None:
        if limit != self._limit:
            self._socket.settimeout(limit)
            self._limit = limit

    def _send(self, lines: tuple[bytes, ...]) -> None:
        if self.is_lost:
            raise Lost("the connection was lost")
        self._socket.sendall(b"".join(lines))

    def _received(self, look: Optional[Look]) -> bytes:
        while True:
            try:
                return self._socket.recv(_READ)
            except socket.timeout:  # TimeoutError from Python 3.10 on
                if look is None:
                    raise
                look.once()

    def _answer(self, look: Optional[Look] = None) -> Answer:
        rest = self._rest
        while (end := rest.find(b"\n")) < 0:
            some = self._received(look)
            if not some:
                raise Lost("the service closed the connection")
            rest += some
        line = rest[:end].decode()
        del rest[: end + 1]
        answer, ends_at = _read_json(line)
        if ends_at < len(line) or not isinstance(answer, dict):
            raise ValueError(line)
        return answer


def _set(future: asyncio.Future[None]) -> None:
    if not future.done():
        future.set_result(None)


def raise_lost(error: BaseException) -> None:
    """Raises `Lost` for what broke an exchange off, unless it is one or an interrupt, which is to pass through."""
    if isinstance(error, OSError):
        raise Lost(f"the connection failed: {error or type(error).__name__}", isinstance(error, _SLOW)) from error
    if isinstance(error, ValueError):
        raise Lost("what answers there is no service of bulkhead") from error
