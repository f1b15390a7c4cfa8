"""The connection that the calls of a process share, which outlives answers that come late."""

from __future__ import annotations

import socket
from collections import deque
from collections.abc import Iterable
from contextlib import suppress
from typing import Optional, Union

from ._connection import AT_ONCE, Answer, Connection, Lost, Passed, nothing_more, raise_lost
from ._upkeep import Upkeep
from .errors import Reentered

# how many answers in a row may be late before the service counts as gone
PATIENCE = 5


class _Late(Exception):
    """An answer that did not come in time."""


class SharedConnection(Connection):
    """A connection, on which a line that is not answered in time is the loss of its call alone.

    Its answer is passed over when it comes, and what it gives is given back. Where several in a row are late the connection is
    lost, and the service takes back what it had.
    """

    def __init__(self, address: Union[str, int], timeout: float) -> None:
        super().__init__(address, timeout)
        # what passes each answer over that is still to come, and the lines that are still to be sent
        self._late: deque[Passed] = deque()
        self._owed: deque[tuple[bytes, Passed]] = deque()
        self._in_a_row = 0
        self._upkeep = Upkeep("bulkhead-late-answers", self._settled)

    @property
    def is_late(self) -> bool:
        """Whether an answer is late."""
        return bool(self._late)

    def owe(self, lines: Iterable[bytes], passed: Passed = nothing_more) -> None:
        """Has lines sent as soon as that can be."""
        self._owed += [(line, passed) for line in lines]
        self._upkeep.begin()

    def ask(
        self,
        *lines: bytes,
        limit: Optional[float] = None,
        passed: Passed = nothing_more,
        is_owed: bool = False,
    ) -> list[Answer]:
        longest = self._timeout if limit is None else limit
        if not self._lock.acquire(timeout=longest):
            if is_owed:
                self.owe(lines, passed)
            raise Lost(f"the service answers another line, and did not within {longest:g} s", True, True)
        try:
            if self._is_busy:
                raise Reentered("the connection is in the midst of another line of this thread, as by a signal handler")
            return self._asked(lines, longest, passed, is_owed)
        finally:
            self._lock.release()

    def _asked(self, lines: tuple[bytes, ...], longest: float, passed: Passed, is_owed: bool) -> list[Answer]:
        sent, answers = 0, list[Answer]()
        try:
            self._is_busy = True
            self._set_limit(longest)
            if self._late or self._owed:
                self._catch_up()
            for line in range(0, len(lines), AT_ONCE):
                some = lines[line : line + AT_ONCE]
                self._send(some)
                sent += len(some)
                while len(answers) < sent:
                    answers.append(self._next())
            return answers
        except _Late as late:
            self._in_a_row += 1
            if self._in_a_row >= PATIENCE:
                self.close()
                raise Lost(f"{PATIENCE} answers in a row were late", True) from late
            self._late += [passed] * (sent - len(answers))
            self.owe(lines[sent:] if is_owed else (), passed)
            raise Lost(f"the service did not answer within {longest:g} s", True, True) from late
        except BaseException as error:
            self.close()
            raise_lost(error)
            raise
        finally:
            self._is_busy = False

    def _next(self) -> Answer:
        """The next answer. Raises `_Late`."""
        try:
            answer = self._answer()
        except socket.timeout as error:  # TimeoutError from Python 3.10 on
            raise _Late from error
        self._in_a_row = 0
        return answer

    def _catch_up(self) -> None:
        """Passes over what is late, and sends what is owed, each until there is nothing more."""
        while self._late or self._owed:
            while self._late:
                answer, passed = self._next(), self._late[0]
                self._owed += [(line, passed) for line in passed(answer)]
                self._late.popleft()
            for line, passed in [self._owed.popleft() for _ in range(min(len(self._owed), AT_ONCE))]:
                self._send((line,))
                self._late.append(passed)

    def _settled(self) -> Optional[float]:
        """Waits for what is late while nobody calls: nothing more where it came, or the connection is lost."""
        with suppress(Lost, Reentered):
            self.ask()
        return 0.0 if (self._late or self._owed) and not self.is_lost else None
