"""Request contexts: within one, calls with equal keys share one answer."""

from __future__ import annotations

from collections.abc import Generator
from contextvars import ContextVar
from functools import partial
from io import IOBase
from typing import TYPE_CHECKING, Any, Optional

from . import _library, _words as words
from ._turns import AGAIN
from .errors import BadKey, Error, Reentered

if TYPE_CHECKING:
    from ._core import Core
    from ._groups import Group
    from ._runs import Run


_pack_shared, _SHARED_AT = _library.STEP_SHARED.pack_into, _library.SHARED_AT


class RequestContext(IOBase):
    """A request context, from `with service.context():` until that block ends. It is entered once.

    An exception of a signal handler can come at the first instruction of a Python function, and nothing of that is run
    then. So `__exit__` is that of `IOBase`, which is none, and calls `close`, which is none either: a generator goes on
    by it, from within its `try`.
    """

    def __init__(self, turns: Core, current: ContextVar[Optional[RequestContext]], number: int) -> None:
        self._turns, self._current = turns, current
        self._names: dict[tuple[type, object], bytes] = {}
        self.number, self.is_open = number, True
        self.groups: dict[Group, None] = {}
        self.runs: list[Run] = []
        self._is_entered, self._block = False, self._within()

    def __enter__(self) -> RequestContext:
        if self._is_entered or self._block.gi_frame is None:
            raise Error("a request context is entered once")
        self._is_entered = True
        try:
            next(self._block)
            self.close = partial(next, self._block, None)  # type: ignore[assignment]
        except BaseException:
            self._block.close()
            raise
        return self

    def _within(self) -> Generator[None, None, None]:
        """Lasts as long as the block."""
        before, interrupt = self._current.get(), None
        try:
            self._current.set(self)
            yield
        finally:
            for _ in AGAIN:
                try:
                    if self._current.get() is self:
                        self._current.set(before)
                    if self.is_open:
                        self._turns.turn(self._close)
                    break
                except Reentered:  # as in a finalizer within a turn
                    self._turns.owed += (self,)
                    break
                except Exception:
                    self._turns.owed += (self,)
                    raise
                except BaseException as stopped:
                    interrupt = stopped
            if interrupt is not None:
                raise interrupt

    def name_of(self, key: tuple[type, object]) -> bytes:
        """What the core knows a key by. Called under the lock, with a key of `checked_key`."""
        return self._names.setdefault(key, str(len(self._names)).encode())

    def _close(self) -> None:
        turns = self._turns
        turns.todo += (self,)
        self.is_open = False

    def give_back(self, turns: Core) -> None:
        """Ends the context, where that was not possible before."""
        if self.is_open:
            self._close()

    def go_on(self, turns: Core) -> None:
        """Ends the context in the next of its groups."""
        group = next(iter(self.groups), None)
        if group is None:
            self.runs = []
            turns.work_done()
        elif group.over:
            self.forget(group)
            self.groups.pop(group, None)
        else:
            _pack_shared(turns.given, _SHARED_AT, self.number, 0, 0)
            turns.step(group, words.CLOSE_CONTEXT, 0, self._closed, group, None, None)

    def _closed(self, group: Group, *_: None) -> None:
        turns = self._turns
        if turns.reply[turns.kind_at] == words.WORN:
            turns.is_over(group, words.WORN)
        self.forget(group)
        self.groups.pop(group, None)
        turns.unit = None

    def forget(self, group: Group) -> None:
        """The answers of a group are cached no longer."""
        for run in self.runs:
            if run.group is group:
                run.is_cached = False
                if not run.holders:
                    group.runs.pop(run.ticket, None)


def checked_key(key: Any) -> Optional[tuple[type, object]]:
    """A key beside its type, so that no two keys of different types are equal."""
    if key is None:
        return None
    if type(key) not in (str, int):  # the == and hash of another one would be foreign code under the lock
        raise BadKey(f"a key is a str or an int, and not {type(key).__name__}")
    return type(key), key
