"""The watch of a service: one look a second, by a thread of its own, whoever reads."""

from __future__ import annotations

import os
import secrets
import threading
import time
from collections import deque
from typing import TYPE_CHECKING, Optional, Protocol
from weakref import WeakKeyDictionary

from .._looks import GroupLook, look_at
from .._unraisable import tell_unraisable
from ..metrics import Counters
from ._history import COLUMN_MS, KEPT, Columns, CommandPast

if TYPE_CHECKING:
    from .._core import Core
    from ..service import CommandService

# the last look may be so old, in milliseconds
FRESH_MS = 5000
_PAUSE = COLUMN_MS / 1000
_NOTHING = Counters().counted()


class Source(Protocol):
    """What is looked at: whether it is still there, a clock in whole milliseconds, and the groups at a moment."""

    @property
    def is_open(self) -> bool: ...
    def now(self) -> int: ...
    def look(self) -> list[GroupLook]: ...


class ServiceSource:
    """A service as it is looked at, which does not keep it from being dropped."""

    def __init__(self, turns: Core) -> None:
        self._turns = turns

    @property
    def is_open(self) -> bool:
        return self._turns.is_open

    def now(self) -> int:
        return self._turns.now()

    def look(self) -> list[GroupLook]:
        return look_at(self._turns)


class GroupPast:
    """A group at its last look, with the past of each of its commands, and how many calls found it full."""

    def __init__(self, look: GroupLook, column: int, is_first: bool) -> None:
        self.look, self.columns = look, Columns(column)
        self._full = look.full if is_first else 0
        self.commands = [CommandPast(one, column, one.counted if is_first else _NOTHING) for one in look.commands]

    @property
    def key(self) -> object:
        """What is the same in each look at the group."""
        return self.look.commands[0].of

    def take(self, look: GroupLook, column: int) -> None:
        """Keeps what came since the last look as a column that is over."""
        self.columns.put(column, {"full": look.full - self._full})
        self.look, self._full = look, look.full
        for past, one in zip(self.commands, look.commands):
            past.take(one, column)


class Watch:
    """The history of a service from its first look on. In a forked process it begins anew.

    `lock` is held by whoever reads what is below, and by a look that publishes: never within the service's own lock.
    """

    def __init__(self, source: Source, is_ticking: bool = True) -> None:
        self.source, self.lock = source, threading.Lock()
        # whether a thread makes the looks, as is so but in tests with a clock by hand
        self._is_ticking = is_ticking
        self._begin()

    def _begin(self) -> None:
        self._process, self.begun = os.getpid(), self.source.now()
        self.run, self.started = secrets.token_hex(8), time.time_ns() // 1_000_000
        # the moment of the last look, from the beginning on; the column that goes on; and how often settings changed
        self.now = self.next = self.tuned = 0
        # the columns that were over before somebody looked
        self.holes: deque[int] = deque(maxlen=KEPT)
        self.groups = [GroupPast(look, 0, True) for look in self.source.look()]
        # bodies that are the same until the next look
        self.bodies: dict[str, bytes] = {}
        if self._is_ticking:
            threading.Thread(target=self._work, args=(self._process,), name="bulkhead-looks", daemon=True).start()

    def keep_on(self) -> None:
        """In a forked process, begins anew."""
        if self._process == os.getpid():
            return
        self.lock = threading.Lock()  # that of the parent may be held for ever
        with self.lock:
            self._begin()

    def age(self) -> int:
        """How old the last look is, in milliseconds."""
        return self.source.now() - self.begun - self.now

    def look(self) -> None:
        """Looks at the service, where a column is over since the last look."""
        moment = self.source.now() - self.begun
        if moment // COLUMN_MS <= self.next or not self.source.is_open:
            return
        looks = self.source.look()
        with self.lock:
            self._publish(looks, moment)

    def _publish(self, looks: list[GroupLook], moment: int) -> None:
        over = moment // COLUMN_MS - 1
        self.holes.extend(range(max(self.next, over - KEPT), over))
        known = {group.key: group for group in self.groups}
        groups = []
        for look in looks:
            group = known.get(look.commands[0].of)
            if group is None:
                group = GroupPast(look, over, False)
            elif group.look.settings is not look.settings:
                self.tuned += 1
            group.take(look, over)
            groups.append(group)
        self.groups, self.next, self.now = groups, over + 1, moment
        self.bodies = {}

    def _work(self, process: int) -> None:
        while self.source.is_open and self._process == process:
            try:
                self.look()
            except Exception as error:
                tell_unraisable(error, self._work)
            time.sleep(_PAUSE - (self.source.now() - self.begun) % COLUMN_MS / 1000)


_watches: WeakKeyDictionary[CommandService, Watch] = WeakKeyDictionary()
_watches_lock = threading.RLock()


def watch_of(service: CommandService) -> Watch:
    """The one watch of a service, which begins where nobody asked for it before."""
    with _watches_lock:
        watch: Optional[Watch] = _watches.get(service)
        if watch is None:
            watch = _watches[service] = Watch(ServiceSource(service.turns), service.turns.has_timer)
    return watch
