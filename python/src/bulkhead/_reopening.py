"""A forked process: its service is opened anew by its first turn, as far as the parent's was built up."""

from __future__ import annotations

import json
from functools import partial
from math import inf
from typing import TYPE_CHECKING, NamedTuple, Optional, Protocol

from . import _library
from ._recording import Act
from ._runs import RETIRED
from ._timer import Timer
from ._tuning import Change
from ._unraisable import tell_unraisable
from .steps import Service as StepService

if TYPE_CHECKING:
    from ._core import Core
    from ._groups import Group
    from ._recording import Record


class _Startable(Protocol):
    """What has a thread. To start it twice is to start it once."""

    def start(self) -> None: ...


class _Threads:
    """Has threads started behind a turn."""

    def __init__(self, *threads: Optional[_Startable]) -> None:
        self._left = [thread for thread in threads if thread is not None]

    def tell(self, by_timer: bool) -> None:
        """Starts those that were not started yet."""
        while self._left:
            self._left[-1].start()
            del self._left[-1]


class _Opened(NamedTuple):
    """A service that was opened anew: what was registered and retired in it, and its groups by their numbers."""

    service: StepService
    acts: list[Act]
    groups: list[Group]


class Reopening:
    """What the first turn of a forked process owes. It is begun again where it was broken off."""

    def __init__(self, listed: int, has_timer: bool) -> None:
        self._listed, self._has_timer = listed, has_timer

    def give_back(self, turns: Core) -> None:
        """Opens the service anew, unless it is closed. Where that fails the service is `Stopped`."""
        if turns.is_closing:
            turns.stop_in_child()
            return
        try:
            opened = self._open(turns)
        except RecursionError:
            raise
        except Exception:
            turns.stop_in_child()
            raise
        record = _renewed(turns.record, opened.acts)
        alarm = Timer(turns) if self._has_timer else None
        threads = _Threads(record, alarm, turns.teller, *turns.events.listeners)
        given, told, words = opened.service.given, opened.service.told, opened.service.numbers
        ask, groups, has_acted = partial(_library.make_step, *opened.service.places), opened.groups, bool(opened.acts)
        and_note = turns.ask_and_note
        # from here on nothing is called
        turns.opened, turns.given, turns.reply, turns.numbers = opened.service, given, told, words
        turns.ask = turns.ask_library = ask
        turns.every_group, turns.has_acted = groups, has_acted
        turns.alarm, turns.record = alarm, record
        if alarm is not None:
            turns.alarm_at = inf
        if record is not None:
            turns.ask = and_note
        turns.told += (threads,)

    def _open(self, turns: Core) -> _Opened:
        service = StepService(turns.settings)
        listed, others = turns.every_group[: self._listed], turns.every_group[self._listed :]
        lines = [_line(op="retire", group=group.name) for group in listed if group.over == RETIRED]
        others = [group for group in others if group.over != RETIRED]
        lines += [_line(op="register", group=group.name, like=group.like) for group in others]
        for group in [*(group for group in listed if group.over != RETIRED), *others]:
            group.latest = turns.moment_of(group) if group.tunes else -1
            lines += [
                Change(group.places[number], name, value).line(group.latest) for (number, name), value in group.tunes.items()
            ]
        acts = [Act(line, service.line(line)) for line in lines]
        for group in others:
            group.number = service.group(group.name)
        return _Opened(service, acts, [*listed, *others])


def _line(**members: str) -> bytes:
    return json.dumps(members).encode()


def _renewed(record: Optional[Record], acts: list[Act]) -> Optional[Record]:
    """The record in a file of this process, or none where that cannot be written."""
    if record is None:
        return None
    try:
        record.renew(acts)
    except OSError as error:
        tell_unraisable(error, record)
        return None
    return record
