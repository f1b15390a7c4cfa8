"""Looks: what is known of all commands at a moment, with no step made.

It is what the replies told. The lock is held for one group at a time, so a look at a group is of one moment, and the moments
of two groups may differ by the time that the copies take.
"""

from __future__ import annotations

from typing import TYPE_CHECKING, NamedTuple

from . import _words as words
from ._groups import Circuit, Group, Place
from ._runs import LIVE
from .metrics import Counted
from .settings import CommandSettings, GroupSettings

if TYPE_CHECKING:
    from ._core import Core

HELD_OPEN = "forced-open"


class CommandLook(NamedTuple):
    """A command at a moment. `of` is the same object in each look at the same command."""

    of: object
    name: str
    settings: CommandSettings
    circuit: Circuit
    counted: Counted
    busy: int = 0
    queued: int = 0

    @property
    def state(self) -> str:
        """The state of its circuit breaker, as it is told: one that is held open is told so, whatever state it has."""
        return HELD_OPEN if self.settings.is_held_open else words.CIRCUITS[self.circuit.state]


class GroupLook(NamedTuple):
    """A group at a moment, with its commands by their numbers."""

    name: str
    settings: GroupSettings
    free: int
    commands: tuple[CommandLook, ...]

    @property
    def full(self) -> int:
        """How many calls found no slot free since the start."""
        return sum(command.counted.full for command in self.commands)


def look_at(turns: Core) -> list[GroupLook]:
    """All groups that are there, each at one moment."""
    looks = []
    for group in [*turns.groups.values()]:
        with turns.lock:
            looks.append(_look_at(group))
    return looks


def _look_at(group: Group) -> GroupLook:
    busy, queued = [0] * len(group.places), [0] * len(group.places)
    for run in group.runs.values():
        if run.state == LIVE:
            (queued if run.is_queued else busy)[run.place.number] += 1
    commands = []
    for place, name in zip(group.places, group.command_names()):
        number = place.number
        at = busy[number] + len(place.late)
        commands.append(CommandLook(place, name, place.settings, place.circuit, place.counters.counted(), at, queued[number]))
    return GroupLook(group.name, group.settings, max(0, (group.settings.slots or 0) - _taken(group)), tuple(commands))


def _taken(group: Group) -> int:
    """How many slots are taken: by what somebody needs yet, and by runs that timed out and go on."""
    return len(group.runs) + sum(run.ticket not in group.runs for place in group.places for run in place.late)
