"""How much a group may hold at once: where that passes its slots, and what is told of a call that found none free."""

from __future__ import annotations

from collections.abc import Iterable, Iterator
from typing import TYPE_CHECKING, Optional

from . import _words as words
from .errors import GroupFull, add_fallback_error

if TYPE_CHECKING:
    from ._groups import Place
    from .settings import CommandSettings, GroupSettings

# how many slots a group may have
MOST_SLOTS = 4096


def surprises(groups: Iterable[GroupSettings]) -> Iterator[str]:
    """What there is to warn of: each command whose runs, or whose pool and queue, are more than the slots of its group."""
    for group in groups:
        for command in group.commands:
            if group.slots is not None and _most(group, command) > group.slots:
                more = f"{command.name} has {_spelled(group, command)}, and {_whose(group, command)}{group.slots} slots"
                yield f"{more}: where all are taken a call is refused as GroupFull; {_remedy(group)}"


def _most(group: GroupSettings, command: CommandSettings) -> int:
    """How many calls of a command, or of all that share its pool, may be under way at once."""
    return group.core_size + group.queue_size if command.is_pooled else command.permits or 0


def _spelled(group: GroupSettings, command: CommandSettings) -> str:
    if command.is_pooled:
        return f"{group.core_size} workers and a queue of {group.queue_size}"
    return f"{command.permits} permits"


def _whose(group: GroupSettings, command: CommandSettings) -> str:
    return "" if command.name == group.name else f"its group {group.name} "


def _remedy(group: GroupSettings) -> str:
    """The slots that all commands of a group may take at once."""
    pooled = [command for command in group.commands if command.is_pooled][:1]
    wanted = sum(_most(group, command) for command in group.commands if not command.is_pooled or command in pooled)
    if wanted > MOST_SLOTS:
        return f"service.slots.{group.name} can be {MOST_SLOTS} at most, so the command wants fewer"
    return f"service.slots.{group.name} = {wanted} would do"


def full_error(place: Place, fallback: int = 0, raised: Optional[BaseException] = None) -> GroupFull:
    """A new error of a call that found no slot, by the number of what became of its fallback and by what that raised."""
    error = GroupFull(f"{place.spelled}: {_taken(place)}")
    error.fallback = words.FALLBACKS[fallback - 1] if fallback else None
    add_fallback_error(error, raised)
    return error


def _taken(place: Place) -> str:
    group, settings = place.group, place.group.settings
    if settings.slots is None:  # a client that was not given the settings
        return "no slot of the group is free"
    held = sum(run.is_cached and not run.holders for run in [*group.runs.values()])
    by_keys = f"; keys hold {held} of them until their request contexts end" if held else ""
    return f"none of the {settings.slots} slots of {group.name} is free, with {_spelled(settings, place.settings)}{by_keys}"
