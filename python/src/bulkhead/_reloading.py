"""New settings for a service that is open: what differs from what is in force, and the steps that change it."""

from __future__ import annotations

import json
from collections.abc import Callable, Iterable, Iterator, Mapping, Sequence
from typing import TYPE_CHECKING, Any, NamedTuple, Optional

from . import _lines, _words as words
from ._tuning import TUNABLE, Change, Growth, Value, in_force, raise_unless_told, take_over
from .errors import Error, NotTunable
from .settings import CommandSettings, GroupSettings

if TYPE_CHECKING:
    from ._groups import Group, Place
    from ._turns import Turns

# so many properties are named in the text of an error
_MOST_NAMED = 20


class Tuning(NamedTuple):
    """A property that `reload` changed: of which group and command, and its value before and now."""

    group: str
    command: str
    property: str
    before: Value
    after: Value

    def __str__(self) -> str:
        of = self.group if self.command == self.group else f"{self.group} {self.command}"
        return f"{of} {self.property} {json.dumps(self.before)} -> {json.dumps(self.after)}"


def raise_unless_tunable(opened: Mapping[str, GroupSettings], wanted: Mapping[str, GroupSettings]) -> None:
    """Raises `NotTunable` where the settings that a service was opened with differ from others in what cannot change."""
    _raise_fixed([*_fixed(opened, wanted)])


def _raise_fixed(fixed: Sequence[str]) -> None:
    if fixed:
        more = f" and {len(fixed) - _MOST_NAMED} more" if len(fixed) > _MOST_NAMED else ""
        named = ", ".join(fixed[:_MOST_NAMED])
        error = NotTunable(f"nothing was changed, as this cannot change while the service is open: {named}{more}")
        error.properties = tuple(fixed)
        raise error


def _fixed(opened: Mapping[str, GroupSettings], wanted: Mapping[str, GroupSettings]) -> Iterator[str]:
    """What differs and cannot change, by the names of the groups and commands."""
    if opened.keys() != wanted.keys():
        yield "service.groups"
    for name, group in opened.items():
        if name in wanted:
            others = {command.name: command.said for command in wanted[name].commands}
            if [command.name for command in group.commands] != [*others]:
                yield f"{name} service.command"
            for command in group.commands:
                yield from _fixed_of(command.name, command.said, others.get(command.name, command.said))


def _fixed_of(name: str, said: Mapping[str, str], wanted: Mapping[str, str]) -> Iterator[str]:
    return (f"{name} {each}" for each, value in said.items() if each not in TUNABLE and value != wanted[each])


def changes_to(group: Group, wanted: GroupSettings) -> list[Change]:
    """The changes that bring a group to settings that differ in properties which may change, in the order of their names."""
    return [
        Change(place, name, _value_of(value))
        for place, command in zip(group.places, wanted.commands)
        for name, value in command.said.items()
        if name in TUNABLE and value != _said(place)[name]
    ]


def _said(place: Place) -> Mapping[str, str]:
    """The properties in force of a command."""
    return place.group.settings.commands[place.number].said


def _value_of(said: str) -> Value:
    """A value as it is told: a number or a truth value."""
    return said == "true" if said in ("true", "false") else int(said)


def tuning_of(change: Change) -> Tuning:
    """What a change is to do, before it is made."""
    place = change.place
    before = _value_of(_said(place)[change.name])
    command = place.group.name if not place.number else place.settings.name
    return Tuning(place.group.name, command, change.name, before, change.value)


def tunings_by_looks(
    wanted: Mapping[str, GroupSettings], names: Iterable[str], look: Callable[[list[bytes]], list[dict[str, Any]]]
) -> list[Tuning]:
    """What brings a service that processes share to settings, by a look at what is in force of each command.

    Raises `NotTunable` where something differs that cannot change, and an `Error` where the service does not tell it.
    """
    fixed = [] if {*names} == wanted.keys() else ["service.groups"]
    asked = [(group.name, command) for group in wanted.values() if not fixed for command in group.commands]
    changes: list[Tuning] = []
    answers = look([_lines.properties(of, None if command.name == of else command.name) for of, command in asked])
    for (of, command), answer in zip(asked, answers):
        if answer.get("error") == "command":
            fixed.append(f"{of} service.command")
        elif answer.get("reply") != "properties":
            raise Error(f"{of} {command.name}: the service does not tell what is in force, but {answer}")
        else:
            differing = [*_differing(of, command, answer["properties"])]
            fixed += [f"{command.name} {each.property}" for each in differing if each.property not in TUNABLE]
            changes += differing
    _raise_fixed([*dict.fromkeys(fixed)])
    return changes


def _differing(group: str, command: CommandSettings, told: Mapping[str, Any]) -> Iterator[Tuning]:
    for name, value in command.said.items():
        if name in told and _spelled(told[name]) != value:
            yield Tuning(group, command.name, name, told[name], _value_of(value) if name in TUNABLE else 0)


def _spelled(value: object) -> str:
    """A value as the settings in force are told."""
    return str(value).lower() if isinstance(value, bool) else str(value)


class Retuning:
    """The work of a turn: the changes that are left, one after another. A group that is over needs none."""

    def __init__(self, changes: Iterable[Change]) -> None:
        self._left = [*changes]
        # the first that was not answered as it should be
        self._failed: Optional[tuple[Change, dict[str, Any]]] = None

    def go_on(self, turns: Turns) -> None:
        """Makes the next change."""
        left = self._left
        while left and left[0].place.group.over:
            self._left = left = left[1:]
        if not left:
            turns.work_done()
            return
        change = left[0]
        moment = turns.moment_of(change.place.group)
        turns.act(change.line(moment), self._answered, turns, change, moment)

    def _answered(self, turns: Turns, change: Change, moment: int) -> None:
        answer: dict[str, Any] = json.loads(turns.answer())
        group, failed = change.place.group, self._failed
        work: tuple[Growth, ...] = ()
        left = [each for each in self._left if each is not change]
        if answer.get("reply") == "tuned":
            take_over(change, in_force(change))
            group.latest, work = moment, (Growth(group),)
        elif answer.get("reply") == "worn":
            turns.is_over(group, words.WORN)
        elif failed is None:
            failed = change, answer
        # from here on nothing is called
        turns.todo += work
        self._left, self._failed = left, failed
        turns.unit = None

    def raise_failed(self) -> None:
        """Raises an `Error` where a change was not taken, which settings that are in range do not come to."""
        if self._failed is not None:
            change, answer = self._failed
            raise_unless_told(change.place, answer, "tuned", change)
