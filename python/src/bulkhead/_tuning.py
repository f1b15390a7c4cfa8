"""Properties that change while a group runs: the lines that ask for it, and what Python keeps of the values in force."""

from __future__ import annotations

import json
from collections.abc import Mapping
from math import inf
from typing import TYPE_CHECKING, Any, NamedTuple, Optional, Union

from . import settings as of_settings
from ._runs import LIVE
from .errors import Error, NoSuchCommand, NoSuchGroup, Refused, Worn

if TYPE_CHECKING:
    from ._core import Core
    from ._groups import Group, Place

# a property of the pool, or of a command, has a number or a truth value
Value = Union[int, bool]
_OF_GROUPS = ("coreSize", "queueSizeRejectionThreshold")
_ANY = (0, (1 << 32) - 1)
# what may change while a group runs, with the least and the greatest number, or None where it is a truth value
TUNABLE: Mapping[str, Optional[tuple[int, int]]] = {
    "execution.isolation.thread.timeoutInMilliseconds": _ANY,
    "execution.timeout.enabled": None,
    "execution.isolation.semaphore.maxConcurrentRequests": _ANY,
    "fallback.isolation.semaphore.maxConcurrentRequests": _ANY,
    "fallback.enabled": None,
    "circuitBreaker.enabled": None,
    "circuitBreaker.requestVolumeThreshold": _ANY,
    "circuitBreaker.sleepWindowInMilliseconds": _ANY,
    "circuitBreaker.errorThresholdPercentage": _ANY,
    "circuitBreaker.forceOpen": None,
    "circuitBreaker.forceClosed": None,
    "metrics.healthSnapshot.intervalInMilliseconds": _ANY,
    "requestCache.enabled": None,
    "coreSize": (1, 64),
    "queueSizeRejectionThreshold": _ANY,
}


class Change(NamedTuple):
    """A property of a command that gets a value."""

    place: Place
    name: str
    value: Value

    def line(self, moment: Optional[int]) -> bytes:
        """The line that asks for it, at a moment where the service has no clock of its own."""
        return line_of("tune", self.place, moment, property=self.name, value=self.value)

    def number(self) -> int:
        """The number of the command whose settings it changes: those of the pool are the group's own."""
        return 0 if self.name in _OF_GROUPS else self.place.number


def line_of(op: str, place: Place, moment: Optional[int], **members: Any) -> bytes:
    """A line about a command, without its line feed."""
    said: dict[str, Any] = {"op": op, "group": place.group.name}
    if moment is not None:
        said["now"] = moment
    if place.number:
        said["command"] = place.settings.name
    return json.dumps(said | members, separators=(",", ":")).encode()


def place_of(group: Group, command: Optional[str]) -> Place:
    """A command of a group by its name, or its own one. Raises `NoSuchCommand`."""
    if command is None or command == group.name:
        return group.places[0]
    for place in group.places[1:]:
        if place.settings.name == command:
            return place
    raise NoSuchCommand(f"{group.name} has no command {command!r}")


def changes_of(place: Place, named: Optional[Mapping[str, Value]], keywords: Mapping[str, Value]) -> list[Change]:
    """The changes that are asked for. In a keyword an underscore stands for each dot of a name. Raises `Refused`."""
    asked = {**(named or {}), **{name.replace("_", "."): value for name, value in keywords.items()}}
    if not asked:
        raise Refused(f"{place.spelled}: no property is named that is to change")
    for name, value in asked.items():
        if not isinstance(name, str) or type(value) not in (int, bool):
            raise Refused(f"{place.spelled}: a property has a name and a number or a truth value, and not {name!r}: {value!r}")
    return [Change(place, name, value) for name, value in asked.items()]


def raise_unless_told(place: Place, answer: Mapping[str, Any], word: str, change: Optional[Change] = None) -> None:
    """Raises what an answer comes to that is not the one that was asked for."""
    if answer.get("reply") == word:
        return
    spelled, why = place.spelled, answer.get("error", answer.get("reply"))
    if why == "worn":
        raise Worn(f"{place.group.name}: the group has made all of its steps")
    if why == "group":
        raise NoSuchGroup(f"{place.group.name}: no group that is there has the name")
    if why == "command":
        raise NoSuchCommand(f"{spelled}: the group has no such command")
    if change is None or why not in _WHYS:
        raise Error(f"{spelled}: the service answered {answer}")
    refused = Refused(f"{spelled}: {change.name} = {json.dumps(change.value)} is not taken, as {_WHYS[why]}")
    if why in _OF_VALUES:
        refused.value, refused.range = change.value, TUNABLE.get(change.name)
    raise refused


_WHYS = {
    "property": "no property of the name may change while a group runs",
    "field": "the property has a value of the other type",
    "range": "it is out of the property's range",
    "out-of-range": "it is out of the property's range",
    "tune": "the service lets no connection over its port change properties (bulkhead share --tunable)",
}
# those that are about the value
_OF_VALUES = ("field", "range", "out-of-range")


class InForce(NamedTuple):
    """What Python keeps of a group once a property has changed."""

    settings: of_settings.GroupSettings
    limit: float


def in_force(change: Change) -> InForce:
    """What is in force behind a change."""
    settings = of_settings.changed(change.place.group.settings, change.number(), change.name, change.value)
    limit = settings.commands[change.place.number].timeout_ms
    return InForce(settings, inf if limit is None else limit)


def take_over(change: Change, after: InForce) -> None:
    """Has Python's part go by what is in force. May be called again."""
    place, group = change.place, change.place.group
    for run in [*group.runs.values()]:
        if run.place is place and run.state == LIVE:
            run.due = (run.started if run.submitted is None else run.submitted) + after.limit
    # from here on nothing is called
    group.settings, group.core_size = after.settings, after.settings.core_size
    place.settings, place.limit = after.settings.commands[place.number], after.limit
    group.tunes[place.number, change.name] = change.value


class Growth:
    """The work behind a change: workers are there for what waits, where the pool has room for more than before."""

    def __init__(self, group: Group) -> None:
        self._group = group

    def go_on(self, turns: Core) -> None:
        """Wakes workers, and starts what is missing of them."""
        group = self._group
        if not group.over:
            for worker in group.idle[: group.queued]:
                turns.say(worker)
            for _ in range(min(group.queued, group.core_size - group.threads)):
                turns.hire(group)
            if turns.alarm is not None:
                turns.say(turns.alarm)  # what is due may be due earlier
        turns.work_done()
