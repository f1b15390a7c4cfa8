"""The settings of a file: which values are in force, and why a file is refused."""

from __future__ import annotations

import re
import tomllib
from dataclasses import dataclass
from typing import Any, Iterator, Optional

NAME = re.compile(r"[A-Za-z0-9_-]{1,32}", re.ASCII)

MOST_GROUPS = 1000
MOST_COMMANDS = 16

#: The steps that a group may do where no audit allows fewer.
MOST_STEPS = 1 << 40

U = range(1 << 32)
WORDS = ("THREAD", "SEMAPHORE")


@dataclass(frozen=True)
class Property:
    """A property: what its values are, and what holds where no value is given. `of` is the table that it stands in."""

    field: str
    of: str
    name: str
    built_in: Any
    values: Any

    def fault_of(self, value: Any) -> Optional[str]:
        """`wrong type` or `out of range`, where the value is not one of the property's."""
        kind = {bool: bool, tuple: str, range: int}[self.values if self.values is bool else type(self.values)]
        if not isinstance(value, kind) or (kind is int and isinstance(value, bool)):
            return "wrong type"
        if self.values is bool or value in self.values:
            return None
        return "out of range"


def _of_command(field: str, name: str, built_in: Any, values: Any) -> Property:
    return Property(field, "hystrix.command", name, built_in, values)


AUDIT_STEPS = Property("audit_steps", "service", "service.auditSteps", None, range(1, 1_000_001))
SLOTS = Property("slots", "service.slots", "service.slots", 64, range(1, 4097))

COMMAND_PROPERTIES = (
    _of_command("strategy", "execution.isolation.strategy", "THREAD", WORDS),
    _of_command("timeout_ms", "execution.isolation.thread.timeoutInMilliseconds", 1000, U),
    _of_command("timeout_on", "execution.timeout.enabled", True, bool),
    _of_command("semaphore", "execution.isolation.semaphore.maxConcurrentRequests", 10, U),
    _of_command("fallback_permits", "fallback.isolation.semaphore.maxConcurrentRequests", 10, U),
    _of_command("fallback_on", "fallback.enabled", True, bool),
    _of_command("circuit_on", "circuitBreaker.enabled", True, bool),
    _of_command("volume", "circuitBreaker.requestVolumeThreshold", 20, U),
    _of_command("sleep_ms", "circuitBreaker.sleepWindowInMilliseconds", 5000, U),
    _of_command("percent", "circuitBreaker.errorThresholdPercentage", 50, U),
    _of_command("force_open", "circuitBreaker.forceOpen", False, bool),
    _of_command("force_closed", "circuitBreaker.forceClosed", False, bool),
    _of_command("window_ms", "metrics.rollingStats.timeInMilliseconds", 10000, range(1, 3_600_001)),
    _of_command("buckets", "metrics.rollingStats.numBuckets", 10, range(1, 61)),
    _of_command("health_ms", "metrics.healthSnapshot.intervalInMilliseconds", 500, U),
    _of_command("cache_on", "requestCache.enabled", True, bool),
)

POOL_PROPERTIES = (
    Property("core", "hystrix.threadpool", "coreSize", 10, range(1, 65)),
    Property("max_queue", "hystrix.threadpool", "maxQueueSize", -1, range(-1, 1 << 32)),
    Property("queue_threshold", "hystrix.threadpool", "queueSizeRejectionThreshold", 5, U),
)

#: Those of a group with its own command, in the order in which they are told.
PROPERTIES = (AUDIT_STEPS, SLOTS, *COMMAND_PROPERTIES, *POOL_PROPERTIES)

Values = dict[str, Any]
Path = tuple[str, ...]


class Refused(Exception):
    """Why a file is refused: the number and the text behind it."""


@dataclass
class Subject:
    """A group with its own command, or a further command, and what is in force for it."""

    name: str
    properties: tuple[Property, ...]
    values: Values

    def lines(self) -> Iterator[str]:
        """What is shown of it, a property a line."""
        for each in self.properties:
            value = self.values[each.field]
            word = "none" if value is None else str(value).lower() if isinstance(value, bool) else str(value)
            yield f"{self.name} {each.name} {word}\n"


@dataclass
class GroupProps:
    """A group, and behind it its further commands by their numbers."""

    subjects: list[Subject]

    @property
    def pool(self) -> Values:
        """What is in force for the group."""
        return self.subjects[0].values

    @property
    def queue_room(self) -> int:
        """How many tickets may wait while all workers are taken."""
        most = 0 if self.pool["max_queue"] == -1 else self.pool["max_queue"]
        return int(min(most, self.pool["queue_threshold"]))


@dataclass
class Settings:
    """The groups of a file by name, in the order of its list, and the steps that each may do."""

    groups: dict[str, GroupProps]

    @property
    def step_limit(self) -> int:
        return int(next(iter(self.groups.values())).pool["audit_steps"] or MOST_STEPS)

    def further(self) -> set[str]:
        """The names of all further commands."""
        return {each.name for group in self.groups.values() for each in group.subjects[1:]}

    def shown(self) -> str:
        """What `bulkhead check` prints."""
        return "".join(line for group in self.groups.values() for each in group.subjects for line in each.lines())


def is_name(text: str) -> bool:
    """Whether a group may have the name."""
    return NAME.fullmatch(text) is not None and text != "default"


def read(text: str) -> Settings:
    """The settings of a text; `Refused` where it is refused."""
    tree = tree_of(text)
    names = names_of(tree)
    _check_service(tree, names)
    further = further_of(tree, names)
    groups = {name: group_of(tree, name, [each for each in further if further[each] == name]) for name in names}
    for word, number in (("wrong type", 6), ("out of range", 7)):
        _check_values(groups, word, number)
    _check_windows(groups)
    for group in groups.values():
        group.pool["max_queue"] = group.pool["max_queue"] or -1
    return Settings(groups)


def tree_of(text: str) -> Values:
    try:
        tree = tomllib.loads(text)
    except tomllib.TOMLDecodeError:
        raise Refused("1 syntax") from None
    if not _is_of_64_bits(tree):
        raise Refused("1 syntax")
    return tree


def _is_of_64_bits(value: Any) -> bool:
    if isinstance(value, dict):
        return all(map(_is_of_64_bits, value.values()))
    if isinstance(value, list):
        return all(map(_is_of_64_bits, value))
    return not isinstance(value, int) or -(1 << 63) <= value < 1 << 63


def path_of(wanted: Property, name: str) -> Path:
    """Where the property of the name stands."""
    if wanted is AUDIT_STEPS:
        return ("service", "auditSteps")
    if wanted is SLOTS:
        return ("service", "slots", name)
    return (*wanted.of.split("."), name, *wanted.name.split("."))


def at(tree: Any, path: Path) -> Any:
    """The value at a path; None where a part of it is missing or no table."""
    for part in path:
        if not isinstance(tree, dict) or part not in tree:
            return None
        tree = tree[part]
    return tree


def names_of(tree: Values) -> list[str]:
    names = at(tree, ("service", "groups"))
    if not isinstance(names, list) or not 1 <= len(names) <= MOST_GROUPS or not all(isinstance(x, str) for x in names):
        raise Refused("2 no groups")
    for place, name in enumerate(names, 1):
        if not is_name(name):
            raise Refused(f"3 bad name at {place}")
    for place, name in enumerate(names, 1):
        if name in names[: place - 1]:
            raise Refused(f"4 twice named at {place}")
    return names


def _check_service(tree: Values, names: list[str]) -> None:
    service = tree["service"]
    slots, command = service.get("slots", {}), service.get("command", {})
    known = {"groups", "auditSteps", "slots", "command"}
    if not known >= set(service) or not isinstance(slots, dict) or not isinstance(command, dict):
        raise Refused("5 unknown service property")
    if not {"default", *names} >= set(slots):
        raise Refused("5 unknown service property")


def further_of(tree: Values, names: list[str]) -> dict[str, str]:
    """From each further command to its group, by the bytes of their names."""
    commands = at(tree, ("service", "command"))
    commands = commands if isinstance(commands, dict) else {}
    found: dict[str, str] = {}
    for place, name in enumerate(sorted(commands, key=str.encode), 1):
        table = commands[name]
        is_right = is_name(name) and name not in names and isinstance(table, dict) and set(table) == {"group"}
        group = table["group"] if is_right else None
        if not isinstance(group, str) or group not in names:
            raise Refused(f"10 bad command at {place}")
        if list(found.values()).count(group) + 1 == MOST_COMMANDS:
            raise Refused(f"10 bad command at {place}")
        found[name] = group
    return found


def group_of(tree: Values, name: str, further: list[str]) -> GroupProps:
    subjects = [_subject(tree, name, PROPERTIES)]
    subjects += [_subject(tree, each, COMMAND_PROPERTIES) for each in further]
    return GroupProps(subjects)


def _subject(tree: Values, name: str, properties: tuple[Property, ...]) -> Subject:
    return Subject(name, properties, {each.field: _in_force(tree, name, each) for each in properties})


def _in_force(tree: Values, name: str, wanted: Property) -> Any:
    for key in (name, "default"):
        value = at(tree, path_of(wanted, key))
        if value is not None:
            return value
    return wanted.built_in


def _check_values(groups: dict[str, GroupProps], word: str, number: int) -> None:
    for group in groups.values():
        for subject in group.subjects:
            for each in subject.properties:
                value = subject.values[each.field]
                if value is not None and each.fault_of(value) == word:
                    raise Refused(f"{number} {word}: {subject.name} {each.name}")


def _check_windows(groups: dict[str, GroupProps]) -> None:
    for group in groups.values():
        for subject in group.subjects:
            if subject.values["window_ms"] % subject.values["buckets"]:
                raise Refused(f"8 not a multiple: {subject.name}")
