"""Settings: the bytes of a file, and what is in force by them."""

from __future__ import annotations

import os
from collections.abc import Iterable, Mapping
from dataclasses import dataclass, field
from pathlib import Path
from typing import Optional, Union

from .errors import Error, Refused

FILE_LIMIT = 4 << 20
# the property whose line is the first of each group: those of its further commands stand behind the group's own ones
_FIRST = "service.auditSteps"


@dataclass(frozen=True)
class CommandSettings:
    """What is in force for a command, of the properties that decide how it is called."""

    name: str
    is_pooled: bool
    timeout_ms: Optional[int]
    is_cached: bool
    circuit_moves: bool
    # None where they are not known
    permits: Optional[int] = None
    fallback_permits: Optional[int] = None
    falls_back: bool = True
    # each property in force, as it is told
    said: Mapping[str, str] = field(default_factory=dict, repr=False, compare=False)

    @property
    def is_held_open(self) -> bool:
        """Whether its circuit breaker is held open by a property, whatever state it has."""
        return self.said.get("circuitBreaker.enabled") == "true" and self.said.get("circuitBreaker.forceOpen") == "true"


@dataclass(frozen=True)
class GroupSettings:
    """What is in force for a group: the size of its pool, its commands by their numbers, its queue, and its slots if known."""

    name: str
    core_size: int
    commands: tuple[CommandSettings, ...]
    queue_size: int = 0
    slots: Optional[int] = None


def read(settings: Union[str, os.PathLike[str], None], text: Union[str, bytes, None]) -> bytes:
    """The bytes of the settings, which are given either by a path or as a text."""
    if (settings is None) == (text is None):
        raise Error("settings are given either by a path or as text=")
    if isinstance(text, str):
        return text.encode(errors="surrogatepass")
    if isinstance(text, (bytes, bytearray)):
        return bytes(text)
    if settings is None or not isinstance(settings, (str, os.PathLike)):
        raise Error("settings are a path, or a str or bytes as text=")
    with Path(settings).open("rb") as file:
        read_bytes = file.read(FILE_LIMIT + 1)
    if len(read_bytes) > FILE_LIMIT:
        raise Refused(f"the settings file is of more than {FILE_LIMIT} bytes")
    return read_bytes


def in_force(check: bytes) -> list[GroupSettings]:
    """The groups in their order, by the text that tells what is in force."""
    groups: list[dict[str, dict[str, str]]] = []
    for line in check.decode().splitlines():
        name, path, value = line.split(" ", 2)
        if path == _FIRST:
            groups.append({})
        groups[-1].setdefault(name, {})[path] = value
    return [_group(commands) for commands in groups]


def changed(settings: GroupSettings, number: int, name: str, value: Union[int, bool]) -> GroupSettings:
    """The settings of a group once a property of a command, by its number, has another value."""
    commands = {command.name: dict(command.said) for command in settings.commands}
    if not all(commands.values()):  # a client that was not given the settings
        return settings
    commands[settings.commands[number].name][name] = str(value).lower()
    return _group(commands)


def _group(commands: dict[str, dict[str, str]]) -> GroupSettings:
    name, own = next(iter(commands.items()))
    most, threshold = int(own["maxQueueSize"]), int(own["queueSizeRejectionThreshold"])
    return GroupSettings(
        name,
        int(own["coreSize"]),
        tuple(_commands(commands.items())),
        queue_size=min(max(most, 0), threshold),
        slots=int(own["service.slots"]),
    )


def _commands(named: Iterable[tuple[str, dict[str, str]]]) -> Iterable[CommandSettings]:
    for name, said in named:
        is_timed = said["execution.timeout.enabled"] == "true"
        forced = "true" in (said["circuitBreaker.forceOpen"], said["circuitBreaker.forceClosed"])
        yield CommandSettings(
            name,
            is_pooled=said["execution.isolation.strategy"] == "THREAD",
            timeout_ms=int(said["execution.isolation.thread.timeoutInMilliseconds"]) if is_timed else None,
            is_cached=said["requestCache.enabled"] == "true",
            circuit_moves=said["circuitBreaker.enabled"] == "true" and not forced,
            permits=int(said["execution.isolation.semaphore.maxConcurrentRequests"]),
            fallback_permits=int(said["fallback.isolation.semaphore.maxConcurrentRequests"]),
            falls_back=said["fallback.enabled"] == "true",
            said=said,
        )
