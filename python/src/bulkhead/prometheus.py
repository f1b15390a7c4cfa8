"""The metrics of all commands in Prometheus's text format. Each kind of event is in one series, so that families add up."""

from __future__ import annotations

from collections.abc import Callable, Iterable, Iterator, Mapping
from itertools import accumulate
from typing import Any, NamedTuple, Optional, Union

from . import _words as words
from ._groups import Place
from ._looks import HELD_OPEN, GroupLook
from .metrics import RUN_BOUNDS, Counted, Health
from .settings import CommandSettings, GroupSettings

Number = Union[int, float]
# a sample: what follows on the family's name, its labels as they are spelled, and its value
Sample = tuple[str, str, Number]

_STATES = (*words.CIRCUITS, HELD_OPEN)
_BOUNDS = (*(f"{bound / 1000:.10g}" for bound in RUN_BOUNDS), "+Inf")
# the counters of events: name, label, and the kinds by what the label says
_EVENTS: tuple[tuple[str, str, str, dict[str, str]], ...] = (
    (
        "bulkhead_runs_total",
        "Runs since the start, by how they ended.",
        "end",
        {"success": "success", "failure": "failure", "bad-request": "bad_request", "timeout": "timeout"},
    ),
    (
        "bulkhead_rejections_total",
        "Calls that got no run since the start, by why.",
        "reason",
        {
            "short-circuited": "short_circuited",
            "thread-pool-rejected": "thread_pool_rejected",
            "semaphore-rejected": "semaphore_rejected",
        },
    ),
    (
        "bulkhead_fallbacks_total",
        "Fallbacks since the start, by how they ended.",
        "end",
        {word: f"fallback_{word}" for word in ("success", "failure", "missing", "rejection")},
    ),
    ("bulkhead_errors_total", "Errors that callers got since the start.", "", {"": "exception_thrown"}),
    ("bulkhead_joined_total", "Calls since the start that shared a cached answer.", "", {"": "response_from_cache"}),
)


class Told(NamedTuple):
    """What is told of a command at a moment."""

    circuit: str
    busy: int
    queued: int
    health: Health


class CommandSample(NamedTuple):
    """A command: what is told of it, where somebody tells it, and what was counted of it since the start."""

    labels: str
    settings: CommandSettings
    counted: Counted
    # how often its circuit breaker opened, where that is known
    opened: Optional[int] = None
    told: Optional[Told] = None


class GroupSample(NamedTuple):
    """A group with its commands."""

    labels: str
    settings: GroupSettings
    commands: list[CommandSample]
    full: int = 0
    free: Optional[int] = None


def of_look(group: GroupLook, healths: Mapping[Any, Health]) -> GroupSample:
    """A group at a look, with the healths of commands that are known, by what is the same in each look at a command."""
    commands = []
    for command in group.commands:
        health = healths.get(command.of)
        told = None if health is None else Told(command.state, command.busy, command.queued, health)
        labels = labelled(group=group.name, command=command.name)
        commands.append(CommandSample(labels, command.settings, command.counted, command.circuit.trips, told))
    return GroupSample(labelled(group=group.name), group.settings, commands, group.full, group.free)


def of_place(place: Place, name: str, told: Optional[Told]) -> CommandSample:
    """A command of a client, which counts what this process did."""
    labels = labelled(group=place.group.name, command=name)
    return CommandSample(labels, place.settings, place.counters.counted(), None, told)


def labelled(**labels: str) -> str:
    """Labels as they are spelled."""
    return ",".join(f'{name}="{_quoted(value)}"' for name, value in labels.items())


def _quoted(text: str) -> str:
    return text.replace("\\", "\\\\").replace('"', '\\"').replace("\n", "\\n")


def text(groups: Iterable[GroupSample]) -> str:
    """The text: what was counted since the start as counters, and what is told of this moment as gauges."""
    every = [*groups]
    commands = [command for group in every for command in group.commands]
    return "".join((*_counters(every, commands), *_gauges(commands), *_limits(every, commands)))


def alone(name: str, kind: str, about: str, value: Number) -> str:
    """A family with one sample, which has no labels."""
    return _family(name, kind, about, [("", "", value)])


def unreachable(counts: Iterable[tuple[Place, int]]) -> str:
    """The text behind that of a client: how many calls found the service unreachable."""
    return _family(
        "bulkhead_unreachable_total",
        "counter",
        "Calls since the start that found the service unreachable.",
        (("", labelled(group=place.group.name, command=place.settings.name), number) for place, number in counts),
    )


def dropped_transitions(number: int) -> str:
    """The text behind that of a service with `on_transition`: how many changes it was not told."""
    about = "Changes of circuit breakers since the start of which on_transition was not told."
    return alone("bulkhead_dropped_transitions_total", "counter", about, number)


def dropped_events(number: int) -> str:
    """The text behind that of a service with `on_event`: how many events it was not told."""
    about = "Events since the start of which a listener was not told."
    return alone("bulkhead_dropped_events_total", "counter", about, number)


def _family(name: str, kind: str, about: str, samples: Iterable[Sample]) -> str:
    told = [f"{name}{suffix}{{{labels}}} {value}\n" if labels else f"{name}{suffix} {value}\n" for suffix, labels, value in samples]
    return "".join((f"# HELP {name} {about}\n# TYPE {name} {kind}\n", *told)) if told else ""


def _counters(groups: list[GroupSample], commands: list[CommandSample]) -> Iterator[str]:
    counted = [(command.labels, command.counted.totals()) for command in commands]
    for name, about, label, kinds in _EVENTS:
        numbers = [(f',{label}="{word}"' if label else "", words.EVENTS.index(kind)) for word, kind in kinds.items()]
        samples = (("", labels + more, totals[number]) for labels, totals in counted for more, number in numbers)
        yield _family(name, "counter", about, samples)
    yield _family(
        "bulkhead_circuit_opened_total",
        "counter",
        "How often the circuit breaker opened since the start.",
        (("", command.labels, command.opened) for command in commands if command.opened is not None),
    )
    yield _family(
        "bulkhead_group_full_total",
        "counter",
        "Calls since the start that found no free slot.",
        (("", group.labels, group.full) for group in groups),
    )
    yield _family(
        "bulkhead_run_duration_seconds",
        "histogram",
        "How long runs took.",
        (sample for command in commands for sample in _histogram(command)),
    )


def _histogram(command: CommandSample) -> Iterator[Sample]:
    labels, counts = command.labels, [*accumulate(command.counted.buckets())]
    for bound, number in zip(_BOUNDS, counts):
        yield "_bucket", f'{labels},le="{bound}"', number
    yield "_sum", labels, command.counted.run_ms / 1000
    yield "_count", labels, counts[-1]


def _gauges(commands: list[CommandSample]) -> Iterator[str]:
    told = [(command.labels, command.told) for command in commands if command.told is not None]
    yield _family(
        "bulkhead_circuit_state",
        "gauge",
        "Whether the circuit breaker of the command is in the state.",
        (("", f'{labels},state="{state}"', int(at.circuit == state)) for labels, at in told for state in _STATES),
    )
    samples: tuple[tuple[str, str, Callable[[Told], Number]], ...] = (
        ("health_error_ratio", "Errors of all runs of the rolling window.", lambda at: at.health.percent / 100),
        ("health_runs", "Runs of the rolling window that health goes by.", lambda at: at.health.total),
        ("busy_runs", "Runs that a worker or a permit is at.", lambda at: at.busy),
        ("queued_calls", "Calls that wait for a worker.", lambda at: at.queued),
    )
    for name, about, value in samples:
        yield _family(f"bulkhead_{name}", "gauge", about, (("", labels, value(at)) for labels, at in told))


def _limits(groups: list[GroupSample], commands: list[CommandSample]) -> Iterator[str]:
    yield _family(
        "bulkhead_permits",
        "gauge",
        "Runs that may be at one time, of a command under SEMAPHORE.",
        (
            ("", command.labels, command.settings.permits)
            for command in commands
            if command.settings.permits is not None and not command.settings.is_pooled
        ),
    )
    known = [(group.labels, group) for group in groups if group.settings.slots is not None]
    pools = [(labels, group.settings) for labels, group in known if any(one.settings.is_pooled for one in group.commands)]
    families: tuple[tuple[str, str, list[tuple[str, Optional[int]]]], ...] = (
        ("pool_workers", "Workers of the group.", [(labels, pool.core_size) for labels, pool in pools]),
        ("pool_queue_limit", "Calls of the group that may wait for a worker.", [(at, pool.queue_size) for at, pool in pools]),
        ("slots", "Slots of the group.", [(labels, group.settings.slots) for labels, group in known]),
        ("free_slots", "Slots of the group for further calls.", [(group.labels, group.free) for group in groups]),
    )
    for name, about, samples in families:
        there = (("", labels, number) for labels, number in samples if number is not None)
        yield _family(f"bulkhead_{name}", "gauge", about, there)
