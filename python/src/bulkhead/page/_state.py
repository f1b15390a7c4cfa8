"""The bodies of what is read: the state for the page, and the text for Prometheus."""

from __future__ import annotations

import json
import os
import time
from functools import lru_cache
from typing import Any

from .. import prometheus
from ..settings import CommandSettings
from ._history import COLUMN_MS, CommandPast, first_of
from ._watch import GroupPast, Watch


def state_json(watch: Watch, since: int, service: str) -> bytes:
    """What the page polls: each command as it is, and its columns from a number on; from 0 on its settings too."""
    with watch.lock:
        first = first_of(since, watch.next)
        told = {
            "columns": {
                "first": first,
                "holes": [hole for hole in watch.holes if hole >= first],
                "ms": COLUMN_MS,
                "next": watch.next,
            },
            "format": 1,
            "groups": [_group(group, first, watch.begun, since == 0) for group in watch.groups],
            "now": watch.now,
            "run": watch.run,
            "service": service,
            "started": watch.started,
            "tuned": watch.tuned,
        }
    return json.dumps(told, separators=(",", ":"), sort_keys=True, ensure_ascii=False).encode(errors="replace")


def _group(group: GroupPast, first: int, begun: int, is_whole: bool) -> dict[str, Any]:
    settings = group.look.settings
    told: dict[str, Any] = {
        "columns": group.columns.since(first),
        "commands": [_command(command, first, begun, is_whole) for command in group.commands],
        "free": group.look.free,
        "name": group.look.name,
    }
    if group.columns.born > first:
        told["born"] = group.columns.born
    if is_whole:
        told["settings"] = {"core": settings.core_size, "queue": settings.queue_size, "slots": settings.slots}
    return told


def _command(command: CommandPast, first: int, begun: int, is_whole: bool) -> dict[str, Any]:
    look, health, circuit = command.look, command.health(), command.look.circuit
    told: dict[str, Any] = {
        "busy": look.busy,
        "circuit": look.state,
        "columns": {**command.columns.since(first), "circuit": command.columns.states_since(first)},
        "errors": health.errors,
        "name": look.name,
        "opened": None if circuit.opened is None else circuit.opened - begun,
        "percent": health.percent,
        "queued": look.queued,
        "since": 0 if circuit.since is None else circuit.since - begun,
        "total": health.total,
    }
    if is_whole:
        told["settings"] = properties(look.settings)
    return told


def properties(settings: CommandSettings) -> dict[str, Any]:
    """What is in force for a command, by short names."""
    said = settings.said
    return {
        "circuit_on": said["circuitBreaker.enabled"] == "true",
        "fallback_on": said["fallback.enabled"] == "true",
        "fallback_permits": int(said["fallback.isolation.semaphore.maxConcurrentRequests"]),
        "force_closed": said["circuitBreaker.forceClosed"] == "true",
        "force_open": said["circuitBreaker.forceOpen"] == "true",
        "percent": int(said["circuitBreaker.errorThresholdPercentage"]),
        "semaphore": int(said["execution.isolation.semaphore.maxConcurrentRequests"]),
        "sleep_ms": int(said["circuitBreaker.sleepWindowInMilliseconds"]),
        "strategy": said["execution.isolation.strategy"],
        "timeout_ms": int(said["execution.isolation.thread.timeoutInMilliseconds"]),
        "timeout_on": said["execution.timeout.enabled"] == "true",
        "volume": int(said["circuitBreaker.requestVolumeThreshold"]),
        "window_ms": int(said["metrics.rollingStats.timeInMilliseconds"]),
    }


def metrics_text(watch: Watch) -> bytes:
    """Prometheus's text format, which is made once for each look."""
    with watch.lock:
        kept = watch.bodies.get("metrics")
        if kept is not None:
            return kept
        bodies, looked = watch.bodies, (watch.started + watch.now) / 1000
        looks = [group.look for group in watch.groups]
        healths = {command.look.of: command.health() for group in watch.groups for command in group.commands}
    samples = [prometheus.of_look(look, healths) for look in looks]
    text = (
        prometheus.text(samples)
        + prometheus.alone("bulkhead_looked_timestamp_seconds", "gauge", "When these numbers were looked at.", looked)
        + prometheus.alone(
            "process_start_time_seconds",
            "gauge",
            "Start time of the process since unix epoch in seconds.",
            _process_started(os.getpid()),
        )
    )
    body = bodies["metrics"] = text.encode(errors="replace")
    return body


@lru_cache(maxsize=1)
def _process_started(process: int) -> float:
    """When this process started, in seconds since 1970; where the system does not tell it, when this was first asked."""
    now = time.time()
    try:
        with open(f"/proc/{process}/stat", "rb") as file:
            ticks = int(file.read().rpartition(b")")[2].split()[19])
        return round(now - time.clock_gettime(time.CLOCK_BOOTTIME) + ticks / os.sysconf("SC_CLK_TCK"), 2)
    except (AttributeError, IndexError, OSError, ValueError):
        return now
