"""Listeners of events: for the standard `logging`, for `prometheus_client`, and for a tracer's spans."""

from __future__ import annotations

import logging
from collections.abc import Callable
from typing import Any, Protocol

from prometheus_client import REGISTRY, CollectorRegistry, Histogram

import bulkhead

# events that say that something is amiss, and how loud
LEVELS = {
    "failure": logging.WARNING,
    "timeout": logging.WARNING,
    "short_circuited": logging.INFO,
    "thread_pool_rejected": logging.WARNING,
    "semaphore_rejected": logging.WARNING,
    "fallback_failure": logging.ERROR,
    "fallback_rejection": logging.ERROR,
}


def log_events(service: bulkhead.CommandService, logger: logging.Logger) -> None:
    """Logs what is amiss, with the exception where there was one."""

    def note(event: bulkhead.Event) -> None:
        logger.log(LEVELS[event.kind], "%s: %s", event.command, event.kind, exc_info=event.error)

    service.on_event(note, kinds=LEVELS)


def measure_runs(service: bulkhead.CommandService, registry: CollectorRegistry = REGISTRY) -> None:
    """Keeps a histogram of how long runs took, by command and by how they ended."""
    took = Histogram(
        "dependency_run_seconds", "How long runs took.", ("command", "end"), registry=registry,
        buckets=(0.001, 0.005, 0.01, 0.05, 0.1, 0.5, 1, 5),
    )

    def note(event: bulkhead.Event) -> None:
        if event.took is not None:
            took.labels(event.command, event.kind).observe(event.took / 1000)

    service.on_event(note, kinds=["success", "failure", "bad_request", "timeout"])


class Span(Protocol):
    """What any tracer's span has."""

    def set_attribute(self, name: str, value: Any) -> Any: ...


def trace_events(service: bulkhead.CommandService, begin: Callable[[str], Span], end: Callable[[Span], Any]) -> None:
    """Makes a span of each run that ended. A listener has a thread of its own, so the span is none of its caller's."""

    def note(event: bulkhead.Event) -> None:
        span = begin(f"run {event.command}")
        span.set_attribute("bulkhead.group", event.group)
        span.set_attribute("bulkhead.command", event.command)
        span.set_attribute("bulkhead.end", event.kind)
        span.set_attribute("bulkhead.took_ms", event.took if event.took is not None else 0)
        if event.error is not None:
            span.set_attribute("exception.type", type(event.error).__name__)
        end(span)

    service.on_event(note, kinds=["success", "failure", "bad_request", "timeout"])
