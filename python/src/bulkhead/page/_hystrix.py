"""The events of Hystrix's stream: one for each command, and one for each thread pool.

docs/PAGE.md tells which of their fields cannot be filled, and are 0.
"""

from __future__ import annotations

import json
from collections.abc import Iterator
from typing import Any

from ._history import CommandPast
from ._state import properties
from ._watch import GroupPast, Watch

_ROLLING = {
    "BadRequests": "BAD_REQUEST",
    "CollapsedRequests": "",
    "Emit": "",
    "ExceptionsThrown": "EXCEPTION_THROWN",
    "Failure": "FAILURE",
    "FallbackEmit": "",
    "FallbackFailure": "FALLBACK_FAILURE",
    "FallbackMissing": "FALLBACK_MISSING",
    "FallbackRejection": "FALLBACK_REJECTION",
    "FallbackSuccess": "FALLBACK_SUCCESS",
    "ResponsesFromCache": "RESPONSE_FROM_CACHE",
    "SemaphoreRejected": "SEMAPHORE_REJECTED",
    "ShortCircuited": "SHORT_CIRCUITED",
    "Success": "SUCCESS",
    "ThreadPoolRejected": "THREAD_POOL_REJECTED",
    "Timeout": "TIMEOUT",
}
_PERCENTILES = ("0", "25", "50", "75", "90", "95", "99", "99.5", "100")
_NO_LATENCY = dict.fromkeys(_PERCENTILES, 0)
# whoever reads it as a stream is to ask again after so many milliseconds
_RETRY = b"retry: 1000\n\n"


def stream(watch: Watch) -> bytes:
    """One round of events, which is made once for each look. It ends, and has its reader ask again after a second."""
    with watch.lock:
        kept, bodies = watch.bodies.get("stream"), watch.bodies
        if kept is not None:
            return kept
        moment = watch.started + watch.now
        events = [event for group in watch.groups for event in _events(group, moment)]
    body = bodies["stream"] = _RETRY + b"".join(map(_packed, events))
    return body


def _packed(event: dict[str, Any]) -> bytes:
    return b"data: " + json.dumps(event, separators=(",", ":")).encode() + b"\n\n"


def _events(group: GroupPast, moment: int) -> Iterator[dict[str, Any]]:
    for command in group.commands:
        yield _of_command(group, command, moment)
    pooled = [command for command in group.commands if command.look.settings.is_pooled]
    if pooled:
        yield _of_pool(group, pooled, moment)


def _of_command(group: GroupPast, command: CommandPast, moment: int) -> dict[str, Any]:
    look, health, latency = command.look, command.health(), command.latency(_PERCENTILES)
    return {
        "type": "HystrixCommand",
        "name": look.name,
        "group": group.look.name,
        "threadPool": group.look.name,
        "currentTime": moment,
        "isCircuitBreakerOpen": look.state != "closed",
        "errorPercentage": health.percent,
        "errorCount": health.errors,
        "requestCount": health.total,
        **{f"rollingCount{name}": command.rolling(kind) for name, kind in _ROLLING.items()},
        "currentConcurrentExecutionCount": look.busy,
        "rollingMaxConcurrentExecutionCount": max(look.busy, command.most_busy()),
        "latencyExecute_mean": latency.mean,
        "latencyExecute": latency.percentiles,
        "latencyTotal_mean": 0,
        "latencyTotal": _NO_LATENCY,
        **_properties(command),
        "reportingHosts": 1,
    }


def _properties(command: CommandPast) -> dict[str, Any]:
    settings = command.look.settings
    told = properties(settings)
    return {
        "propertyValue_circuitBreakerRequestVolumeThreshold": told["volume"],
        "propertyValue_circuitBreakerSleepWindowInMilliseconds": told["sleep_ms"],
        "propertyValue_circuitBreakerErrorThresholdPercentage": told["percent"],
        "propertyValue_circuitBreakerForceOpen": told["force_open"],
        "propertyValue_circuitBreakerForceClosed": told["force_closed"],
        "propertyValue_circuitBreakerEnabled": told["circuit_on"],
        "propertyValue_executionIsolationStrategy": told["strategy"],
        "propertyValue_executionIsolationThreadTimeoutInMilliseconds": told["timeout_ms"],
        "propertyValue_executionTimeoutInMilliseconds": told["timeout_ms"],
        "propertyValue_executionIsolationThreadInterruptOnTimeout": False,
        "propertyValue_executionIsolationThreadPoolKeyOverride": None,
        "propertyValue_executionIsolationSemaphoreMaxConcurrentRequests": told["semaphore"],
        "propertyValue_fallbackIsolationSemaphoreMaxConcurrentRequests": told["fallback_permits"],
        "propertyValue_metricsRollingStatisticalWindowInMilliseconds": told["window_ms"],
        "propertyValue_requestCacheEnabled": settings.is_cached,
        "propertyValue_requestLogEnabled": False,
    }


def _of_pool(group: GroupPast, pooled: list[CommandPast], moment: int) -> dict[str, Any]:
    core, looks = group.look.settings.core_size, [command.look for command in pooled]
    busy, queued = sum(look.busy for look in looks), sum(look.queued for look in looks)
    done = sum(sum(look.counted.buckets()) for look in looks)
    window = properties(looks[0].settings)["window_ms"]
    return {
        "type": "HystrixThreadPool",
        "name": group.look.name,
        "currentTime": moment,
        "currentActiveCount": busy,
        "currentCompletedTaskCount": done,
        "currentCorePoolSize": core,
        "currentLargestPoolSize": core,
        "currentMaximumPoolSize": core,
        "currentPoolSize": core,
        "currentQueueSize": queued,
        "currentTaskCount": done + busy + queued,
        "rollingCountThreadsExecuted": sum(c.rolling(kind) for c in pooled for kind in ("SUCCESS", "FAILURE", "TIMEOUT")),
        "rollingMaxActiveThreads": max(busy, *(command.most_busy() for command in pooled)),
        "rollingCountCommandRejections": sum(command.rolling("THREAD_POOL_REJECTED") for command in pooled),
        "propertyValue_queueSizeRejectionThreshold": group.look.settings.queue_size,
        "propertyValue_metricsRollingStatisticalWindowInMilliseconds": window,
        "reportingHosts": 1,
    }
