"""Bulkhead: calls of dependencies as commands of groups, each decision of which is a step of a proved core.

    import bulkhead

    service = bulkhead.open("settings.toml")

    @service.command("payment", fallback=lambda order, *, cause: "later")
    def charge(order):
        return gateway.charge(order)

    charge(order)                # its value, the fallback's, or an error that names the cause
    charge.queue(order)          # a concurrent.futures.Future
    await charge.run(order)      # asyncio

`python/README.md` is a tutorial. `bulkhead.connect` is the same for processes that share one service (`docs/SHARE.md`), and
`bulkhead.work` runs what such a service queues. `bulkhead.Service` is the service step by step, for those who keep their own
threads. `bulkhead.page` shows a service live (`docs/PAGE.md`).
"""

from __future__ import annotations

from importlib import import_module
from typing import Any

from ._client_commands import AsyncClientCommand, ClientCommand
from ._events import Event
from ._lint import Finding, lint
from ._reloading import Tuning
from .client import Client, connect
from .commands import AsyncCommand, Command
from .contexts import RequestContext
from .errors import (
    BadKey,
    BadLine,
    BadRequest,
    BadStep,
    BadText,
    CommandError,
    Error,
    Failed,
    FailedResult,
    GroupFull,
    Interrupted,
    NoMemory,
    NoSuchCommand,
    NoSuchGroup,
    NotOpen,
    NotTunable,
    PoolRejected,
    Reentered,
    Refused,
    SemaphoreRejected,
    SettingsWarning,
    ShortCircuited,
    Stopped,
    TimedOut,
    UnknownNameWarning,
    Unreachable,
    Worn,
)
from .metrics import Metrics, Totals
from .service import CommandService, open
from .steps import Reply, Service
from .workers import Worker, work

__version__ = "1.0.0"


def __getattr__(name: str) -> Any:
    """`bulkhead.page`, which a program that serves none does not load."""
    if name == "page":
        return import_module(".page", __name__)
    raise AttributeError(f"module {__name__!r} has no attribute {name!r}")


__all__ = [
    "AsyncClientCommand",
    "AsyncCommand",
    "BadKey",
    "BadLine",
    "BadRequest",
    "BadStep",
    "BadText",
    "Client",
    "ClientCommand",
    "Command",
    "CommandError",
    "CommandService",
    "Error",
    "Event",
    "Failed",
    "FailedResult",
    "Finding",
    "GroupFull",
    "Interrupted",
    "Metrics",
    "NoMemory",
    "NoSuchCommand",
    "NoSuchGroup",
    "NotOpen",
    "NotTunable",
    "PoolRejected",
    "Reentered",
    "Refused",
    "Reply",
    "RequestContext",
    "SemaphoreRejected",
    "Service",
    "SettingsWarning",
    "ShortCircuited",
    "Stopped",
    "TimedOut",
    "Totals",
    "Tuning",
    "UnknownNameWarning",
    "Unreachable",
    "Worker",
    "Worn",
    "__version__",
    "connect",
    "lint",
    "open",
    "work",
]
