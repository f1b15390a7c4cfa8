"""The end of the interpreter, and forks: what becomes of the services that are open."""

from __future__ import annotations

import atexit
import os
import weakref
from contextlib import suppress
from typing import TYPE_CHECKING, Any

if TYPE_CHECKING:
    from ._core import Core
    from .service import CommandService

_services: weakref.WeakSet[CommandService] = weakref.WeakSet()
_held: list[Any] = []


def watch(service: CommandService) -> None:
    """Has a service closed at the interpreter's end or when it is dropped, and opened anew or stopped in a forked process."""
    _services.add(service)
    weakref.finalize(service, _dropped, service.turns).atexit = False


def _dropped(turns: Core) -> None:
    with suppress(Exception):
        if turns.is_open:
            turns.is_closing = True
            turns.turn(turns.close)


def _close_all() -> None:
    for service in [*_services]:
        with suppress(Exception):
            service.close()


def _before_fork() -> None:
    """Takes all locks, so that no turn is half done in the child."""
    for service in [*_services]:
        for lock in service.turns.locks():
            lock.acquire()
            _held.append(lock)


def _after_fork() -> None:
    while _held:
        _held.pop().release()


def _after_fork_in_child() -> None:
    try:
        for service in [*_services]:
            service.turns.go_on_in_child()
    finally:
        _after_fork()


atexit.register(_close_all)
if hasattr(os, "register_at_fork"):
    os.register_at_fork(before=_before_fork, after_in_parent=_after_fork, after_in_child=_after_fork_in_child)
