"""What the tests share: settings, a clock by hand, and the program that replays records."""

from __future__ import annotations

import asyncio
import contextlib
import gc
import logging
import os
import subprocess
import sys
import tempfile
import threading
import time
import unittest
import warnings
from collections.abc import Callable, Iterator
from pathlib import Path
from types import SimpleNamespace
from typing import Any, Optional

import bulkhead

PROGRAM = os.environ.get("BULKHEAD_PROGRAM", "")

SETTINGS = """
service.groups = ["pool", "permits"]
service.command.more.group = "pool"
hystrix.command.permits.execution.isolation.strategy = "SEMAPHORE"
hystrix.command.permits.execution.isolation.semaphore.maxConcurrentRequests = 2
[hystrix.threadpool.default]
coreSize = 2
maxQueueSize = 2
"""


class Hand:
    """A clock that a test sets."""

    def __init__(self) -> None:
        self.now = 0

    def __call__(self) -> int:
        return self.now


class Gate:
    """A function that waits until the test lets it go on."""

    def __init__(self) -> None:
        self.begun, self._open = threading.Semaphore(0), threading.Event()

    def __call__(self, value: Any = None) -> Any:
        self.begun.release()
        assert self._open.wait(10)
        return value

    def open(self) -> None:
        self._open.set()

    def wait(self, times: int = 1) -> None:
        """Waits until it was entered so often."""
        for _ in range(times):
            assert self.begun.acquire(timeout=10)


class LoopEvent:
    """An `asyncio.Event` that is made by its first use, within the loop, as Python 3.9 wants it."""

    def __init__(self) -> None:
        self._event: Optional[asyncio.Event] = None

    def _made(self) -> asyncio.Event:
        if self._event is None:
            self._event = asyncio.Event()
        return self._event

    def set(self) -> None:
        self._made().set()

    def is_set(self) -> bool:
        return self._made().is_set()

    async def wait(self) -> None:
        await self._made().wait()


class Case(unittest.TestCase):
    """A test with services that are closed behind it."""

    def open(self, text: str = SETTINGS, **options: Any) -> bulkhead.CommandService:
        with warnings.catch_warnings():
            warnings.simplefilter("ignore", bulkhead.SettingsWarning)
            service = bulkhead.open(text=text, **options)
        self.addCleanup(service.close)
        return service

    def by_hand(self, text: str = SETTINGS, **options: Any) -> tuple[bulkhead.CommandService, Hand]:
        hand = Hand()
        return self.open(text, clock=hand, **options), hand

    def folder(self) -> Path:
        folder = tempfile.TemporaryDirectory()
        self.addCleanup(folder.cleanup)
        return Path(folder.name)

    @contextlib.contextmanager
    def silent_loops(self) -> Iterator[None]:
        """Within it nothing is said of coroutines and tasks that are dropped before their end."""
        logger = logging.getLogger("asyncio")
        level, hook = logger.level, sys.unraisablehook
        logger.setLevel(logging.CRITICAL)
        sys.unraisablehook = lambda told: None
        try:
            with warnings.catch_warnings():
                warnings.simplefilter("ignore", RuntimeWarning)
                yield
                gc.collect()
        finally:
            logger.setLevel(level)
            sys.unraisablehook = hook

    def hooked(self) -> list[Any]:
        """What is told to `sys.unraisablehook` until the test ends."""
        told: list[Any] = []
        self.addCleanup(setattr, sys, "unraisablehook", sys.unraisablehook)
        sys.unraisablehook = lambda one: told.append(SimpleNamespace(exc_type=one.exc_type, object=repr(one.object)))
        return told

    def until(self, holds: Callable[[], object], seconds: float = 5) -> None:
        """Waits until something holds that another thread brings about."""
        end = time.monotonic() + seconds
        while not holds():
            self.assertLess(time.monotonic(), end, "it does not come to hold")
            time.sleep(0.002)

    def occupier(self, service: bulkhead.CommandService, name: str) -> Callable[[], contextlib.AbstractContextManager[None]]:
        """What keeps both threads of a group busy by a further command of it, as long as its `with` block lasts."""
        gates = [Gate()]
        call = service.command(name)(lambda: gates[-1]())

        @contextlib.contextmanager
        def occupied() -> Iterator[None]:
            gates.append(Gate())
            futures = [call.queue(), call.queue()]
            gates[-1].wait(2)
            try:
                yield
            finally:
                gates[-1].open()
                for future in futures:
                    future.result(5)

        return occupied

    def assert_idle(self, service: bulkhead.CommandService) -> None:
        """No ticket is left, in Python and in the core."""
        self.until(lambda: not service.runs())
        self.until(lambda: all(not (told.busy or told.queued) for told in service.metrics().values()))
        self.assertEqual({group.queued for group in service.turns.groups.values()}, {0})


def replayed(settings: Path, lines: bytes) -> bytes:
    """What the program answers to lines."""
    told = subprocess.run([PROGRAM, "run", str(settings)], input=lines, capture_output=True, check=True)
    return told.stdout


def needs_program(test: Any) -> Any:
    """Leaves a test out where the program is not built."""
    return unittest.skipUnless(os.access(PROGRAM, os.X_OK), "the program is not built")(test)


def no_sleep(function: Optional[Callable[..., Any]] = None) -> None:
    """Lets other threads run for a moment."""
    time.sleep(0.001)
