"""What the tests of clients and workers share."""

from __future__ import annotations

import signal
import threading
from collections.abc import Callable
from typing import Any

from bulkhead import Client, CommandError
from bulkhead._links import Links
from fake_share import FakeService
from support import Case, no_sleep


class Moment:
    """A clock in seconds that a test sets."""

    def __init__(self) -> None:
        self.now = 100.0

    def __call__(self) -> float:
        return self.now


class ShareCase(Case):
    """A test with a small service of its own, and clients that are closed behind it."""

    def setUp(self) -> None:
        self.clock = Moment()
        self.fake = self.service()

    def service(self, **options: Any) -> FakeService:
        fake = FakeService(self.folder() / "share.sock", **options)
        self.addCleanup(self._end, fake)
        return fake

    def _end(self, fake: FakeService) -> None:
        if fake._is_up:
            fake.down()

    def client(self, timeout: float = 10, **options: Any) -> Client:
        """A client whose pauses go by the test's clock."""
        client = Client(Links(str(self.fake.path), timeout, self.clock), options.pop("known", None), **options)
        self.addCleanup(client.close)
        return client

    def in_thread(self, call: Callable[..., Any], *arguments: Any) -> Callable[[], Any]:
        """Begins a call in a thread of its own, and gives what waits for its value or its exception."""
        told: list[Any] = []

        def run() -> None:
            try:
                told.append(call(*arguments))
            except BaseException as error:
                told.append(error)

        thread = threading.Thread(target=run, daemon=True)
        thread.start()

        def wait() -> Any:
            thread.join(10)
            self.assertFalse(thread.is_alive(), "it does not end")
            return told[0]

        return wait

    def signalled(self, does: Callable[[], object], when: Callable[[], object]) -> Callable[[], Any]:
        """Has a signal handler do something once in this thread, when something holds of the service."""
        done: list[bool] = []

        def handler(*_: Any) -> None:
            if not done:
                done.append(True)
                does()

        before = signal.signal(signal.SIGUSR1, handler)
        self.addCleanup(signal.signal, signal.SIGUSR1, before)
        thread = threading.get_ident()

        def send() -> None:
            self.fake.until(when)
            while not done:
                signal.pthread_kill(thread, signal.SIGUSR1)
                no_sleep()  # a signal that comes just before the system is called wakes nobody

        return self.in_thread(send)

    def told(self, call: Callable[..., Any], *arguments: Any) -> CommandError:
        """The error of a call."""
        with self.assertRaises(CommandError) as raised:
            call(*arguments)
        return raised.exception

    def assert_settled(self) -> None:
        """Nobody has anything of the service any more."""
        self.fake.until(self.fake.settled)
