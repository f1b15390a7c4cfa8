"""What is refused where it is declared, and settings."""

from __future__ import annotations

import asyncio
import json
import subprocess
import sys
import threading
import time

import bulkhead
from support import SETTINGS, Case, Gate

OTHER = '[hystrix.command.other]\nexecution.isolation.strategy = "SEMAPHORE"\n'


class Declarations(Case):
    def test_settings_are_given_by_a_path_or_as_a_text(self) -> None:
        path = self.folder() / "settings.toml"
        path.write_text(SETTINGS)
        for given in (path, str(path)):
            with bulkhead.open(given) as service:
                self.assertEqual(service.command("pool")(lambda: 1)(), 1)
        with bulkhead.open(text=SETTINGS.encode()) as service:
            self.assertEqual(set(service.metrics()), {"pool", "permits", "more"})
        for arguments in ({}, {"settings": path, "text": SETTINGS}, {"settings": 7}):
            with self.assertRaises(bulkhead.Error):
                bulkhead.open(**arguments)  # type: ignore[arg-type]
        with self.assertRaises(FileNotFoundError):
            bulkhead.open("nowhere.toml")

    def test_settings_that_are_refused_raise_the_programs_text(self) -> None:
        for text in ("service.groups = []", "= =", 'service.groups = ["a"]\nservice.slots.a = 5000'):
            with self.assertRaises(bulkhead.Refused) as refused:
                bulkhead.open(text=text)
            self.assertTrue(str(refused.exception))

    def test_a_command_of_a_group_that_is_not_there_is_refused(self) -> None:
        with self.assertRaises(bulkhead.NoSuchGroup):
            self.open().command("nobody")

    def test_a_name_that_is_given_twice_is_refused(self) -> None:
        service = self.open()
        service.command("pool")(lambda: 1)
        with self.assertRaises(bulkhead.Refused):
            service.command("pool")(lambda: 2)

    def test_a_coroutine_function_under_a_pool_is_refused(self) -> None:
        service = self.open()

        async def function() -> None:
            pass

        with self.assertRaises(bulkhead.Refused):
            service.command("pool")(function)
        service.command("pool")(lambda: 1)

    def test_a_coroutine_fallback_of_a_plain_function_is_refused(self) -> None:
        async def fallback(*, cause: bulkhead.CommandError) -> None:
            pass

        with self.assertRaises(bulkhead.Refused):
            self.open().command("pool", fallback=fallback)(lambda: 1)

    def test_of_a_command_of_a_command_both_decide_the_outer_one_first(self) -> None:
        service = self.open()

        @service.command("permits", fallback=lambda order, *, cause: f"{cause}, by {cause.__cause__!r}")
        @service.command("pool")
        def charge(order: int) -> str:
            """Charges an order."""
            return f"{threading.current_thread().name} {1 // order}"

        self.assertEqual((charge.name, charge.__name__, charge.__doc__), ("permits", "charge", "Charges an order."))
        self.assertEqual(charge(1), "bulkhead-pool-worker 1")
        self.assertIn("Failed('pool: failure", charge(0))
        counts = {name: (told.success, told.failure) for name, told in service.metrics().items()}
        self.assertEqual(counts, {"permits": (1, 1), "pool": (1, 1), "more": (0, 0)})

    def test_a_command_of_a_method_may_be_one_of_a_command(self) -> None:
        service = self.open()

        class Shop:
            @service.command("permits")
            @service.command("pool")
            def price(self, item: int) -> int:
                return 2 * item

        self.assertEqual(Shop().price(7), 14)
        self.assertEqual([service.metrics(name).success for name in ("permits", "pool")], [1, 1])

    def test_a_command_of_an_awaited_command_is_awaited_too(self) -> None:
        service = self.open("service.command.other.group = \"permits\"\n" + SETTINGS + OTHER)

        @service.command("other")
        @service.command("permits")
        async def look_up(item: int) -> int:
            await asyncio.sleep(0)
            return 2 * item

        self.assertEqual(asyncio.run(look_up(7)), 14)
        self.assertEqual([service.metrics(name).success for name in ("permits", "other")], [1, 1])
        with self.assertRaises(bulkhead.Refused):
            service.command("pool", fallback=look_up)(lambda: 1)

    def test_every_error_of_a_call_is_a_command_error_and_an_error(self) -> None:
        names = "ShortCircuited PoolRejected SemaphoreRejected TimedOut Failed GroupFull Worn Stopped Interrupted"
        for name in (*names.split(), "Reentered", "NoSuchGroup"):
            self.assertTrue(issubclass(getattr(bulkhead, name), bulkhead.CommandError), name)
        self.assertTrue(issubclass(bulkhead.CommandError, bulkhead.Error))
        self.assertFalse(issubclass(bulkhead.BadRequest, bulkhead.Error))

    def test_moments_are_monotonic_milliseconds(self) -> None:
        service, path = self.open(), self.folder() / "record.jsonl"
        service.record(path)
        call = service.command("permits")(time.sleep)
        begun = time.monotonic()
        for _ in range(3):
            call(0.01)
        took = 1000 * (time.monotonic() - begun)
        service.close()
        moments = [json.loads(line)["now"] for line in path.read_text().splitlines()]
        self.assertEqual(moments, sorted(moments))
        self.assertTrue(29 <= moments[-2] - moments[0] <= took + 1, moments)

    def test_a_clock_of_a_tests_own_has_no_timer(self) -> None:
        before = {thread for thread in threading.enumerate() if thread.name == "bulkhead-timer"}
        service, hand = self.by_hand()
        future = service.command("pool")(gate := Gate()).queue()
        self.assertEqual({thread for thread in threading.enumerate() if thread.name == "bulkhead-timer"} - before, set())
        hand.now = 999
        self.assertEqual(service.expire(), 0)
        hand.now = 1000
        self.assertEqual(service.expire(), 1)
        self.assertIsInstance(future.exception(5), bulkhead.TimedOut)
        gate.open()

    def test_a_clock_that_raises_leaves_nothing(self) -> None:
        def fail() -> int:
            raise OSError("no clock")

        service = self.open(clock=fail)
        with self.assertRaises(OSError):
            service.command("permits")(lambda: 1)()
        self.assertEqual(service.runs(), [])
        service.close()

    def test_the_package_tells_its_version_and_where_its_library_lies(self) -> None:
        told = subprocess.run([sys.executable, "-m", "bulkhead"], capture_output=True, text=True, check=True)
        self.assertEqual(told.stdout, f"bulkhead {bulkhead.__version__}, interface 4\n{bulkhead._library.path()}\n")

    def test_a_clock_that_gives_no_moment_is_told(self) -> None:
        for moment in (1.5, 1 << 64, "noon", None):
            service = self.open(clock=lambda moment=moment: moment)
            with self.assertRaises(bulkhead.BadStep):
                service.command("permits")(lambda: 1)()
            self.assertEqual(service.runs(), [])

    def test_a_clock_that_goes_back_holds_the_latest_moment(self) -> None:
        service, hand = self.by_hand()
        call = service.command("permits")(lambda: 1)
        hand.now = 5000
        call()
        hand.now = 10
        call()
        self.assertEqual(service.turns.groups["permits"].latest, 5000)
