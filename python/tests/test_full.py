"""Groups whose slots are all taken: the fallback of a call that found none, and the warnings of `open`."""

from __future__ import annotations

import asyncio
import threading
import unittest
import warnings
from typing import Any

import bulkhead
from share_support import ShareCase
from support import Case, Gate

ONE_SLOT = """
service = {groups = ["pool", "permits"], slots = {pool = 1, permits = 1}}
hystrix.threadpool.pool.maxQueueSize = 3
hystrix.command.permits.execution.isolation.strategy = "SEMAPHORE"
"""


def named(*_: Any, cause: bulkhead.CommandError) -> str:
    """A fallback that names its cause."""
    return f"{type(cause).__name__} {cause.cause}"


class Full(Case):
    def full(self, name: str, settings: str = ONE_SLOT, **options: Any) -> Any:
        """A command of a group whose one slot is taken until the test ends."""
        service, gate = self.open(settings), Gate()
        call: Any = service.command(name, **options)(lambda value=None: gate(value))
        thread = threading.Thread(target=call)
        thread.start()
        self.addCleanup(thread.join)
        self.addCleanup(gate.open)
        gate.wait()
        return call

    def error(self, call: Any) -> Any:
        with self.assertRaises(bulkhead.GroupFull) as full:
            call()
        return full.exception

    def test_a_full_group_goes_to_the_fallback(self) -> None:
        for name in ("pool", "permits"):
            self.assertEqual(self.full(name, fallback=named)(1), "GroupFull group-full")

    def test_a_queued_call_goes_to_the_fallback_in_a_helper(self) -> None:
        seen: list[str] = []

        def fallback(*_: Any, cause: bulkhead.CommandError) -> str:
            seen.append(threading.current_thread().name)
            return named(cause=cause)

        call = self.full("pool", fallback=fallback)
        self.assertEqual(call.queue(1).result(5), "GroupFull group-full")
        self.assertEqual(asyncio.run(call.run(1)), "GroupFull group-full")
        self.assertEqual(seen, ["bulkhead-pool-helper"] * 2)

    def test_a_coroutine_goes_to_its_fallback(self) -> None:
        service = self.open(ONE_SLOT)

        async def fallback(*, cause: bulkhead.CommandError) -> str:
            await asyncio.sleep(0)
            return named(cause=cause)

        @service.command("permits", fallback=fallback)
        async def call() -> str:
            return await call() if (told := seen.pop()) is None else told

        seen: list[Any] = ["in vain", None]
        self.assertEqual(asyncio.run(call()), "GroupFull group-full")
        self.assert_idle(service)

    def test_without_a_fallback_the_error_names_permits_and_slots(self) -> None:
        error = self.error(self.full("permits"))
        self.assertEqual((error.cause, error.fallback), ("group-full", "missing"))
        self.assertEqual(str(error), "permits: none of the 1 slots of permits is free, with 10 permits")
        text = "pool: none of the 1 slots of pool is free, with 10 workers and a queue of 3"
        self.assertEqual(str(self.error(self.full("pool"))), text)

    def test_keys_are_named_where_they_hold_slots(self) -> None:
        service = self.open(ONE_SLOT)
        call: Any = service.command("permits", key=lambda item: item)(lambda item: item)
        with service.context():
            call("lamp")
            with self.assertRaisesRegex(bulkhead.GroupFull, "; keys hold 1 of them until their request contexts end$"):
                call("chair")
        self.assertEqual(call("chair"), "chair")

    def test_what_the_fallback_raises_is_told(self) -> None:
        error = self.error(self.full("permits", fallback=lambda *, cause: {}["lamp"]))
        self.assertEqual(error.fallback, "failed")
        self.assertIsInstance(error.fallback_error, KeyError)
        self.assertIn("; the fallback raised KeyError: 'lamp'", str(error))
        error = self.full("pool", fallback=lambda *, cause: {}["lamp"]).queue().exception(5)
        self.assertEqual((type(error), error.fallback), (bulkhead.GroupFull, "failed"))

    def test_a_fallback_that_is_switched_off_is_not_run(self) -> None:
        settings = ONE_SLOT + "hystrix.command.default.fallback.enabled = false\n"
        self.assertEqual(self.error(self.full("permits", settings, fallback=named)).fallback, "disabled")

    def test_as_many_run_the_fallback_as_it_has_permits(self) -> None:
        within = Gate()
        settings = ONE_SLOT + "hystrix.command.pool.fallback.isolation.semaphore.maxConcurrentRequests = 2\n"
        call = self.full("pool", settings, fallback=lambda *_, cause: within(7))
        futures = [call.queue() for _ in range(2)]
        within.wait(2)
        self.assertEqual(self.error(call).fallback, "rejected")
        self.assertEqual(call.queue().exception(5).fallback, "rejected")
        within.open()
        self.assertEqual([future.result(5) for future in futures], [7, 7])
        self.assertEqual(call(), 7)

    def test_it_is_counted(self) -> None:
        call = self.full("permits", fallback=named)
        call(), call()
        line = 'bulkhead_group_full_total{group="permits"} 2\n'
        self.assertIn(line, call._service.prometheus())

    def test_a_fallback_that_is_interrupted_gives_its_permit_back(self) -> None:
        settings = ONE_SLOT + "hystrix.command.permits.fallback.isolation.semaphore.maxConcurrentRequests = 1\n"

        def fallback(*, cause: bulkhead.CommandError) -> None:
            raise KeyboardInterrupt

        call = self.full("permits", settings, fallback=fallback)
        for _ in range(3):
            with self.assertRaises(KeyboardInterrupt):
                call()


class Clients(ShareCase):
    def test_a_full_group_goes_to_the_fallback(self) -> None:
        self.fake.say("submit", {"reply": "group-full"}, {"reply": "group-full"})
        client = self.client()
        self.assertEqual(client.command("catalog", fallback=named)(lambda: 1)(), "GroupFull group-full")
        error = self.told(client.command("report")(lambda: 1))
        self.assertEqual((type(error), error.cause, error.fallback), (bulkhead.GroupFull, "group-full", "missing"))
        self.assertEqual(str(error), "report: no slot of the group is free")
        self.assert_settled()

    def test_a_coroutine_goes_to_its_fallback(self) -> None:
        self.fake.say("submit", {"reply": "group-full"})

        async def fallback(*, cause: bulkhead.CommandError) -> str:
            return named(cause=cause)

        async def function() -> str:
            return "in vain"

        call = self.client().command("catalog", fallback=fallback)(function)
        self.assertEqual(asyncio.run(call()), "GroupFull group-full")
        self.assert_settled()


class Warnings(unittest.TestCase):
    def warned(self, text: str) -> list[str]:
        with warnings.catch_warnings(record=True) as told:
            warnings.simplefilter("always")
            bulkhead.open(text=text).close()
        self.assertEqual({one.category for one in told} - {bulkhead.SettingsWarning}, set())
        self.assertEqual({one.filename for one in told} - {__file__}, set())
        return [str(one.message) for one in told]

    def test_settings_that_fit_their_slots_are_no_surprise(self) -> None:
        self.assertEqual(self.warned('service.groups = ["a"]'), [])
        text = "hystrix.threadpool.a = {coreSize = 64, maxQueueSize = 100, queueSizeRejectionThreshold = 0}"
        self.assertEqual(self.warned('service.groups = ["a"]\n' + text), [])

    def test_permits_over_the_slots_are_warned_of(self) -> None:
        (text,) = self.warned(
            """service = {groups = ["a"], command.b.group = "a"}
            [hystrix.command.b.execution.isolation]
            strategy = "SEMAPHORE"
            semaphore.maxConcurrentRequests = 100
            """
        )
        self.assertEqual(
            text,
            "b has 100 permits, and its group a 64 slots: where all are taken a call is refused as GroupFull;"
            " service.slots.a = 110 would do",
        )

    def test_workers_and_queue_over_the_slots_are_warned_of(self) -> None:
        text = 'service = {groups = ["a"]}\nhystrix.threadpool.a = {maxQueueSize = 100, queueSizeRejectionThreshold = 80}'
        self.assertEqual(
            self.warned(text),
            [
                "a has 10 workers and a queue of 80, and 64 slots: where all are taken a call is refused as GroupFull;"
                " service.slots.a = 90 would do"
            ],
        )

    def test_what_no_number_of_slots_would_do_for_is_told(self) -> None:
        text = 'service = {groups = ["a"]}\nhystrix.threadpool.a = {maxQueueSize = 9000, queueSizeRejectionThreshold = 9000}'
        (told,) = self.warned(text)
        self.assertTrue(told.endswith("; service.slots.a can be 4096 at most, so the command wants fewer"), told)

    def test_the_warning_is_switched_off_by_its_class(self) -> None:
        with warnings.catch_warnings():
            warnings.simplefilter("error")
            warnings.simplefilter("ignore", bulkhead.SettingsWarning)
            bulkhead.open(text=ONE_SLOT).close()
