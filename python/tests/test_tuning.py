"""Properties that change while a group runs, and totals."""

from __future__ import annotations

import asyncio
import json
import threading
from typing import Any

import bulkhead
from support import SETTINGS, Case, Gate, needs_program, replayed

OPENING = SETTINGS + "\n[hystrix.command.permits.circuitBreaker]\nrequestVolumeThreshold = 1\n"


def fallen(*_: Any, cause: bulkhead.CommandError) -> str:
    """A fallback that names its cause."""
    return type(cause).__name__


class Tuning(Case):
    def test_permits_change_for_what_comes(self) -> None:
        service, gate = self.open(), Gate()
        call = service.command("permits", fallback=fallen)(lambda value: gate(value))
        told: list[Any] = []
        threads = [threading.Thread(target=lambda: told.append(call(7))) for _ in range(3)]
        for thread in threads[:2]:
            thread.start()
        gate.wait(2)
        self.assertEqual(call(7), "SemaphoreRejected")
        service.tune("permits", execution_isolation_semaphore_maxConcurrentRequests=3)
        threads[2].start()
        gate.wait()
        self.assertEqual(call(7), "SemaphoreRejected")
        gate.open()
        for thread in threads:
            thread.join()
        self.assertEqual(told, [7, 7, 7])
        self.assert_idle(service)

    def test_a_circuit_that_is_held_open_and_let_go(self) -> None:
        service, _ = self.by_hand()
        call = service.command("permits", fallback=fallen)(lambda: 7)
        service.tune("permits", circuitBreaker_forceOpen=True)
        self.assertEqual(call(), "ShortCircuited")
        service.tune("permits", properties={"circuitBreaker.forceOpen": False})
        self.assertEqual(call(), 7)

    def test_a_pool_that_grows_takes_what_waits_at_once(self) -> None:
        service, gate = self.open(), Gate()
        call = service.command("pool")(gate)
        futures = [call.queue(number) for number in range(4)]
        gate.wait(2)
        service.tune("pool", coreSize=4)
        gate.wait(2)
        self.assertEqual(service.metrics("pool").busy, 4)
        gate.open()
        self.assertEqual([future.result(5) for future in futures], [0, 1, 2, 3])
        self.assert_idle(service)

    def test_a_pool_that_shrinks_and_grows_again_wakes_its_workers(self) -> None:
        service, first = self.open(), Gate()
        gates = [first]
        call = service.command("pool")(lambda value: gates[-1](value))
        futures = [call.queue(1), call.queue(1)]
        first.wait(2)
        first.open()
        self.assertEqual([future.result(5) for future in futures], [1, 1])
        service.tune("pool", coreSize=1)
        gates.append(second := Gate())
        futures = [call.queue(2) for _ in range(2)]
        second.wait()
        self.assertEqual((service.metrics("pool").busy, service.metrics("pool").queued), (1, 1))
        service.tune("pool", coreSize=2)
        second.wait()
        second.open()
        self.assertEqual([future.result(5) for future in futures], [2, 2])
        self.assert_idle(service)

    def test_a_shorter_timeout_counts_from_the_submit_of_what_is_under_way(self) -> None:
        service, hand = self.by_hand()
        gate = Gate()
        call = service.command("pool", fallback=fallen)(gate)
        futures = [call.queue() for _ in range(2)]
        gate.wait(2)
        hand.now = 100
        late = [call.queue() for _ in range(2)]
        hand.now = 300
        service.tune("pool", execution_isolation_thread_timeoutInMilliseconds=300)
        self.assertEqual(service.expire(), 2)
        self.assertEqual([future.result(5) for future in futures], ["TimedOut"] * 2)
        hand.now = 399
        self.assertEqual(service.expire(), 0)
        hand.now = 400
        self.assertEqual(service.expire(), 2)
        self.assertEqual([future.result(5) for future in late], ["TimedOut"] * 2)
        gate.open()
        self.assert_idle(service)

    def test_a_timeout_of_a_queued_run_that_began_counts_from_its_submit(self) -> None:
        service, hand = self.by_hand()
        gates = [Gate(), Gate()]
        first, second = service.command("pool")(gates[0]), service.command("more", fallback=fallen)(gates[1])
        futures = [first.queue(1) for _ in range(2)]
        gates[0].wait(2)
        waiting = second.queue()
        hand.now = 200
        gates[0].open()
        gates[1].wait()
        service.tune("pool", "more", execution_isolation_thread_timeoutInMilliseconds=250)
        hand.now = 249
        self.assertEqual(service.expire(), 0)
        hand.now = 250
        self.assertEqual((service.expire(), waiting.result(5)), (1, "TimedOut"))
        self.assertEqual([future.result(5) for future in futures], [1, 1])
        gates[1].open()

    def test_the_timer_goes_by_a_timeout_that_is_switched_on(self) -> None:
        service = self.open(SETTINGS + "\n[hystrix.command.pool.execution.timeout]\nenabled = false\n")
        gate = Gate()
        future = service.command("pool", fallback=fallen)(gate).queue()
        gate.wait()
        service.tune("pool", execution_isolation_thread_timeoutInMilliseconds=20, execution_timeout_enabled=True)
        self.assertEqual(future.result(5), "TimedOut")
        gate.open()

    def test_a_cache_that_is_switched_off_shares_nothing_more(self) -> None:
        service, ran = self.open(), []
        call = service.command("permits", key=lambda: 1)(lambda: ran.append(1) or len(ran))
        with service.context():
            self.assertEqual((call(), call()), (1, 1))
            service.tune("permits", requestCache_enabled=False)
            self.assertEqual(call(), 2)
            service.tune("permits", requestCache_enabled=True)
            self.assertEqual(call(), 1)
        self.assert_idle(service)

    def test_fallbacks_are_switched_off(self) -> None:
        service = self.open()
        call = service.command("permits", fallback=fallen)(lambda: 1 // 0)
        self.assertEqual(call(), "Failed")
        service.tune("permits", fallback_enabled=False)
        with self.assertRaises(bulkhead.Failed) as failed:
            call()
        self.assertEqual(failed.exception.fallback, "disabled")

    def test_circuits_are_known_while_they_are_switched_off(self) -> None:
        changes: list[str] = []
        service, hand = self.by_hand(OPENING, on_transition=lambda *change: changes.append(change[2]))
        fails = True

        @service.command("permits", fallback=fallen)
        def call() -> int:
            if hand.now > 5000:
                service.tune("permits", circuitBreaker_enabled=False)
            return 1 // (not fails)

        call()
        hand.now = 600
        self.assertEqual(call(), "ShortCircuited")
        hand.now, fails = 6000, False
        self.assertEqual((call(), service.metrics("permits").circuit), (1, "closed"))
        service.tune("permits", circuitBreaker_enabled=True)
        hand.now = 0
        self.assertEqual(call(), 1)
        self.until(lambda: len(changes) == 3)
        self.assertEqual(changes, ["open", "half-open", "closed"])
        self.assertEqual(service.turns.groups["permits"].places[0].circuit.state, 0)

    def test_a_registered_group_has_the_settings_of_the_file(self) -> None:
        service = self.open()
        call = service.command("pool", fallback=fallen)(lambda: 7)
        service.tune("pool", circuitBreaker_forceOpen=True)
        service.register("tenant-7", like="pool")
        self.assertEqual((call(), call.of("tenant-7")()), ("ShortCircuited", 7))
        service.tune("tenant-7", circuitBreaker_forceOpen=True)
        service.tune("pool", circuitBreaker_forceOpen=False)
        self.assertEqual((call(), call.of("tenant-7")()), (7, "ShortCircuited"))

    def test_what_may_not_change_is_refused(self) -> None:
        service = self.open()
        for named, why in (
            ({"maxQueueSize": 7}, "no property of the name may change"),
            ({"coreSise": 7}, "no property of the name may change"),
            ({"coreSize": 65}, "out of the property's range"),
            ({"coreSize": True}, "of the other type"),
            ({"circuitBreaker.enabled": 1}, "of the other type"),
            ({"coreSize": "7"}, "a number or a truth value"),
            ({}, "no property is named"),
        ):
            with self.assertRaisesRegex(bulkhead.Refused, why):
                service.tune("pool", properties=named)  # type: ignore[arg-type]
        with self.assertRaises(bulkhead.NoSuchGroup):
            service.tune("nobody", coreSize=7)
        with self.assertRaises(bulkhead.NoSuchCommand):
            service.tune("permits", "more", coreSize=7)
        service.close()
        with self.assertRaises(bulkhead.Stopped):
            service.tune("pool", coreSize=7)

    def test_those_before_the_one_that_is_refused_are_in_force(self) -> None:
        service = self.open()
        with self.assertRaisesRegex(bulkhead.Refused, "coreSize = 0 is not taken"):
            service.tune("permits", circuitBreaker_forceOpen=True, coreSize=0, fallback_enabled=False)
        self.assertEqual(service.command("permits", fallback=fallen)(lambda: 7)(), "ShortCircuited")

    def test_totals_are_those_since_the_group_was_there(self) -> None:
        service, hand = self.by_hand()
        call = service.command("permits", fallback=fallen)(lambda value: 1 // value)
        for moment in (0, 20_000, 40_000):
            hand.now = moment
            call(1), call(0)
        self.assertEqual(service.metrics("permits").success, 1)
        self.assertEqual(service.totals("permits"), bulkhead.Totals(success=3, failure=3, fallback_success=3))
        service.command("more")(lambda: 7)()
        self.assertEqual(service.totals("pool", "more"), bulkhead.Totals(success=1))
        self.assertEqual((service.totals("pool"), service.totals("pool", "pool")), (bulkhead.Totals(), bulkhead.Totals()))
        with self.assertRaises(bulkhead.NoSuchCommand):
            service.totals("permits", "more")
        with self.assertRaises(bulkhead.NoSuchGroup):
            service.totals("nobody")

    def test_a_worn_group_is_told(self) -> None:
        service = self.open("service.auditSteps = 2\n" + SETTINGS)
        service.tune("pool", coreSize=3)
        service.totals("pool")
        with self.assertRaises(bulkhead.Worn):
            service.totals("pool")
        with self.assertRaises(bulkhead.Worn):
            service.tune("pool", coreSize=3)
        with self.assertRaises(bulkhead.Worn):
            service.command("pool")(lambda: 7)()

    @needs_program
    def test_a_record_has_what_changed(self) -> None:
        folder, service = self.folder(), self.open()
        record = service.record(folder / "record.jsonl", replies=folder / "replies.jsonl")
        call = service.command("pool", fallback=fallen)(lambda: 7)
        call()
        service.tune("pool", coreSize=3, circuitBreaker_forceOpen=True)
        call()
        service.totals("pool")
        service.close()
        self.assertTrue(record.is_whole)
        lines = (folder / "record.jsonl").read_bytes()
        self.assertEqual([json.loads(line)["op"] for line in lines.splitlines()].count("tune"), 2)
        self.assertEqual(replayed(folder / "record.toml", lines), (folder / "replies.jsonl").read_bytes())

    def test_a_coroutine_is_timed_out_by_the_new_timeout(self) -> None:
        service = self.open()

        @service.command("permits", fallback=fallen)
        async def slow() -> None:
            await asyncio.sleep(60)

        async def main() -> Any:
            task = asyncio.ensure_future(slow())
            await asyncio.sleep(0)
            while not service.runs():
                await asyncio.sleep(0)
            service.tune("permits", execution_isolation_thread_timeoutInMilliseconds=20)
            return await asyncio.wait_for(task, 10)

        self.assertEqual(asyncio.run(main()), "TimedOut")
        self.assert_idle(service)
