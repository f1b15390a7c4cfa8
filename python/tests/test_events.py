"""Events: each kind that the core counts, told outside of turns, and what is dropped where a listener is slow."""

from __future__ import annotations

import asyncio
import random
import threading
from collections import Counter
from typing import Any
from unittest import mock

import bulkhead
from bulkhead._words import EVENTS
from support import SETTINGS, Case, Gate

OPENING = SETTINGS + "\n[hystrix.command.permits.circuitBreaker]\nrequestVolumeThreshold = 1\n"


class Told(list[bulkhead.Event]):
    """A listener that keeps what it is told."""

    def __call__(self, event: bulkhead.Event) -> None:
        self.append(event)

    def kinds(self) -> list[str]:
        return [event.kind for event in self]


class Events(Case):
    def assert_told(self, told: Told, *kinds: str) -> None:
        """These kinds were told, and no others."""
        self.until(lambda: len(told) >= len(kinds))
        self.assertEqual(told.kinds(), [*kinds])

    def listening(self, text: str = SETTINGS, **options: Any) -> tuple[bulkhead.CommandService, Any, Told]:
        service, hand = self.by_hand(text)
        told = Told()
        service.on_event(told, **options)
        return service, hand, told

    def test_ends_of_runs_are_told_with_the_time_that_they_took_and_their_exceptions(self) -> None:
        for name in ("pool", "permits"):
            service, hand, told = self.listening()
            reason, bad = OSError("down"), bulkhead.BadRequest("order")

            def act(took: int, error: Any = None) -> None:
                hand.now += took
                if error is not None:
                    raise error

            call = service.command(name)(act)
            hand.now = 100
            call(7)
            for error in (reason, bad):
                with self.assertRaises((bulkhead.Failed, bulkhead.BadRequest)):
                    call(3, error)
            self.assert_told(told, "success", "failure", "fallback_missing", "exception_thrown", "bad_request")
            self.assertEqual(told[0], bulkhead.Event("success", name, name, 107, 7, None))
            self.assertEqual(told[1], bulkhead.Event("failure", name, name, 110, 3, reason))
            self.assertEqual(told[4], bulkhead.Event("bad_request", name, name, 113, 3, bad))
            self.assertEqual([(event.took, event.error) for event in told[2:4]], [(None, None), (None, reason)])

    def test_a_further_command_goes_by_its_own_name(self) -> None:
        service, _, told = self.listening()
        service.command("more")(lambda: 1)()
        service.register("tenant-7", like="pool")
        service.command("pool")(lambda: 1).of("tenant-7")()
        self.assert_told(told, "success", "success")
        self.assertEqual([(event.group, event.command) for event in told], [("pool", "more"), ("tenant-7", "tenant-7")])

    def test_a_failed_result_is_told_as_one(self) -> None:
        service, _, told = self.listening(kinds=["failure"])
        service.command("permits", fallback=lambda *, cause: 1, failed_result=lambda value: value == 503)(lambda: 503)()
        self.assert_told(told, "failure")
        self.assertIsInstance(told[0].error, bulkhead.FailedResult)
        self.assertEqual(told[0].error.value, 503)  # type: ignore[union-attr]

    def test_a_timeout_is_told_with_the_time_since_the_run_began(self) -> None:
        service, hand, told = self.listening(kinds=["timeout", "fallback_success"])
        gate = Gate()
        call: Any = service.command("pool", fallback=lambda *, cause: 1)(gate)
        hand.now = 10
        futures = [call.queue() for _ in range(3)]
        gate.wait(2)
        hand.now = 1015
        service.expire()
        self.assertEqual([future.result(5) for future in futures], [1] * 3)
        gate.open()
        self.until(lambda: len(told) == 6)
        self.assertEqual(Counter(told.kinds()), {"timeout": 3, "fallback_success": 3})
        took = [event.took for event in told if event.kind == "timeout"]
        self.assertEqual(took, [1005, 1005, None])

    def test_refusals_are_told(self) -> None:
        service, hand, told = self.listening(OPENING)

        @service.command("permits", fallback=lambda depth, *, cause: "refused")
        def down(depth: int) -> Any:
            return down(depth - 1) if depth else 1 // 0

        self.assertEqual(down(2), "refused")
        for hand.now in (600, 1200):
            self.assertEqual(down(0), "refused")
        self.until(lambda: "short_circuited" in told.kinds())
        self.assertEqual(told.kinds()[0], "semaphore_rejected")
        gate = Gate()
        pooled: Any = service.command("pool", fallback=lambda *, cause: 2)(gate)
        futures = [pooled.queue() for _ in range(4)]
        self.assertEqual(pooled(), 2)
        gate.open()
        for future in futures:
            future.result(5)
        self.until(lambda: "thread_pool_rejected" in told.kinds())

    def test_shared_answers_are_told(self) -> None:
        service, _, told = self.listening()
        call = service.command("permits", key=lambda: 1)(lambda: 1)
        with service.context():
            call(), call()
        self.assert_told(told, "success", "response_from_cache")

    def test_what_a_fallback_raised_is_told(self) -> None:
        service, _, told = self.listening(kinds=["fallback_failure", "exception_thrown"])
        with self.assertRaises(bulkhead.Failed) as failed:
            service.command("permits", fallback=lambda *, cause: {}["lamp"])(lambda: 1 // 0)()
        self.assert_told(told, "fallback_failure", "exception_thrown")
        self.assertIs(told[0].error, failed.exception.fallback_error)
        self.assertIs(told[1].error, failed.exception.__cause__)

    def test_fallbacks_without_a_permit_or_switched_off_are_told(self) -> None:
        fallback = "\n[hystrix.command.permits.fallback]\n"
        for said, kinds in (
            ("isolation.semaphore.maxConcurrentRequests = 0\n", ("failure", "fallback_rejection", "exception_thrown")),
            ("enabled = false\n", ("failure", "exception_thrown")),
        ):
            service, _, told = self.listening(SETTINGS + fallback + said)
            with self.assertRaises(bulkhead.Failed):
                service.command("permits", fallback=lambda *, cause: 1)(lambda: 1 // 0)()
            self.assert_told(told, *kinds)

    def test_a_coroutine_is_told_of(self) -> None:
        service, _, told = self.listening()

        @service.command("permits")
        async def call() -> int:
            await asyncio.sleep(0)
            return 1

        asyncio.run(call())
        self.assert_told(told, "success")

    def test_kinds_that_are_not_there_are_refused(self) -> None:
        service = self.open()
        with self.assertRaisesRegex(bulkhead.Refused, "no event is called 'sucess': there are bad_request, "):
            service.on_event(print, kinds=["sucess"])
        with self.assertRaises(bulkhead.Refused):
            service.on_event("print")  # type: ignore[arg-type]
        service.close()
        with self.assertRaises(bulkhead.Stopped):
            service.on_event(print)

    def test_each_listener_is_told_what_it_asked_for(self) -> None:
        service, hand = self.by_hand()
        every, failures, one = Told(), Told(), Told()
        service.on_event(every)
        service.on_event(failures, kinds={"failure", "timeout"})
        service.on_event(one, kinds="failure")
        call = service.command("permits", fallback=lambda fails, *, cause: 1)(lambda fails: 1 // (not fails))
        call(False), call(True)
        self.assert_told(every, "success", "failure", "fallback_success")
        self.assert_told(failures, "failure")
        self.assert_told(one, "failure")

    def test_a_listener_that_raises_is_told_on(self) -> None:
        hooked, service, told = self.hooked(), self.open(), Told()

        def refuse(event: bulkhead.Event) -> None:
            told(event)
            raise SystemExit

        service.on_event(refuse)
        call = service.command("permits")(lambda: 1)
        call(), call()
        self.assert_told(told, "success", "success")
        self.until(lambda: len(hooked) == 2)

    def test_a_listener_may_make_calls(self) -> None:
        service, told = self.open(), Told()
        other = service.command("pool")(lambda: 7)

        def ask(event: bulkhead.Event) -> None:
            told(event)
            if event.command == "permits":
                self.assertEqual((other(), service.metrics("permits").success), (7, 1))

        service.on_event(ask)
        service.command("permits")(lambda: 1)()
        self.assert_told(told, "success", "success")
        self.assert_idle(service)

    def test_no_call_and_no_other_listener_waits_for_one_that_blocks(self) -> None:
        service, gate, told = self.open(), Gate(), Told()
        service.on_event(gate)
        service.on_event(told)
        call = service.command("permits")(lambda: 1)
        self.assertEqual([call() for _ in range(10)], [1] * 10)
        self.assert_told(told, *["success"] * 10)
        gate.open()

    def test_events_for_which_there_is_no_room_are_counted_for_the_listener_that_is_slow(self) -> None:
        service, gate, quick = self.open(), Gate(), Told()
        slow = Told()
        service.on_event(lambda event: (slow(event), gate(event)), kinds=["success"])
        call = service.command("permits", fallback=lambda fails, *, cause: 1)(lambda fails: 1 // (not fails))
        call(False)
        gate.wait()
        with mock.patch("bulkhead._events.ROOM", 10), mock.patch("bulkhead._events._CUT", 5):
            service.on_event(quick, kinds=["success"])
            for _ in range(16):
                call(False)
                call(True)
                self.until(lambda: len(quick) == service.metrics("permits").success - 1)
        gate.open()
        self.until(lambda: len(slow) + service.dropped_events == 17)
        self.assertEqual((len(quick), service.dropped_events), (16, 10))
        self.assertIn("\nbulkhead_dropped_events_total 10\n", service.prometheus())

    def test_what_waits_is_told_after_the_end(self) -> None:
        service, gate, told = self.open(), Gate(), Told()
        service.on_event(lambda event: (gate(event), told(event)))
        call = service.command("permits")(lambda: 1)
        call(), call(), call()
        service.close()
        gate.open()
        self.assert_told(told, *["success"] * 3)
        self.until(lambda: not [thread for thread in threading.enumerate() if thread.name == "bulkhead-events"])

    def test_what_is_told_is_what_the_core_counts(self) -> None:
        settings = OPENING.replace("requestVolumeThreshold = 1", "requestVolumeThreshold = 30") + (
            "[hystrix.command.default]\nmetrics.rollingStats.timeInMilliseconds = 3600000\n"
        )
        service, hand, told = self.listening(settings)
        chance = random.Random(7)

        def act(what: str) -> None:
            if what == "late":
                hand.now += 1500
                service.expire()
            if what != "ok":
                raise {"bad": bulkhead.BadRequest}.get(what, ValueError)

        def fallback(what: str, *, cause: bulkhead.CommandError) -> int:
            return chance.choice([1, 1, 0]) // 0 if chance.random() < 0.3 else 1

        calls = [service.command(name, fallback=fallback, key=lambda what: what)(act) for name in ("pool", "permits")]
        calls.append(service.command("more")(act))
        for _ in range(100):
            with service.context():
                for call in calls:
                    hand.now += 1
                    try:
                        call(chance.choice(["ok", "ok", "bad", "fail", "late"]))
                    except (bulkhead.CommandError, bulkhead.BadRequest):
                        pass
        counted = {name: metrics for name, metrics in service.metrics().items()}
        total = sum(getattr(metrics, kind) for metrics in counted.values() for kind in EVENTS)
        self.until(lambda: len(told) >= total)
        counts = Counter((event.command, event.kind) for event in told)
        for name, metrics in counted.items():
            for kind in EVENTS:
                self.assertEqual(counts[name, kind], getattr(metrics, kind), (name, kind))
        self.assertGreater(len({event.kind for event in told}), 8)
