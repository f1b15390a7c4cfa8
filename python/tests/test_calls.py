"""Calls: values, fallbacks and errors."""

from __future__ import annotations

import threading
from concurrent.futures import Future
from typing import Any
from unittest import mock

import bulkhead
from support import SETTINGS, Case, Gate


class Own(Exception):
    """An exception of a function."""


class Calls(Case):
    def test_an_executed_call_gives_the_value(self) -> None:
        service = self.open()
        for name in ("pool", "permits", "more"):
            call = service.command(name)(lambda value, *, times=1: value * times)
            self.assertEqual(call(2), 2)
            self.assertEqual(call(2, times=3), 6)
        self.assert_idle(service)

    def test_any_value_comes_through_as_it_is(self) -> None:
        service = self.open()
        call = service.command("pool")(lambda value: value)
        for value in (None, object(), bulkhead, Own()):
            self.assertIs(call(value), value)

    def test_a_queued_call_is_a_future(self) -> None:
        service = self.open()
        call = service.command("pool")(lambda value: value)
        future = call.queue(7)
        self.assertIsInstance(future, Future)
        self.assertEqual(future.result(5), 7)
        self.assert_idle(service)

    def test_a_future_calls_back(self) -> None:
        service, told = self.open(), Gate()
        service.command("pool")(lambda: 1).queue().add_done_callback(lambda _: told.begun.release())
        told.wait()

    def test_a_failure_names_its_cause(self) -> None:
        service, reason = self.open(), Own("down")

        def fail() -> None:
            raise reason

        for name in ("pool", "permits"):
            call = service.command(name)(fail)
            with self.assertRaises(bulkhead.Failed) as failed:
                call()
            error = failed.exception
            self.assertEqual((error.cause, error.fallback), ("failure", "missing"))
            self.assertIs(error.__cause__, reason)
            self.assertIsInstance(error, bulkhead.CommandError)
        self.assert_idle(service)

    def test_a_fallback_gets_the_arguments_and_the_cause(self) -> None:
        service, seen = self.open(), []

        def fallback(*arguments: Any, cause: bulkhead.CommandError, **named: Any) -> str:
            seen.append((arguments, named, type(cause), type(cause.__cause__)))
            return "later"

        for name in ("pool", "permits"):
            call = service.command(name, fallback=fallback)(lambda *_, **__: 1 // 0)
            self.assertEqual(call(1, two=2), "later")
            self.assertEqual(seen.pop(), ((1,), {"two": 2}, bulkhead.Failed, ZeroDivisionError))
        call = service.command("more", fallback=fallback)(lambda *_: 1 // 0)
        self.assertEqual(call.queue(3).result(5), "later")
        self.assert_idle(service)

    def test_a_fallback_that_raises_leaves_the_error(self) -> None:
        service = self.open()

        def fallback(*, cause: bulkhead.CommandError) -> None:
            raise Own from cause

        for name in ("pool", "permits"):
            call = service.command(name, fallback=fallback)(lambda: 1 // 0)
            with self.assertRaises(bulkhead.Failed) as failed:
                call()
            self.assertEqual(failed.exception.fallback, "failed")
        self.assert_idle(service)

    def test_a_fallback_that_raises_beyond_exception_leaves_no_future_unanswered(self) -> None:
        service = self.open()

        def fallback(*, cause: bulkhead.CommandError) -> None:
            raise SystemExit

        future = service.command("pool", fallback=fallback)(lambda: 1 // 0).queue()
        self.assertIsInstance(future.exception(5), bulkhead.Failed)
        self.assert_idle(service)

    def test_fallbacks_that_are_switched_off_are_told(self) -> None:
        service = self.open(SETTINGS + "\n[hystrix.command.pool.fallback]\nenabled = false\n")
        call = service.command("pool", fallback=lambda *, cause: 1)(lambda: 1 // 0)
        with self.assertRaises(bulkhead.Failed) as failed:
            call()
        self.assertEqual(failed.exception.fallback, "disabled")

    def test_a_bad_request_passes_through_and_has_no_fallback(self) -> None:
        service, reason = self.open(), bulkhead.BadRequest("order", 7)

        def refuse() -> None:
            raise reason

        for name in ("pool", "permits"):
            call = service.command(name, fallback=lambda *, cause: 1)(refuse)
            with self.assertRaises(bulkhead.BadRequest) as refused:
                call()
            self.assertEqual(refused.exception.args, ("order", 7))
            self.assertEqual(service.metrics(name).bad_request, 1)
            self.assertEqual(service.metrics(name).total, 0)

    def test_a_base_exception_passes_its_own_thread(self) -> None:
        service = self.open()

        class Beyond(BaseException):
            pass

        def leave() -> None:
            raise Beyond

        with self.assertRaises(Beyond):
            service.command("permits")(leave)()
        with self.assertRaises(bulkhead.Interrupted) as interrupted:
            service.command("pool")(leave)()
        self.assertIsInstance(interrupted.exception.__cause__, Beyond)
        self.assert_idle(service)

    def test_permits_that_are_taken_reject(self) -> None:
        service, gate = self.open(), Gate()
        call = service.command("permits")(gate)
        threads = [threading.Thread(target=call) for _ in range(2)]
        for thread in threads:
            thread.start()
        gate.wait(2)
        with self.assertRaises(bulkhead.SemaphoreRejected):
            call()
        gate.open()
        for thread in threads:
            thread.join()
        self.assert_idle(service)

    def test_a_full_group_is_told(self) -> None:
        service, gate = self.open('service = {groups = ["pool"], slots.pool = 1}'), Gate()
        call = service.command("pool")(gate)
        future = call.queue()
        with self.assertRaisesRegex(bulkhead.GroupFull, "slot"):
            call()
        self.assertIsInstance(call.queue().exception(5), bulkhead.GroupFull)
        gate.open()
        future.result(5)

    def test_a_slow_function_under_permits_falls_back_when_it_comes_back(self) -> None:
        service, hand = self.by_hand()

        def slow() -> int:
            hand.now += 2000
            service.expire()
            return 1

        call = service.command("permits", fallback=lambda *, cause: type(cause).__name__)(slow)
        self.assertEqual(call(), "TimedOut")
        self.assert_idle(service)

    def test_a_circuit_that_opens_rejects_and_closes_again(self) -> None:
        changes: list[tuple[str, str, str]] = []
        service, hand = self.by_hand(
            SETTINGS + "\n[hystrix.command.permits.circuitBreaker]\nrequestVolumeThreshold = 4\n",
            on_transition=lambda *change: changes.append(change),
        )
        is_down = True
        call = service.command("permits")(lambda: 1 // (not is_down))
        for _ in range(4):
            with self.assertRaises(bulkhead.Failed):
                call()
        hand.now = 600
        with self.assertRaises(bulkhead.ShortCircuited):
            call()
        self.assertEqual(service.metrics("permits").circuit, "open")
        hand.now, is_down = 5600, False
        self.assertEqual(call(), 1)
        self.assertEqual(service.metrics("permits").circuit, "closed")
        self.until(lambda: len(changes) == 3)
        steps = [("closed", "open"), ("open", "half-open"), ("half-open", "closed")]
        self.assertEqual(changes, [("permits", *step) for step in steps])

    def test_on_transition_is_called_outside_of_the_lock(self) -> None:
        seen: list[Any] = []
        service, hand = self.by_hand(
            SETTINGS + "\n[hystrix.command.permits.circuitBreaker]\nrequestVolumeThreshold = 1\n",
            on_transition=lambda name, *_: seen.append((service.metrics(name).circuit, other())),
        )
        other = service.command("pool")(lambda: 7)
        call = service.command("permits", fallback=lambda *, cause: 0)(lambda: 1 // 0)
        call()
        hand.now = 600
        call()
        self.until(lambda: seen)
        self.assertEqual(seen, [("open", 7)])
        self.assert_idle(service)

    def changing(self, call: Any) -> Any:
        """A service whose circuit of `permits` opens with its first failure, and what has it fail, or succeed."""
        service, hand = self.by_hand(
            SETTINGS + "\n[hystrix.command.permits.circuitBreaker]\nrequestVolumeThreshold = 1\n", on_transition=call
        )
        is_down = True
        function = service.command("permits", fallback=lambda *, cause: type(cause).__name__)(lambda: 1 // (not is_down))

        def made(down: bool, now: int) -> Any:
            nonlocal is_down
            is_down, hand.now = down, now
            return function()

        return service, made

    def test_what_on_transition_raises_is_told_and_disturbs_no_call(self) -> None:
        told: list[Any] = []

        def refuse(*change: str) -> None:
            told.append(change)
            raise SystemExit

        hooked = self.hooked()
        _, made = self.changing(refuse)
        self.assertEqual([made(True, 0), made(True, 600), made(False, 5600)], ["Failed", "ShortCircuited", 1])
        self.until(lambda: len(hooked) == 3)
        self.assertEqual([change[2] for change in told], ["open", "half-open", "closed"])
        self.assertEqual({one.exc_type for one in hooked}, {SystemExit})

    def test_no_call_waits_for_on_transition(self) -> None:
        gate, told = Gate(), []
        service, made = self.changing(lambda *change: (gate(), told.append(change)))
        self.assertEqual([made(True, 0), made(True, 600), made(False, 5600)], ["Failed", "ShortCircuited", 1])
        self.assertEqual((service.metrics("permits").circuit, told), ("closed", []))
        gate.open()
        self.until(lambda: len(told) == 3)
        self.assertEqual([change[2] for change in told], ["open", "half-open", "closed"])

    def test_changes_for_which_there_is_no_room_are_counted(self) -> None:
        gate = Gate()
        service, made = self.changing(lambda *change: gate())
        with mock.patch("bulkhead._transitions.ROOM", 1):
            made(True, 0)
            made(True, 600)
            gate.wait()
            made(False, 5600)
        self.assertEqual(service.dropped_transitions, 1)
        self.assertIn("\nbulkhead_dropped_transitions_total 1\n", service.prometheus())
        gate.open()

    def test_a_command_reads_as_its_function(self) -> None:
        service = self.open()

        @service.command("pool")
        def charge(order: int) -> int:
            """Charges."""
            return order

        self.assertEqual((charge.__name__, charge.__doc__, charge.name), ("charge", "Charges.", "pool"))

    def test_a_decorated_method_is_bound(self) -> None:
        service = self.open()

        class Api:
            def __init__(self, base: int) -> None:
                self.base = base

            @service.command("pool")
            def pooled(self, number: int) -> int:
                return self.base + number

            @service.command("permits")
            def permitted(self, number: int) -> int:
                return self.base * number

        api = Api(10)
        self.assertEqual((api.pooled(1), api.permitted(2), api.pooled.queue(3).result(5)), (11, 20, 13))
        self.assertEqual(Api.permitted(api, 3), 30)

    def test_recursion_takes_a_permit_for_each_call(self) -> None:
        service = self.open()

        @service.command("permits")
        def down(depth: int) -> int:
            return depth if depth == 0 else down(depth - 1)

        self.assertEqual(down(1), 0)
        with self.assertRaises(bulkhead.Failed) as failed:
            down(2)
        self.assertIsInstance(failed.exception.__cause__, bulkhead.Failed)
        self.assertIsInstance(failed.exception.__cause__.__cause__, bulkhead.SemaphoreRejected)
        self.assert_idle(service)

    def test_a_command_may_call_another_group(self) -> None:
        service = self.open()
        inner = service.command("permits")(lambda value: value + 1)
        outer = service.command("pool")(lambda value: inner(value) * 2)
        self.assertEqual(outer(1), 4)
