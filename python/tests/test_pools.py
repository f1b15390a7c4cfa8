"""Pools: the threads of a group, and what a timer sets off."""

from __future__ import annotations

import threading
import time
from concurrent.futures import Future, wait
from contextvars import ContextVar
from typing import Any
from unittest import mock

import bulkhead
from support import SETTINGS, Case, Gate

SHORT = SETTINGS + """
[hystrix.command.default]
execution.isolation.thread.timeoutInMilliseconds = 30
circuitBreaker = {requestVolumeThreshold = 1, sleepWindowInMilliseconds = 20}
metrics.healthSnapshot.intervalInMilliseconds = 0
"""


LONG = SETTINGS + "[hystrix.command.default]\nexecution.isolation.thread.timeoutInMilliseconds = 60000\n"


def no_threads() -> Any:
    """Within it no thread can be started."""
    return mock.patch.object(threading.Thread, "start", side_effect=RuntimeError("can't start new thread"))


def name_of_thread(*_: Any, **__: Any) -> str:
    return threading.current_thread().name


class Pools(Case):
    def setUp(self) -> None:
        self.before = set(threading.enumerate())

    def workers(self, name: str) -> list[threading.Thread]:
        """The workers of a group that this test brought about."""
        named = [thread for thread in threading.enumerate() if thread.name == f"bulkhead-{name}-worker"]
        return [thread for thread in named if thread not in self.before]

    def test_a_pooled_function_runs_in_a_thread_of_its_group(self) -> None:
        service = self.open()
        self.assertEqual(service.command("pool")(name_of_thread)(), "bulkhead-pool-worker")

    def test_a_function_under_permits_runs_in_the_callers_thread(self) -> None:
        service = self.open()
        ident = service.command("permits")(threading.get_ident)
        self.assertEqual(ident(), threading.get_ident())

    def test_a_pool_has_as_many_daemon_threads_as_its_core_size(self) -> None:
        service, gate = self.open(), Gate()
        call = service.command("pool")(gate)
        futures = [call.queue(number) for number in range(4)]
        gate.wait(2)
        self.assertEqual([thread.daemon for thread in self.workers("pool")], [True, True])
        gate.open()
        self.assertEqual([future.result(5) for future in futures], [0, 1, 2, 3])
        self.assertEqual(len(self.workers("pool")), 2)

    def test_the_first_thread_of_a_pool_is_there_before_the_first_submit(self) -> None:
        service = self.open()
        call = service.command("pool")(lambda: 1)
        with mock.patch.object(threading.Thread, "start", side_effect=RuntimeError("can't start new thread")):
            for refused in (call, call.queue):
                with self.assertRaises(RuntimeError):
                    refused()
        self.assertFalse(service.turns.has_stepped())
        self.assertEqual(call(), 1)
        self.assert_idle(service)

    def test_threads_that_cannot_be_started_leave_their_work_to_the_others(self) -> None:
        service = self.open()
        call = service.command("pool")(lambda value: value)
        self.assertEqual(call(0), 0)
        with mock.patch.object(threading.Thread, "start", side_effect=RuntimeError("can't start new thread")):
            futures = [call.queue(number) for number in range(3)]
            self.assertEqual([future.result(5) for future in futures], [0, 1, 2])
        self.assertEqual(len(self.workers("pool")), 1)
        self.assert_idle(service)

    def test_a_worker_that_could_not_be_started_is_tried_again_by_the_timer(self) -> None:
        service, gate = self.open(LONG), Gate()
        call = service.command("pool")(gate)
        call.queue(1)
        gate.wait()
        with no_threads() as refused:
            call.queue(2)
            self.until(lambda: refused.call_count > 2)
        gate.wait()
        gate.open()
        self.assertEqual(len(self.workers("pool")), 2)
        self.assert_idle(service)

    def test_a_timeout_for_which_no_thread_can_be_started_is_answered_and_the_timer_goes_on(self) -> None:
        service, gate = self.open(SHORT), Gate()
        call = service.command("pool", fallback=lambda *, cause: type(cause).__name__)(gate)
        other = service.command("more", fallback=lambda *, cause: type(cause).__name__)(gate)
        futures = [call.queue()]
        gate.wait()
        with no_threads():
            self.assertEqual(futures[0].result(5), "TimedOut")
            self.assertEqual(other(), "TimedOut")
            self.assertIn(call.queue().result(5), ("TimedOut", "ShortCircuited"))
        gate.open()
        self.assert_idle(service)

    def test_a_thread_of_a_pool_that_can_start_no_helper_goes_on(self) -> None:
        service = self.open()
        call = service.command("pool", fallback=lambda *, cause: "later")(lambda: 1 // 0)
        self.assertEqual(call.queue().result(5), "later")
        with no_threads():
            self.assertEqual([call.queue().result(5) for _ in range(3)], ["later"] * 3)
        self.assertEqual(len(self.workers("pool")), service.turns.groups["pool"].threads)
        self.assert_idle(service)

    def test_a_helper_that_can_be_started_again_does_what_was_left(self) -> None:
        service, gate = self.open(), Gate()
        call = service.command("pool", fallback=lambda *, cause: gate(name_of_thread()))(lambda: 1 // 0)
        call.queue()
        gate.wait()
        with no_threads():
            stuck = call.queue()  # the spare thread is at it
            gate.wait()
            left = call.queue()
            self.until(lambda: service.turns.groups["pool"].helpers._left)
        service.command("more", fallback=lambda *, cause: 7)(lambda: 1 // 0).queue().result(5)
        gate.wait()
        gate.open()
        self.assertEqual({stuck.result(5), left.result(5)}, {"bulkhead-pool-helper"})
        self.assert_idle(service)

    def test_what_a_callback_of_a_future_raises_ends_no_thread(self) -> None:
        def leave(_: Future[Any]) -> None:
            raise SystemExit

        hooked, gate = self.hooked(), Gate()
        service = self.open()
        call = service.command("pool")(gate)
        call.queue(1).add_done_callback(leave)
        gate.open()
        self.until(lambda: hooked)
        self.assertEqual([call.queue(number).result(5) for number in range(3)], [0, 1, 2])
        self.assertEqual(len(self.workers("pool")), service.turns.groups["pool"].threads)
        self.assert_idle(service)

    def test_a_turn_that_raises_ends_no_worker_and_is_made_again(self) -> None:
        hooked, service, gate = self.hooked(), self.open(LONG), Gate()
        future = service.command("pool")(gate).queue(1)
        gate.wait()
        with mock.patch.object(service.turns, "end", side_effect=MemoryError):
            gate.open()
            self.until(lambda: hooked)
        self.assertEqual(future.result(5), 1)
        self.assert_idle(service)

    def test_a_turn_that_raises_does_not_end_the_timer(self) -> None:
        hooked, service, gate = self.hooked(), self.open(SHORT), Gate()
        with mock.patch.object(service.turns, "next_due", side_effect=MemoryError):
            future = service.command("pool")(gate).queue(1)
            self.until(lambda: hooked)
        self.assertIsInstance(future.exception(5), bulkhead.TimedOut)
        gate.open()
        self.assert_idle(service)

    def test_a_fallback_whose_end_cannot_be_told_is_told_by_the_next_turn(self) -> None:
        hooked, service = self.hooked(), self.open(LONG)
        future = service.command("pool", fallback=lambda *, cause: 7)(lambda: 1 // 0).queue
        turn_of = service.turns.turn_of

        def failing(begin: Any, *rest: Any) -> Any:
            if begin == service.turns.end_fallback:
                raise MemoryError
            return turn_of(begin, *rest)

        with mock.patch.object(service.turns, "turn_of", failing):
            told = future()
            self.until(lambda: hooked)
        self.assertEqual(service.command("more")(lambda: 1)(), 1)
        self.assertEqual(told.result(5), 7)
        self.assert_idle(service)

    def test_a_worker_that_is_woken_for_nothing_sleeps_again(self) -> None:
        service = self.open()
        call = service.command("pool")(lambda value: value)
        call(0)
        group = service.turns.groups["pool"]
        for number in range(100):
            group.workers[0].tell(False)
            self.assertEqual(call(number), number)
        self.until(lambda: sorted(map(id, group.idle)) == sorted(map(id, group.workers)))
        self.assert_idle(service)

    def test_no_thread_serves_two_groups(self) -> None:
        service = self.open()
        seen: dict[str, set[str]] = {"pool": set(), "tenant-7": set()}
        service.register("tenant-7", like="pool")

        def function(name: str) -> None:
            seen[name].add(name_of_thread())
            raise ValueError

        def fallback(name: str, *, cause: bulkhead.CommandError) -> None:
            seen[name].add(name_of_thread())

        call = service.command("pool", fallback=fallback)(function)
        for _ in range(20):
            wait([(call if name == "pool" else call.of(name)).queue(name) for name in seen], timeout=5)
        for name, threads in seen.items():
            self.assertEqual(threads, {f"bulkhead-{name}-worker", f"bulkhead-{name}-helper"})

    def test_a_function_runs_in_a_copy_of_its_callers_variables(self) -> None:
        variable: ContextVar[int] = ContextVar("variable", default=0)
        service = self.open()
        call = service.command("pool")(lambda: (variable.get(), variable.set(2)) and variable.get())
        read = service.command("more")(variable.get)
        variable.set(1)
        self.assertEqual((read(), call(), variable.get()), (1, 2, 1))

    def test_a_future_needs_nobody_who_waits(self) -> None:
        service, done = self.open(), Gate()
        call = service.command("pool", fallback=lambda value, *, cause: done(value))(lambda value: 1 // value)
        done.open()
        kept = [call.queue(1), call.queue(0)]
        done.wait()
        self.assert_idle(service)
        self.assertEqual([future.done() for future in kept], [True, True])

    def test_a_full_pool_rejects(self) -> None:
        service, gate = self.open(), Gate()
        call = service.command("pool")(gate)
        futures = [call.queue(number) for number in range(4)]
        with self.assertRaises(bulkhead.PoolRejected):
            call(5)
        self.assertIsInstance(call.queue(6).exception(5), bulkhead.PoolRejected)
        gate.open()
        self.assertEqual([future.result(5) for future in futures], [0, 1, 2, 3])
        self.assert_idle(service)

    def test_a_call_that_takes_too_long_is_answered_at_its_timeout(self) -> None:
        service, gate = self.open(SHORT), Gate()
        call = service.command("pool")(gate)
        begun = time.monotonic()
        with self.assertRaises(bulkhead.TimedOut) as late:
            call()
        self.assertEqual(late.exception.cause, "timeout")
        self.assertLess(time.monotonic() - begun, 5)
        self.assertEqual(service.metrics("pool").busy, 1)
        gate.open()
        self.assert_idle(service)
        self.assertEqual(service.metrics("pool").success, 0)

    def test_a_timeout_runs_the_fallback_of_a_future_in_a_thread_of_the_group(self) -> None:
        service, hand = self.by_hand()
        gate = Gate()
        future = service.command("pool", fallback=name_of_thread)(gate).queue()
        gate.wait()
        hand.now = 1000
        self.assertEqual(service.expire(), 1)
        self.assertEqual(future.result(5), "bulkhead-pool-helper")
        gate.open()
        self.assert_idle(service)

    def test_the_timer_runs_no_foreign_code(self) -> None:
        names: list[str] = []
        service = self.open(SHORT + "[hystrix.command.more]\nfallback.enabled = false\n")
        gate = Gate()
        for name in ("pool", "more"):
            future: Future[Any] = service.command(name, fallback=name_of_thread)(gate).queue()
            future.add_done_callback(lambda _: names.append(name_of_thread()))
            self.until(future.done)
        self.until(lambda: len(names) == 2)
        self.assertEqual(names, ["bulkhead-pool-helper"] * 2)
        gate.open()
        self.assert_idle(service)

    def test_a_change_of_a_circuit_that_the_timer_finds_is_told_in_a_thread_of_its_own(self) -> None:
        told: list[tuple[str, ...]] = []
        longer = SHORT.replace("= 30", "= 250")
        service, gate = self.open(longer, on_transition=lambda *change: told.append((*change, name_of_thread()))), Gate()
        call = service.command("pool")(lambda is_down: 1 // 0 if is_down else gate())
        for kind in (bulkhead.Failed, bulkhead.ShortCircuited):
            with self.assertRaises(kind):
                call(True)
        time.sleep(0.03)
        with self.assertRaises(bulkhead.TimedOut):
            call(False)
        self.until(lambda: len(told) == 3)
        changes = [("closed", "open"), ("open", "half-open"), ("half-open", "open")]
        self.assertEqual(told, [("pool", *change, "bulkhead-transitions") for change in changes])
        gate.open()
        self.assert_idle(service)

    def test_a_future_whose_function_runs_is_running_and_cannot_be_cancelled(self) -> None:
        service, gate = self.open(), Gate()
        future = service.command("pool")(gate).queue(7)
        gate.wait()
        self.assertEqual((future.running(), future.cancel(), future.cancelled()), (True, False, False))
        gate.open()
        self.assertEqual(future.result(5), 7)
        self.assert_idle(service)

    def test_a_future_that_shares_a_run_which_goes_on_is_running_too(self) -> None:
        service, gate = self.open(), Gate()
        call = service.command("pool", key=lambda value: value)(gate)
        with service.context():
            first = call.queue(7)
            gate.wait()
            second = call.queue(7)
            self.assertEqual((second.running(), second.cancel()), (True, False))
            gate.open()
            self.assertEqual((first.result(5), second.result(5), call.queue(7).result(5)), (7, 7, 7))
        self.assert_idle(service)

    def test_a_future_whose_fallback_runs_cannot_be_cancelled(self) -> None:
        service, gate = self.open(), Gate()
        future = service.command("pool", fallback=lambda *, cause: gate(7))(lambda: 1 // 0).queue()
        gate.wait()
        self.assertFalse(future.cancel())
        gate.open()
        self.assertEqual(future.result(5), 7)

    def test_whoever_waits_for_a_cancelled_future_is_told(self) -> None:
        service, gate = self.open(), Gate()
        call = service.command("pool")(gate)
        held = [call.queue(), call.queue()]
        gate.wait(2)
        cancelled = call.queue()
        self.assertTrue(cancelled.cancel())
        gate.open()
        self.assertEqual(wait([*held, cancelled], timeout=5).not_done, set())

    def test_a_cancelled_future_is_not_run(self) -> None:
        service, gate, ran = self.open(), Gate(), []
        call = service.command("pool")(gate)
        held = [call.queue(), call.queue()]
        gate.wait(2)
        other = service.command("more")(ran.append)
        cancelled = other.queue(1)
        self.assertTrue(cancelled.cancel())
        gate.open()
        wait([*held, cancelled], timeout=5)
        self.assert_idle(service)
        self.assertEqual(ran, [])
