"""Coroutines: plain functions in pools, and coroutine functions as tasks."""

from __future__ import annotations

import asyncio
import threading
from typing import Any

import bulkhead
from support import SETTINGS, Case, Gate, LoopEvent

SHORT = SETTINGS + "\n[hystrix.command.permits.execution.isolation.thread]\ntimeoutInMilliseconds = 30\n"


class Coroutines(Case):
    def test_a_plain_function_is_awaited_from_its_pool(self) -> None:
        service = self.open()
        call = service.command("pool")(lambda value: (value, threading.current_thread().name))
        self.assertEqual(asyncio.run(call.run(3)), (3, "bulkhead-pool-worker"))
        self.assert_idle(service)

    def test_a_plain_function_fails_awaited_as_called(self) -> None:
        service = self.open()
        with self.assertRaises(bulkhead.Failed):
            asyncio.run(service.command("pool")(lambda: 1 // 0).run())

    def test_queue_and_run_of_a_plain_function_need_a_pool(self) -> None:
        call = self.open().command("permits")(lambda: 1)
        with self.assertRaises(bulkhead.Refused):
            call.queue()
        with self.assertRaises(bulkhead.Refused):
            asyncio.run(call.run())

    def test_a_coroutine_function_runs_in_its_callers_loop(self) -> None:
        service = self.open()

        @service.command("permits")
        async def double(value: int) -> tuple[int, bool]:
            await asyncio.sleep(0)
            return value * 2, threading.current_thread() is threading.main_thread()

        self.assertEqual(asyncio.run(double(2)), (4, True))
        self.assertEqual(asyncio.run(double.run(3)), (6, True))
        with self.assertRaises(bulkhead.Refused):
            double.queue(1)
        self.assert_idle(service)

    def test_a_coroutine_function_fails_with_its_cause(self) -> None:
        service = self.open()

        @service.command("permits")
        async def fail() -> None:
            raise ValueError("down")

        with self.assertRaises(bulkhead.Failed) as failed:
            asyncio.run(fail())
        self.assertIsInstance(failed.exception.__cause__, ValueError)
        with self.assertRaises(bulkhead.Failed) as failed:
            asyncio.run(fail("too many"))  # type: ignore[call-arg]
        self.assertIsInstance(failed.exception.__cause__, TypeError)
        self.assert_idle(service)

    def test_its_fallback_may_be_awaited(self) -> None:
        service, main = self.open(), threading.get_ident()

        async def fallback(*, cause: bulkhead.CommandError) -> Any:
            await asyncio.sleep(0)
            return type(cause), threading.get_ident() == main

        @service.command("permits", fallback=fallback)
        async def fail() -> Any:
            raise ValueError

        self.assertEqual(asyncio.run(fail()), (bulkhead.Failed, True))
        self.assert_idle(service)

    def test_at_its_timeout_the_caller_is_answered_and_the_task_cancelled(self) -> None:
        service, ends = self.open(SHORT), []

        @service.command("permits")
        async def hang() -> None:
            try:
                await asyncio.sleep(60)
            except asyncio.CancelledError:
                ends.append("cancelled")
                raise

        async def call() -> None:
            with self.assertRaises(bulkhead.TimedOut):
                await hang()
            await asyncio.sleep(0.02)
            self.assertEqual(ends, ["cancelled"])

        asyncio.run(call())
        self.assert_idle(service)

    def test_a_function_that_outstays_its_cancelling_keeps_its_permit_alone(self) -> None:
        service, gate = self.open(SHORT), LoopEvent()

        @service.command("permits")
        async def stay() -> None:
            while not gate.is_set():
                try:
                    await gate.wait()
                except asyncio.CancelledError:
                    continue

        async def call() -> None:
            with self.assertRaises(bulkhead.TimedOut):
                await stay()
            self.assertEqual(service.metrics("permits").busy, 1)
            gate.set()
            await asyncio.sleep(0.02)

        asyncio.run(call())
        self.assert_idle(service)

    def test_permits_are_counted_among_tasks(self) -> None:
        service = self.open()

        @service.command("permits", fallback=lambda *, cause: type(cause).__name__)
        async def one() -> str:
            await asyncio.sleep(0.01)
            return "ran"

        async def all_of() -> list[str]:
            return await asyncio.gather(*(one() for _ in range(4)))

        self.assertEqual(sorted(asyncio.run(all_of())), ["SemaphoreRejected"] * 2 + ["ran"] * 2)
        self.assert_idle(service)

    def test_tasks_share_answers_within_a_context(self) -> None:
        service, ran = self.open(), []

        @service.command("permits", key=lambda: 1)
        async def one() -> int:
            await asyncio.sleep(0.005)
            ran.append(1)
            return len(ran)

        async def both() -> list[int]:
            with service.context():
                return await asyncio.gather(one(), one(), one())

        self.assertEqual(asyncio.run(both()), [1, 1, 1])
        self.assert_idle(service)

    def test_a_task_that_awaits_its_own_run_is_reentered(self) -> None:
        service = self.open()

        @service.command("permits", key=lambda: 1)
        async def again() -> str:
            try:
                await again()
            except bulkhead.Reentered:
                return "once"
            return "twice"

        async def call() -> str:
            with service.context():
                return await again()

        self.assertEqual(asyncio.run(call()), "once")
        self.assert_idle(service)

    def test_a_caller_that_is_cancelled_cancels_a_run_that_nobody_else_wants(self) -> None:
        service, ends = self.open(), []

        @service.command("permits")
        async def hang() -> None:
            try:
                await asyncio.sleep(60)
            finally:
                ends.append(1)

        async def call() -> None:
            with self.assertRaises(asyncio.TimeoutError):
                await asyncio.wait_for(hang(), 0.01)
            await asyncio.sleep(0.01)

        asyncio.run(call())
        self.assertEqual(ends, [1])
        self.assert_idle(service)

    def test_a_caller_that_is_cancelled_leaves_a_run_that_another_wants(self) -> None:
        service = self.open()

        @service.command("permits", key=lambda: 1)
        async def slow() -> str:
            await asyncio.sleep(0.03)
            return "ran"

        async def call() -> str:
            with service.context():
                other = asyncio.ensure_future(slow())
                await asyncio.sleep(0)
                with self.assertRaises(asyncio.TimeoutError):
                    await asyncio.wait_for(slow(), 0.005)
                return await other

        self.assertEqual(asyncio.run(call()), "ran")
        self.assert_idle(service)

    def test_a_cancelled_await_of_a_plain_function_is_a_cancelled_future(self) -> None:
        service, gate = self.open(), Gate()
        call = service.command("pool", fallback=lambda *, cause: 1)(gate)

        async def cancelled() -> None:
            with self.assertRaises(asyncio.TimeoutError):
                await asyncio.wait_for(call.run(), 0.01)

        asyncio.run(cancelled())
        gate.open()
        self.assert_idle(service)

    def test_a_closed_loop_frees_its_permits(self) -> None:
        service = self.open()

        @service.command("permits")
        async def hang() -> None:
            await asyncio.sleep(60)

        with self.silent_loops():
            for _ in range(3):
                loop = asyncio.new_event_loop()
                tasks = [loop.create_task(hang.run()) for _ in range(2)]
                loop.run_until_complete(asyncio.sleep(0.01))
                self.assertEqual(service.metrics("permits").busy, 2)
                loop.close()
                self.assertEqual(service.metrics("permits").busy, 0)
                del tasks
        self.assert_idle(service)

    def test_asyncio_run_that_ends_cancels_what_still_runs(self) -> None:
        service = self.open()

        @service.command("permits")
        async def hang() -> None:
            await asyncio.sleep(60)

        async def leave() -> None:
            _tasks.append(asyncio.ensure_future(hang()))
            await asyncio.sleep(0.005)

        _tasks: list[Any] = []
        asyncio.run(leave())
        self.assert_idle(service)
