"""The end: close, groups that are worn, the end of the interpreter, and forks."""

from __future__ import annotations

import asyncio
import gc
import os
import signal
import subprocess
import sys
import threading
import weakref

import bulkhead
from support import SETTINGS, Case, Gate


class Ends(Case):
    def test_close_answers_every_waiter(self) -> None:
        service, gate = self.open(), Gate()
        call = service.command("pool")(gate)
        futures = [call.queue() for _ in range(4)]
        gate.wait(2)
        service.close()
        for future in futures:
            self.assertIsInstance(future.exception(5), bulkhead.Stopped)
        gate.open()

    def test_close_answers_a_thread_that_waits(self) -> None:
        service, gate, told = self.open(), Gate(), []
        call = service.command("pool")(gate)

        def wait() -> None:
            try:
                call()
            except bulkhead.Stopped:
                told.append(1)

        thread = threading.Thread(target=wait)
        thread.start()
        gate.wait()
        service.close()
        thread.join(5)
        self.assertEqual(told, [1])
        gate.open()

    def test_after_close_every_call_is_stopped(self) -> None:
        service = self.open()
        pooled, permitted = service.command("pool")(lambda: 1), service.command("permits")(lambda: 1)
        pooled()
        service.close()
        service.close()
        for call in (pooled, permitted, service.metrics, service.expire, service.prometheus):
            with self.assertRaises(bulkhead.Stopped):
                call()
        self.assertIsInstance(pooled.queue().exception(5), bulkhead.Stopped)
        with self.assertRaises(bulkhead.Stopped):
            service.metrics("pool")
        with self.assertRaises(bulkhead.Stopped):
            service.register("tenant-7", like="pool")

    def test_a_run_that_ends_after_close_disturbs_nothing(self) -> None:
        service = self.open()

        @service.command("permits")
        def close() -> int:
            service.close()
            return 1

        with self.assertRaises(bulkhead.Stopped):
            close()

    def test_the_threads_of_a_closed_service_end(self) -> None:
        before = set(threading.enumerate())
        service = self.open()
        service.command("pool")(lambda: 1)()
        service.close()
        self.until(lambda: not set(threading.enumerate()) - before)

    def test_a_service_that_is_dropped_after_close_is_collected(self) -> None:
        service = bulkhead.open(text=SETTINGS)
        service.command("pool")(lambda: 1)()
        service.close()
        kept = weakref.ref(service)
        del service
        self.until(lambda: gc.collect() >= 0 and kept() is None)

    def test_a_service_that_is_dropped_ends_its_threads(self) -> None:
        before = set(threading.enumerate())
        service = bulkhead.open(text=SETTINGS)
        service.command("pool")(lambda: 1)()
        kept = weakref.ref(service)
        del service
        self.until(lambda: gc.collect() >= 0 and kept() is None)
        self.until(lambda: not set(threading.enumerate()) - before)

    def test_one_worn_answers_every_waiter_of_its_group(self) -> None:
        service, gate = self.open("service.auditSteps = 6\n" + SETTINGS), Gate()
        call = service.command("pool")(gate)
        futures = [call.queue() for _ in range(4)]
        gate.wait(2)
        for _ in range(2):
            with self.assertRaises(bulkhead.Worn):
                call()
        for future in futures:
            self.assertIsInstance(future.exception(5), bulkhead.Worn)
        with self.assertRaises(bulkhead.Worn):
            service.metrics("pool")
        self.assertEqual(service.command("permits")(lambda: 1)(), 1)
        gate.open()

    def test_a_run_that_wears_its_group_out_is_told(self) -> None:
        service = self.open("service.auditSteps = 1\n" + SETTINGS)
        with self.assertRaises(bulkhead.Worn):
            service.command("permits")(lambda: 1)()

    def test_a_call_whose_group_is_worn_at_any_of_its_steps_is_told(self) -> None:
        for name, steps in (("permits", 3), ("pool", 4)):
            for number in range(1, steps):
                service = self.open(f"service.auditSteps = {number}\n" + SETTINGS)
                with self.assertRaises(bulkhead.Worn):
                    service.command(name)(lambda: 1)()
                self.assertEqual(service.runs(), [])
            service = self.open(f"service.auditSteps = {steps}\n" + SETTINGS)
            self.assertEqual(service.command(name)(lambda: 1)(), 1)

    def run_python(self, program: str) -> subprocess.CompletedProcess[str]:
        words = [sys.executable, "-W", "ignore", "-c", program]
        return subprocess.run(words, capture_output=True, text=True, timeout=20, check=False, env=os.environ)

    def test_an_interpreter_that_ends_while_functions_run_waits_for_none(self) -> None:
        path = self.folder() / "record.jsonl"
        ended = self.run_python(
            f"""
import threading, time
import bulkhead
service = bulkhead.open(text={SETTINGS!r})
record = service.record({str(path)!r})
begun = threading.Semaphore(0)
def hang():
    begun.release()
    time.sleep(60)
call = service.command("pool")(hang)
call.queue(), call.queue(), call.queue()
begun.acquire(), begun.acquire()
threading.Thread(target=call.queue().exception, daemon=True).start()
print("ends")
"""
        )
        self.assertEqual((ended.returncode, ended.stdout, ended.stderr), (0, "ends\n", ""))
        last = path.read_bytes().splitlines()[-1]
        self.assertIn(b'"record":"whole"', last)

    def test_a_call_within_a_turn_is_reentered_and_does_not_wait(self) -> None:
        seen: list[type] = []
        service = self.open(clock=lambda: _clock())
        call = service.command("permits")(lambda: 1)

        def again() -> int:
            try:
                call()
            except bulkhead.Reentered as error:
                seen.append(type(error))
            return 0

        _clock = again
        self.assertEqual(call(), 1)
        self.assertEqual(set(seen), {bulkhead.Reentered})
        _clock = lambda: 1  # noqa: E731
        self.assertEqual(call(), 1)
        self.assert_idle(service)

    def test_a_signal_handler_and_a_finalizer_within_a_turn_are_reentered(self) -> None:
        seen: list[str] = []
        service = self.open(clock=lambda: _clock())
        call = service.command("permits")(lambda: 1)

        class Dropped:
            def __del__(self) -> None:
                told("finalizer")

        def told(who: str) -> None:
            try:
                call()
            except bulkhead.Reentered:
                seen.append(who)

        def within() -> int:
            signal.raise_signal(signal.SIGUSR1)
            Dropped()
            return 1

        before = signal.signal(signal.SIGUSR1, lambda *_: told("handler"))
        self.addCleanup(signal.signal, signal.SIGUSR1, before)
        _clock = within
        self.assertEqual(call(), 1)
        self.assertEqual(set(seen), {"handler", "finalizer"})
        _clock = lambda: 1  # noqa: E731
        self.assertEqual(call(), 1)
        self.assert_idle(service)

    def test_an_awaiter_is_stopped(self) -> None:
        service = self.open()

        @service.command("permits")
        async def hang() -> None:
            await asyncio.sleep(60)

        async def call() -> None:
            awaited = asyncio.ensure_future(hang())
            await asyncio.sleep(0.005)
            service.close()
            with self.assertRaises(bulkhead.Stopped):
                await awaited

        asyncio.run(call())
