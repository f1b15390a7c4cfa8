"""What cannot be given back where it comes up: too deep in the stack, or in the midst of a turn. The next turn does it."""

from __future__ import annotations

import asyncio
import gc
import sys
from collections.abc import Callable
from typing import Any

import bulkhead
from depth import ROOM, depth, overflowing
from support import Case

def deep(frames: int, call: Callable[[], Any]) -> Any:
    """Makes a call so many frames below."""
    return deep(frames - 1, call) if frames else call()


class Owed(Case):
    def assert_all_free(self, service: bulkhead.CommandService, free: int, name: str = "permits") -> None:
        told = service.metrics(name)
        self.assertEqual((told.busy, told.free), (0, free))
        self.assertEqual(service.runs(), [])

    def test_calls_that_overflow_the_stack_leave_nothing_behind(self) -> None:
        service, _ = self.by_hand()
        free = service.metrics("permits").free
        call = service.command("permits")(lambda: 7)
        self.assertGreater(overflowing(call), 3)
        self.assertEqual(call(), 7)
        self.assert_all_free(service, free)

    def test_fallbacks_that_overflow_the_stack_leave_nothing_behind(self) -> None:
        service, _ = self.by_hand()
        free = service.metrics("permits").free
        call = service.command("permits", fallback=lambda *, cause: deep(3, lambda: 7))(lambda: 1 // 0)
        self.assertGreater(overflowing(call), 3)
        self.assertEqual(call(), 7)
        self.assert_all_free(service, free)

    def test_keyed_calls_that_overflow_the_stack_leave_nothing_behind(self) -> None:
        service, _ = self.by_hand()
        free = service.metrics("permits").free
        numbers = iter(range(1000))
        call = service.command("permits", key=lambda: next(numbers))(lambda: 7)
        with service.context():
            self.assertGreater(overflowing(call), 3)
        self.assertEqual(call(), 7)
        self.assert_all_free(service, free)

    def test_queued_calls_that_overflow_the_stack_leave_nothing_behind(self) -> None:
        service, _ = self.by_hand()
        free = service.metrics("pool").free
        call = service.command("pool")(lambda: 7)
        call()
        self.assertGreater(overflowing(lambda: call.queue().result(5)), 3)
        self.assertEqual(call(), 7)
        self.until(lambda: not service.runs())
        self.assert_all_free(service, free, "pool")

    def test_contexts_that_overflow_the_stack_are_ended(self) -> None:
        service, _ = self.by_hand()
        free = service.metrics("permits").free
        call = service.command("permits", key=lambda: 1)(lambda: 7)

        def within() -> None:
            with service.context():
                call()

        self.assertGreater(overflowing(within), 3)
        gc.collect()
        self.assertEqual(call(), 7)
        self.assert_all_free(service, free)

    def test_coroutines_that_overflow_the_stack_leave_nothing_behind(self) -> None:
        service, _ = self.by_hand()
        free = service.metrics("permits").free

        @service.command("permits")
        async def call() -> int:
            return 7

        async def overflow() -> None:
            for room in ROOM:
                before, limit = sys.getrecursionlimit(), depth() + room
                coroutine = call()
                try:
                    sys.setrecursionlimit(limit)
                    coroutine.send(None)
                except (RecursionError, StopIteration):
                    pass
                finally:
                    sys.setrecursionlimit(before)
                    coroutine.close()
                await asyncio.sleep(0)

        with self.silent_loops():
            asyncio.run(overflow())
            self.assertEqual(asyncio.run(call()), 7)
        self.assert_all_free(service, free)

    def test_a_context_that_is_collected_within_a_turn_is_ended_by_the_next_turn(self) -> None:
        service, _ = self.by_hand()
        free = service.metrics("permits").free
        call = service.command("permits", key=lambda: 1)(lambda: 7)
        held = [service.context()]
        held[0].__enter__()
        call()
        service.current.set(None)
        self.assertEqual(service.metrics("permits").free, free - 1)

        def collect() -> None:
            held.clear()
            gc.collect()

        service.turns.turn(collect)
        self.assert_all_free(service, free)

    def test_a_thing_that_cannot_be_given_back_is_told_and_disturbs_no_turn(self) -> None:
        class Refuses:
            def give_back(self, turns: object) -> None:
                raise ValueError("never")

        service, _ = self.by_hand()
        told: list[Any] = []
        hook, sys.unraisablehook = sys.unraisablehook, told.append
        try:
            service.turns.owed += (Refuses(),)
            self.assertEqual(service.command("permits")(lambda: 7)(), 7)
        finally:
            sys.unraisablehook = hook
        self.assertEqual([str(one.exc_value) for one in told], ["never"])
