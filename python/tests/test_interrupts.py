"""Interrupts: at whatever place in a call, no ticket, no permit and no lock is left behind."""

from __future__ import annotations

import asyncio
import contextlib
import contextvars
import itertools
import random
import signal
import threading
from collections import Counter
from types import FrameType
from typing import Any, Optional

import bulkhead
from bulkhead._coroutines import Carried
from interrupts import FROM_3_11, Alarm, Interrupt, at_place
from support import SETTINGS, Case, Gate

ROUNDS = 2_000


class Interrupts(Case):
    @FROM_3_11
    def test_a_call_under_permits_may_be_interrupted_by_the_kernel_at_random_places(self) -> None:
        service = self.open(SETTINGS)
        calls = [
            service.command("permits", key=lambda value: value, fallback=lambda value, *, cause: 1 // value)(
                lambda value: 1 // value
            ),
            service.command("pool", fallback=lambda value, *, cause: 0)(lambda value: 1 // value),
            service.command("more", key=lambda value: value)(lambda value: value),
        ]
        self.interrupt_at_random(service, calls)

    @FROM_3_11
    def test_a_context_may_be_interrupted_by_the_kernel_at_random_places(self) -> None:
        service, alarm, opened, count = self.open(), Alarm(self), [], 0
        call = service.command("permits", key=lambda: 1)(lambda: 1)

        def enter_while_armed() -> None:  # a loop of its own: where one ends a `try`, some versions of Python leave it out
            nonlocal opened
            while alarm.is_armed:
                opened = [service.context()]
                with opened[0]:
                    call()

        random.seed(11)
        while count < ROUNDS:
            try:
                alarm.arm(0.000_100)
                enter_while_armed()
            except Interrupt:
                count += 1
            finally:
                alarm.is_armed = False
            self.assertIsNone(service.current.get())
            self.assertEqual([context for context in opened if context.groups], [])
        self.assert_idle(service)
        self.assertEqual(service.metrics("permits").free, 64)

    def test_a_step_that_is_not_made_leaves_nothing(self) -> None:
        for name, steps in (("permits", 3), ("pool", 2)):
            service = self.open()
            call, ask = service.command(name)(lambda: 1), service.turns.ask
            call()
            for number in range(steps):
                at = itertools.count()

                def refuse(number: int = number, at: Any = at, ask: Any = ask) -> None:
                    if next(at) == number:
                        raise MemoryError
                    ask()

                service.turns.ask = refuse
                with self.assertRaises(MemoryError):
                    call()
                service.turns.ask = ask
                self.assert_idle(service)
                self.assertEqual((call(), service.metrics(name).free), (1, 64))

    def interrupt_at_random(self, service: bulkhead.CommandService, calls: list[Any]) -> None:
        told: Counter[str] = Counter()
        alarm = Alarm(self)
        random.seed(7)
        while told["Interrupt"] < ROUNDS:
            context = service.context()
            context.__enter__()
            try:
                alarm.arm(0.000_300)
                for call in itertools.cycle(calls):
                    if not alarm.is_armed:  # it came in a callback of the interpreter, which ignores exceptions
                        break
                    for value in (1, 0):
                        try:
                            call(value)
                        except (bulkhead.CommandError, ZeroDivisionError) as error:
                            told[type(error).__name__] += 1
            except Interrupt:
                told["Interrupt"] += 1
            finally:
                alarm.is_armed = False
                context.__exit__(None, None, None)
        self.assert_idle(service)
        with contextlib.suppress(bulkhead.ShortCircuited):
            self.assertEqual(calls[2](5), 5)
        self.assertEqual([metrics.free for metrics in service.metrics().values()], [64] * 3)

    def test_an_interrupt_while_a_call_waits_leaves_nothing(self) -> None:
        service, gate = self.open(), Gate()
        call = service.command("pool")(gate)

        def handle(number: int, frame: Optional[FrameType]) -> None:
            raise KeyboardInterrupt

        before = signal.signal(signal.SIGALRM, handle)
        self.addCleanup(signal.signal, signal.SIGALRM, before)
        signal.setitimer(signal.ITIMER_REAL, 0.02)
        with self.assertRaises(KeyboardInterrupt):
            call()
        gate.open()
        self.assert_idle(service)

    def test_an_interrupt_of_a_function_under_permits_frees_its_permit(self) -> None:
        service = self.open()

        def interrupted() -> None:
            raise KeyboardInterrupt

        with self.assertRaises(KeyboardInterrupt):
            service.command("permits", fallback=lambda *, cause: 1)(interrupted)()
        self.assert_idle(service)

    def test_holders_of_an_interrupted_run_are_told(self) -> None:
        service, gate, told = self.open(), Gate(), []

        def interrupted() -> None:
            gate()
            raise KeyboardInterrupt

        call = service.command("permits", key=lambda: 1)(interrupted)
        with service.context():
            variables = contextvars.copy_context()

            def join() -> None:
                gate.wait()
                threads[1].start()
                self.until(lambda: service.runs()[0].holders == 2)
                gate.open()

            def other() -> None:
                try:
                    variables.run(call)
                except bulkhead.Interrupted as error:
                    told.append(type(error.__cause__))

            threads = [threading.Thread(target=join), threading.Thread(target=other)]
            threads[0].start()
            with self.assertRaises(KeyboardInterrupt):
                call()
            for thread in threads:
                thread.join()
        self.assertEqual(told, [KeyboardInterrupt])
        self.assert_idle(service)

    def test_each_place_of_a_call_may_be_interrupted(self) -> None:
        service = self.open(SETTINGS)
        calls = [
            service.command("permits", fallback=lambda *, cause: 0, key=lambda: 1)(lambda: 1 // 0),
            service.command("pool", key=lambda: 1)(lambda: 1),
            service.command("more", fallback=lambda *, cause: 0)(lambda: 1 // 0).queue,
        ]
        for call in calls:
            for is_shared in (False, True):
                reached = 0
                for number in range(1, 1_000):
                    with service.context() if is_shared else contextlib.nullcontext():
                        if not at_place(call, number):
                            break
                        reached += 1
                    self.assert_idle(service)
                self.assertGreater(reached, 20)
                self.assert_idle(service)
                self.assertEqual({metrics.free for metrics in service.metrics().values()}, {64})

    def test_each_place_of_a_call_that_is_listened_to_may_be_interrupted(self) -> None:
        service, told = self.open(), Counter[str]()
        service.on_event(lambda event: told.update([event.kind]))
        for name in ("permits", "pool"):
            call = service.command(name, fallback=lambda value, *, cause: 1 // value)(lambda value: 1 // value)
            for value in (1, 0):
                for number in range(1, 1_000):
                    if not at_place(lambda: call(value), number):
                        break
                    self.assert_idle(service)
                self.assertGreater(number, 20)
        counts = service.metrics().values()
        for kind in ("success", "failure", "bad_request", "fallback_failure", "fallback_missing", "exception_thrown"):
            self.until(lambda: told[kind] == sum(getattr(metrics, kind) for metrics in counts))

    def test_each_place_of_a_call_of_a_full_group_may_be_interrupted(self) -> None:
        settings = 'service = {groups = ["permits"], slots.permits = 1}\n' + (
            'hystrix.command.permits.execution.isolation.strategy = "SEMAPHORE"\n'
            "hystrix.command.permits.fallback.isolation.semaphore.maxConcurrentRequests = 1\n"
        )
        service, gate = self.open(settings), Gate()
        call = service.command("permits", fallback=lambda value, *, cause: type(cause).__name__)(gate)
        thread = threading.Thread(target=call, args=(7,))
        thread.start()
        gate.wait()
        for number in range(1, 1_000):
            if not at_place(lambda: call(7), number):
                break
            self.assertEqual(call(7), "GroupFull")
        self.assertGreater(number, 10)
        gate.open()
        thread.join()
        self.assert_idle(service)

    def test_each_place_of_a_change_may_be_interrupted(self) -> None:
        service = self.open()
        call = service.command("permits", fallback=lambda *, cause: type(cause).__name__)(lambda: 7)
        (place,) = service.turns.groups["permits"].places
        for number in range(1, 1_000):
            is_open = place.settings.circuit_moves
            was_interrupted = at_place(lambda: service.tune("permits", circuitBreaker_forceOpen=is_open), number)
            # Python goes by the value that the core has
            self.assertEqual(call() == 7, place.settings.circuit_moves)
            if not was_interrupted:
                break
        self.assertGreater(number, 20)
        self.assert_idle(service)

    def test_each_place_of_a_registration_and_of_a_retirement_may_be_interrupted(self) -> None:
        service, reached = self.open(), 0
        for number in range(1, 1_000):
            was_told = [at_place(lambda: service.register("tenant-7", like="pool"), number)]
            self.assert_known(service, "tenant-7")
            if "tenant-7" not in service.turns.groups:
                service.register("tenant-7", like="pool")
            was_told.append(at_place(lambda: service.retire("tenant-7"), number))
            self.assert_known(service, "tenant-7")
            if "tenant-7" in service.turns.groups:
                self.assertTrue(service.retire("tenant-7"))
            if not any(was_told):
                break
            reached += 1
        self.assertGreater(reached, 20)
        self.assertEqual({group.name for group in service.turns.every_group if not group.over}, {"pool", "permits"})

    def assert_known(self, service: bulkhead.CommandService, name: str) -> None:
        """Python has note of a group exactly where the core has."""
        try:
            number = service.turns.groups[name].number if name in service.turns.groups else None
            self.assertEqual(service.turns.opened.group(name), number)
        except bulkhead.NoSuchGroup:
            self.assertIsNone(number)

    @FROM_3_11
    def test_each_place_of_the_end_of_a_context_may_be_interrupted(self) -> None:
        service = self.open()
        calls = [service.command(name, key=lambda: 1)(lambda: 1) for name in ("permits", "pool")]
        for number in range(1, 1_000):
            context = service.context()
            context.__enter__()
            for call in calls:
                call()
            was_interrupted = at_place(lambda: context.__exit__(None, None, None), number)
            self.assertEqual((context.is_open, service.current.get(), service.runs()), (False, None, []))
            if not was_interrupted:
                break
        self.assertGreater(number, 20)
        self.assert_idle(service)

    def test_each_place_of_a_close_and_of_a_look_at_metrics_may_be_interrupted(self) -> None:
        service = self.open()
        service.command("pool")(lambda: 1)()
        for number in range(1, 1_000):
            if not at_place(service.metrics, number):
                break
        self.assertGreater(number, 20)
        self.assert_idle(service)
        for number in range(2, 1_000):
            service = self.open()
            service.command("pool")(lambda: 1)()
            was_interrupted = at_place(service.close, number)
            self.assertFalse(service.turns.is_open)
            if not was_interrupted:
                break
        self.assertGreater(number, 20)

    @FROM_3_11
    def test_each_place_of_a_coroutines_call_may_be_interrupted(self) -> None:
        for value in (1, 0):
            for then in (self.go_on_with, self.leave, self.close_loop):
                self.interrupt_a_coroutine(value, then)

    def interrupt_a_coroutine(self, value: int, then: Any) -> None:
        """Breaks a loop off at each place of a call, and does with it what is said then."""
        service, reached = self.open(), 0

        async def fallback(value: int, *, cause: bulkhead.CommandError) -> int:
            await asyncio.sleep(0)
            return 7

        @service.command("permits", key=lambda value: value, fallback=fallback)
        async def work(value: int) -> int:
            await asyncio.sleep(0)
            return 1 // value

        with self.silent_loops():
            for number in range(1, 1_000):
                loop = asyncio.new_event_loop()
                with service.context():
                    was_interrupted = at_place(lambda: loop.run_until_complete(work(value)), number)
                    then(service, loop)
                    loop.close()
                    self.assertEqual(service.metrics("permits").busy, 0)
                self.assertEqual(service.runs(), [])
                if not was_interrupted:
                    break
                reached += 1
        self.assertGreater(reached, 50)
        self.assert_idle(service)

    def go_on_with(self, service: bulkhead.CommandService, loop: asyncio.AbstractEventLoop) -> None:
        """Lets a loop that was broken off do what it has to do yet."""
        for task in asyncio.all_tasks(loop):
            task.cancel()
        for _ in range(8):
            loop.call_soon(loop.stop)
            loop.run_forever()
        left = [one for of_loop in service.turns.loops.values() for one in of_loop]
        self.assertEqual([one for one in left if isinstance(one, Carried) or one.is_open()], [])

    def leave(self, service: bulkhead.CommandService, loop: asyncio.AbstractEventLoop) -> None:
        """Leaves a loop that was broken off as it is: a run whose task is done has ended."""
        service.metrics()
        left = [one for of_loop in service.turns.loops.values() for one in of_loop]
        self.assertEqual([one for one in left if isinstance(one, Carried) and one.task and one.task.done()], [])

    def close_loop(self, service: bulkhead.CommandService, loop: asyncio.AbstractEventLoop) -> None:
        """Closes a loop that was broken off."""
        loop.close()
