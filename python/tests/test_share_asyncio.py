"""Coroutine functions as commands of a client."""

from __future__ import annotations

import asyncio
from collections.abc import Callable, Coroutine
from typing import Any

import bulkhead
from bulkhead import _client_coroutines
from fake_share import FALLBACK_DUE
from share_support import ShareCase
from support import LoopEvent


class Own(Exception):
    """An exception of a function."""


class Coroutines(ShareCase):
    def known(self, timeout_ms: int) -> list[Any]:
        own = bulkhead.settings.CommandSettings("catalog", False, timeout_ms, True, True)
        return [bulkhead.settings.GroupSettings("catalog", 10, (own,))]

    async def until(self, holds: Callable[[], object]) -> None:  # type: ignore[override]
        """Lets the loop go on until something holds."""

        async def come() -> None:
            while not holds():
                await asyncio.sleep(0.001)

        await asyncio.wait_for(come(), 10)

    def test_values_and_errors(self) -> None:
        client = self.client()

        @client.command("catalog")
        async def look_up(number: int) -> int:
            await asyncio.sleep(0)
            return 10 // number

        async def main() -> None:
            self.assertEqual(await look_up(2), 5)
            self.assertEqual(await look_up.run(5), 2)
            self.assertEqual(await asyncio.gather(*(look_up(1) for _ in range(20))), [10] * 20)
            with self.assertRaises(bulkhead.Failed) as failed:
                await look_up(0)
            self.assertIsInstance(failed.exception.__cause__, ZeroDivisionError)
            with self.assertRaises(bulkhead.Failed):
                await look_up()  # type: ignore[call-arg]

        asyncio.run(main())
        with self.assertRaises(bulkhead.Refused):
            look_up.queue(1)
        self.assert_settled()
        self.assertEqual(_client_coroutines._carried, {})

    def test_a_fallback_may_be_a_coroutine_function(self) -> None:
        client = self.client()

        async def later(*, cause: bulkhead.CommandError) -> str:
            await asyncio.sleep(0)
            return type(cause).__name__

        async def fail() -> str:
            raise Own

        call = client.command("catalog", fallback=later)(fail)
        plain = client.command("report", fallback=lambda *, cause: 1)(fail)
        self.assertEqual((asyncio.run(call()), asyncio.run(plain())), ("Failed", 1))
        self.fake.say("submit", FALLBACK_DUE)
        self.assertEqual(asyncio.run(call()), "ShortCircuited")
        self.assert_settled()

    def test_without_the_service_a_coroutine_fallback_answers(self) -> None:
        client = self.client(when_unreachable="fallback")

        async def later(*, cause: bulkhead.CommandError) -> str:
            await asyncio.sleep(0)
            return type(cause).__name__

        async def fails(*, cause: bulkhead.CommandError) -> str:
            raise Own

        async def run() -> str:
            return "run"

        call, other = client.command("catalog", fallback=later)(run), client.command("report", fallback=fails)(run)
        self.fake.down()
        self.assertEqual(asyncio.run(call()), "Unreachable")
        with self.assertRaises(bulkhead.Unreachable) as raised:
            asyncio.run(other())
        self.assertEqual(raised.exception.fallback, "failed")

    def test_at_its_timeout_a_caller_is_answered_and_the_task_is_cancelled(self) -> None:
        client, ended = self.client(known=self.known(10)), LoopEvent()

        async def slow() -> None:
            try:
                await asyncio.sleep(60)
            finally:
                ended.set()

        async def main() -> None:
            call = client.command("catalog", fallback=lambda *, cause: type(cause).__name__)(slow)
            task = asyncio.create_task(call())
            await self.until(lambda: self.fake.ops().count("collect") > 2)
            self.assertFalse(task.done(), "the service decides")
            self.fake.time_out(1)
            self.assertEqual(await task, "TimedOut")
            await asyncio.wait_for(ended.wait(), 10)
            await self.until(lambda: "fail" in self.fake.ops())

        asyncio.run(main())
        self.assert_settled()
        self.assertEqual(_client_coroutines._carried, {})

    def test_a_task_that_does_not_end_keeps_its_run_and_not_its_caller(self) -> None:
        client, stop = self.client(known=self.known(10)), LoopEvent()

        async def stubborn() -> None:
            while not stop.is_set():
                try:
                    await stop.wait()
                except asyncio.CancelledError:
                    pass

        async def main() -> None:
            call = client.command("catalog")(stubborn)
            task = asyncio.create_task(call())
            await self.until(lambda: "collect" in self.fake.ops())
            self.fake.time_out(1)
            with self.assertRaises(bulkhead.TimedOut):
                await task
            self.assertEqual(self.fake.tickets[1].run_of, 1)
            stop.set()
            await self.until(lambda: self.fake.tickets[1].run_of is None)

        asyncio.run(main())
        self.assert_settled()

    def test_a_caller_that_is_cancelled_cancels_its_run(self) -> None:
        client, begun = self.client(), LoopEvent()

        async def wait() -> None:
            begun.set()
            await asyncio.sleep(60)

        async def main() -> None:
            task = asyncio.create_task(client.command("catalog")(wait)())
            await begun.wait()
            task.cancel()
            with self.assertRaises(asyncio.CancelledError):
                await task

        asyncio.run(main())
        self.assertIn({"op": "fail", "group": "catalog", "ticket": 1, "bad": True}, [line for _, line in self.fake.lines])
        self.assert_settled()
        self.assertEqual(_client_coroutines._carried, {})

    def shared(self, client: bulkhead.Client, run: Callable[[], Coroutine[Any, Any, int]]) -> Any:
        return client.command("catalog", key=lambda: "same", encode=str, decode=int)(run)

    def test_who_waits_for_another_process_does_not_hold_up_the_loop(self) -> None:
        first, second, go_on = self.client(), self.client(), LoopEvent()

        async def wait() -> int:
            await go_on.wait()
            return 7

        async def never() -> int:
            return 8

        one, other = self.shared(first, wait), self.shared(second, never)

        async def within(client: bulkhead.Client, call: Any) -> Any:
            with client.context(5):
                return await call()

        async def main() -> None:
            runs = asyncio.create_task(within(first, one))
            await self.until(lambda: "submit" in self.fake.ops())
            waits = [asyncio.create_task(within(second, other)) for _ in range(3)]
            await self.until(lambda: sum(bool(line.get("wait")) for _, line in self.fake.lines) == 3)
            waits[0].cancel()
            with self.assertRaises(asyncio.CancelledError):
                await waits[0]
            go_on.set()
            self.assertEqual((await runs, await waits[1], await waits[2]), (7, 7, 7))

        asyncio.run(main())
        self.assert_settled()

    def test_a_connection_that_is_slow_to_open_does_not_hold_up_the_loop(self) -> None:
        client = self.client()

        async def run() -> int:
            return 7

        call = client.command("catalog")(run)

        async def main() -> None:
            self.assertEqual(await call(), 7)
            self.fake.drop()
            self.fake.held.add("groups")
            # the calls that find it lost do not wait, and the next one opens it
            client._links.ready() and client._links._shared.close()  # type: ignore[union-attr]
            before = len(self.fake.lines)
            tasks = [asyncio.create_task(call()) for _ in range(2)]
            await self.until(lambda: len(self.fake.lines) > before)
            tasks[0].cancel()
            with self.assertRaises(asyncio.CancelledError):
                await tasks[0]
            self.fake.let_go("groups")
            self.assertEqual((await tasks[1], await call()), (7, 7))

        asyncio.run(main())
        self.assert_settled()

    def test_a_call_that_would_wait_for_its_own_task_is_refused(self) -> None:
        client = self.client()

        async def again() -> int:
            value: int = await call()
            return value

        call = self.shared(client, again)

        async def main() -> None:
            with client.context():
                with self.assertRaises(bulkhead.Failed) as failed:
                    await call()
            self.assertIsInstance(failed.exception.__cause__, bulkhead.Reentered)

        asyncio.run(main())
        self.assert_settled()

    def test_a_loop_that_is_closed_in_the_midst_of_a_run_leaves_nothing(self) -> None:
        client, loop = self.client(), asyncio.new_event_loop()

        async def wait() -> None:
            await asyncio.sleep(60)

        async def done() -> int:
            return 7

        with self.silent_loops():
            task = loop.create_task(client.command("catalog")(wait)())
            while "submit" not in self.fake.ops():
                loop.run_until_complete(asyncio.sleep(0))
            loop.close()
            self.assertEqual(asyncio.run(client.command("report")(done)()), 7)
            del task
        self.assert_settled()
