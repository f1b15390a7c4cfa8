"""32 threads over 8 groups, whose record the program answers byte for byte."""

from __future__ import annotations

import asyncio
import collections
import contextvars
import json
import os
import random
import threading
import time
from concurrent.futures import Future
from pathlib import Path
from typing import Any

import bulkhead
from support import Case, needs_program, replayed

SECONDS = float(os.environ.get("BULKHEAD_STRESS_SECONDS", "2"))
# so many calls are more than 5,000 steps
ENOUGH = 2_500
NAMES = [f"g{number}" for number in range(8)]
SETTINGS = f"""service = {{groups = {NAMES}, slots.default = 256, command.more.group = "g0"}}
hystrix.command.g4.execution.isolation.strategy = "SEMAPHORE"
hystrix.command.g5.execution.isolation.strategy = "SEMAPHORE"
hystrix.threadpool.default = {{coreSize = 4, maxQueueSize = 2}}
[hystrix.command.default]
execution.isolation.thread.timeoutInMilliseconds = 60
circuitBreaker = {{sleepWindowInMilliseconds = 200, errorThresholdPercentage = 20, requestVolumeThreshold = 5}}
metrics.rollingStats.timeInMilliseconds = 1000
"""


class Beyond(BaseException):
    """An exception that says nothing of a dependency."""


RAISED: dict[Any, type[BaseException]] = {"fail": ValueError, "bad": bulkhead.BadRequest, "beyond": Beyond}
EXPECTED = (bulkhead.CommandError, bulkhead.BadRequest, Beyond, asyncio.CancelledError, asyncio.TimeoutError)


class Stress(Case):
    @needs_program
    def test_the_program_answers_the_record_of_32_threads_over_8_groups(self) -> None:
        self.service, self.counts = self.open(SETTINGS), collections.Counter[str]()
        self.folder_of_record: Path = self.folder()
        record = self.service.record(
            self.folder_of_record / "record.jsonl", replies=self.folder_of_record / "replies.jsonl"
        )
        self.declare()
        self.begun = time.monotonic()
        threads = [threading.Thread(target=self.caller) for _ in range(31)]
        threads.append(threading.Thread(target=self.comes_and_goes))
        for thread in threads:
            thread.start()
        for thread in threads:
            thread.join()
        self.assert_idle(self.service)
        self.assert_circuits()
        self.service.close()
        self.assertTrue(record.is_whole, record.error)
        for name in ("ShortCircuited", "PoolRejected", "TimedOut", "Failed", "BadRequest", "value", "async"):
            self.assertGreater(self.counts[name], 0, name)
        self.compare()

    def declare(self) -> None:
        def work(mode: Any) -> Any:
            time.sleep({"sleep": 0.002, "hang": 0.12}.get(mode, 0))
            if mode in RAISED:
                raise RAISED[mode]
            return mode() if callable(mode) else mode

        async def work_async(mode: Any) -> Any:
            await asyncio.sleep({"sleep": 0.002, "hang": 0.12}.get(mode, 0))
            if mode in ("fail", "bad"):
                raise RAISED[mode]
            return mode

        def fallback(mode: Any, *, cause: bulkhead.CommandError) -> Any:
            return random.random() < 0.8 or 1 // 0

        def key(mode: Any) -> Any:
            return mode if isinstance(mode, str) else None

        command = self.service.command
        self.plain = [
            command(name, fallback=fallback if name > "g3" else None, key=key)(work)
            for name in [*NAMES, "more"]
            if name != "g5"
        ]
        self.task = command("g5", fallback=fallback, key=key)(work_async)
        self.pooled = [call for call in self.plain if call.name != "g4"]

    def mode(self, *others: Any) -> Any:
        modes = ("ok", "sleep", "fail", "bad", "hang", "beyond", lambda: random.choice(self.pooled)("ok"))
        return random.choices(modes, (60, 30, 10, 2, 2, 1, 3))[0]

    def one(self) -> None:
        call, mode = random.choice(self.plain), self.mode()
        way = random.choices((self.queued, self.awaited, self.executed), (2, 1, 7))[0]
        try:
            way(call if call in self.pooled or way == self.executed else random.choice(self.pooled), mode)
            self.counts["value"] += 1
        except EXPECTED as error:
            self.counts[type(error).__name__] += 1

    def executed(self, call: Any, mode: Any) -> None:
        call(mode)

    def queued(self, call: Any, mode: Any) -> None:
        future: Future[Any] = call.queue(mode)
        if random.random() < 0.3:
            future.cancel()
        elif random.random() < 0.5:
            future.result()

    def awaited(self, call: Any, mode: Any) -> None:
        mode = "ok" if mode == "beyond" else mode

        async def several() -> None:
            one = [asyncio.wait_for(call.run(mode), random.uniform(0.03, 0.13)) for _ in range(3)]
            other = [asyncio.wait_for(self.task(random.choice(["ok", "sleep", "fail", "hang"])), 0.13) for _ in range(3)]
            told = await asyncio.gather(*one, *other, return_exceptions=True)
            self.counts["async"] += sum(not isinstance(answer, BaseException) for answer in told)

        asyncio.run(several())

    def goes_on(self) -> bool:
        """Whether its time is not over, or on a slow machine too few calls were made yet."""
        gone = time.monotonic() - self.begun
        return gone < SECONDS or (sum(self.counts.values()) < ENOUGH and gone < SECONDS + 60)

    def caller(self) -> None:
        while self.goes_on():
            with self.service.context():
                ours = [threading.Thread(target=contextvars.copy_context().run, args=(self.one,)) for _ in range(3)]
                for thread in ours:
                    thread.start()
                for thread in ours:
                    thread.join()
            self.one()

    def comes_and_goes(self) -> None:
        number = 0
        while self.goes_on():
            name = f"t{number % 3}"
            number += 1
            self.service.register(name, like="g0")
            calls = [self.plain[0].of(name), self.plain[-1].of(name)]
            with self.service.context():
                for _ in range(5):
                    try:
                        random.choice(calls)(random.choice(["ok", "fail", "sleep", "bad"]))
                    except EXPECTED as error:
                        self.counts[type(error).__name__] += 1
            while not self.service.retire(name):
                time.sleep(0.001)

    def assert_circuits(self) -> None:
        """What Python knows of each circuit breaker is what the core says."""
        for group in self.service.turns.groups.values():
            for place in group.places:
                told = self.service.metrics(place.spelled).circuit
                self.assertEqual(told, ("closed", "open", "half-open")[place.circuit.state], place.spelled)

    def compare(self) -> None:
        folder = self.folder_of_record
        lines, replies = (
            (folder / f"{name}.jsonl").read_bytes().splitlines(keepends=True) for name in ("record", "replies")
        )
        self.assertGreater(len(lines), 5_000)
        self.assertEqual(len(lines), len(replies))
        groups = [json.loads(line)["group"] for line in lines]
        for only in (None, *NAMES, "t0"):
            own = [at for at, group in enumerate(groups) if only in (None, group)]
            self.assertTrue(own)
            told = replayed(folder / "record.toml", b"".join(lines[at] for at in own))
            self.assertTrue(told == b"".join(replies[at] for at in own), f"other replies of {only}")
