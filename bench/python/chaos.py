"""Has a service of the Python package called from all sides at once, and accounts for it at the end.

    python3 chaos.py PROGRAM SECONDS [SEED]

Threads call, queue, cancel, and share answers within request contexts. Loops are ended with their coroutines under way. The
process is forked, also within a call, and its children go on. Functions, fallbacks, keys, callbacks and listeners raise, and
block. Groups come and go, and properties change by `tune` and `reload`. At the end asserted are that

- every group has all its slots, no run is under way or queued, and as many calls and fallbacks run at once as are permitted,
- no thread and no descriptor is left over once the service is closed, and no child that did not end as it should,
- the resident size is within two percent of what it was after the first quarter,
- PROGRAM gives the very replies to the record, and to that of each child.
"""

from __future__ import annotations

import asyncio
import contextlib
import ctypes
import gc
import logging
import os
import random
import signal
import subprocess
import sys
import tempfile
import threading
import time
import traceback
import warnings
from collections import Counter
from collections.abc import Callable, Iterator
from pathlib import Path
from typing import Any

import bulkhead

SLOTS, PERMITS, FALLBACK_PERMITS = 64, 6, 10
SETTINGS = f"""service = {{groups = ["pool", "permits", "tasks"], slots.default = {SLOTS}, command.more.group = "pool"}}
hystrix.command.permits.execution.isolation.strategy = "SEMAPHORE"
hystrix.command.tasks.execution.isolation.strategy = "SEMAPHORE"
hystrix.threadpool.default = {{coreSize = 4, maxQueueSize = 8, queueSizeRejectionThreshold = 8}}
[hystrix.command.default]
execution.isolation.thread.timeoutInMilliseconds = 60
execution.isolation.semaphore.maxConcurrentRequests = {PERMITS}
circuitBreaker = {{sleepWindowInMilliseconds = 100, requestVolumeThreshold = 10, errorThresholdPercentage = 60}}
metrics.rollingStats.timeInMilliseconds = 1000
"""
# what a reload brings it to, and back from
CHANGED = SETTINGS.replace("timeoutInMilliseconds = 60", "timeoutInMilliseconds = 40").replace("coreSize = 4", "coreSize = 3")
CALLERS, AWAITERS = 12, 3
# so many seconds may pass until nothing is under way any more, and until a child has ended
SETTLED_WITHIN, CHILD_WITHIN = 10.0, 60.0
MOST_GROWN = 1.02
# with more steps than these, calls have come to all that a call may come to
ENOUGH = 20_000


class Failed(Exception):
    """What was asserted is not so."""


class Beyond(BaseException):
    """An exception that says nothing of a dependency."""


# what a call may come to beside a value
EXPECTED = (bulkhead.CommandError, bulkhead.BadRequest, bulkhead.BadKey, Beyond, ZeroDivisionError)
ENDED = (*EXPECTED, asyncio.CancelledError, asyncio.TimeoutError, TimeoutError)


def raising(*_: object) -> None:
    """A callback that raises."""
    raise ZeroDivisionError("a callback of chaos")


def resident() -> int:
    """The resident size of this process in KiB, once what is free was given back."""
    gc.collect()
    ctypes.CDLL(None).malloc_trim(0)
    status = Path("/proc/self/status").read_text()
    return next(int(line.split()[1]) for line in status.splitlines() if line.startswith("VmRSS"))


def held() -> dict[str, int]:
    """How many descriptors and threads this process has."""
    descriptors = len(os.listdir("/proc/self/fd")) - 1
    return {"descriptors": descriptors, "threads": len(os.listdir("/proc/self/task"))}


def left_over() -> str:
    """The descriptors and threads of this process, and where its threads are."""
    frames = sys._current_frames()
    stacks = {one.name: traceback.format_stack(frames.get(one.ident or 0)) for one in threading.enumerate()}
    return f"{held()}: " + "\n".join(f"{name}:\n{''.join(stack)}" for name, stack in stacks.items())


def await_that(holds: Callable[[], object], what: Callable[[], object]) -> None:
    """Waits until something holds, and fails where it does not come to."""
    deadline = time.monotonic() + SETTLED_WITHIN
    while not holds():
        if time.monotonic() > deadline:
            raise Failed(str(what()))
        time.sleep(0.005)


class Commands:
    """The commands of a service, and what they are called for."""

    def __init__(self, service: bulkhead.CommandService) -> None:
        command: Any = service.command
        self.service = service
        self.pooled = [command(name, fallback=self.fall_back, key=self.key)(self.work) for name in ("pool", "more")]
        self.inline = command("permits", fallback=self.fall_back, key=self.key, failed_result=self.is_failed)(self.work)
        self.task = command("tasks", fallback=self.fall_back, key=self.key)(self.work_async)
        self.counts: Counter[str] = Counter()
        # where calls and fallbacks of the mode "meet" wait for one another
        self.meeting = threading.Barrier(1)

    def work(self, mode: str) -> str:
        time.sleep({"sleep": 0.002, "hang": 0.09}.get(mode, 0))
        if mode in ("fail", "bad", "beyond"):
            raise {"fail": ZeroDivisionError, "bad": bulkhead.BadRequest, "beyond": Beyond}[mode]
        if mode == "fork":
            self.fork_within()
        if mode == "nested":
            self.inline("ok")
        if mode == "meet":
            self.meeting.wait(SETTLED_WITHIN)
        return mode

    async def work_async(self, mode: str) -> str:
        await asyncio.sleep({"sleep": 0.002, "hang": 0.09, "meet": 0.05}.get(mode, 0))
        if mode in ("fail", "bad"):
            raise ZeroDivisionError if mode == "fail" else bulkhead.BadRequest
        return mode

    def fork_within(self) -> None:
        """A child that is forked within a call, which ends in it."""
        child = os.fork()
        if child == 0:
            os._exit(0)
        os.waitpid(child, 0)

    def fall_back(self, mode: str, *, cause: bulkhead.CommandError) -> str:
        if mode == "meet":
            self.meeting.wait(SETTLED_WITHIN)
        elif random.random() < 0.2:
            raise ZeroDivisionError("a fallback of chaos")
        return "fallback"

    def key(self, mode: str) -> Any:
        if mode != "meet" and random.random() < 0.01:
            raise ZeroDivisionError("a key of chaos")
        return mode if random.random() < 0.9 else None

    def is_failed(self, value: str) -> bool:
        if value != "meet" and random.random() < 0.01:
            raise ZeroDivisionError("a predicate of chaos")
        return value == "sleep"

    def mode(self) -> str:
        return random.choices(("ok", "sleep", "fail", "bad", "hang", "beyond", "fork", "nested"), (60, 20, 10, 3, 2, 1, 0.3, 3))[0]

    def call(self) -> None:
        """One call, in one of the ways that there are."""
        way = random.choices((self.execute, self.queue, self.call_within, self.call_at_once), (6, 3, 1, 0.2))[0]
        with self.counted():
            way()

    def execute(self) -> None:
        random.choice([*self.pooled, self.inline])(self.mode())

    def queue(self) -> None:
        future = random.choice(self.pooled).queue(self.mode())
        future.add_done_callback(raising)
        if random.random() < 0.3:
            future.cancel()
        elif random.random() < 0.7:
            future.result(random.choice([None, 0.01]))

    def call_within(self) -> None:
        """Calls within a request context, which share answers."""
        with self.service.context():
            for _ in range(5):
                with self.counted():
                    self.execute()

    def call_at_once(self) -> None:
        """More calls at once than there are permits."""

        def call() -> None:
            with self.counted():
                self.inline("hang")

        threads = [threading.Thread(target=call) for _ in range(PERMITS + 2)]
        for thread in threads:
            thread.start()
        for thread in threads:
            thread.join()

    async def await_some(self) -> None:
        """Coroutines at once: some are cancelled, and some are left when the loop ends."""
        modes = random.choices(("ok", "sleep", "fail", "bad", "hang"), k=6)
        calls = [asyncio.ensure_future(self.task(mode)) for mode in modes]
        calls += [asyncio.ensure_future(random.choice(self.pooled).run("sleep"))]
        await asyncio.sleep(random.choice([0, 0.002, 0.05]))
        for call in random.sample(calls, 3):
            call.cancel()
        if random.random() < 0.5:
            raise ZeroDivisionError("the loop ends")
        await asyncio.wait(calls, timeout=0.1)
        for call in calls:
            if call.done() and not call.cancelled():
                call.exception()

    @contextlib.contextmanager
    def counted(self) -> Iterator[None]:
        """Counts what a call comes to."""
        try:
            yield
            self.counts["value"] += 1
        except ENDED as error:
            self.counts[type(error).__name__] += 1


class Chaos:
    """A service, whoever is at it, and what it comes to."""

    def __init__(self, program: str, folder: Path) -> None:
        self.program, self.folder = program, folder
        self.before = held()
        self.unraisable: Counter[str] = Counter()
        sys.unraisablehook = lambda told: self.unraisable.update([getattr(told.exc_type, "__name__", "")])
        self.service = bulkhead.open(text=SETTINGS, on_transition=raising)
        self.record = self.service.record(folder / "record.jsonl", replies=folder / "replies.jsonl")
        self.commands = Commands(self.service)
        self.listen()
        self.ends = 0.0
        self.failures: list[BaseException] = []
        self.children = self.tenants = self.reloads = 0

    def listen(self) -> None:
        """Listeners that raise, that block, and that make calls."""
        self.service.on_event(raising, kinds=["failure", "timeout"])

        def block(event: bulkhead.Event) -> None:
            if time.monotonic() < self.ends:
                time.sleep(0.02)

        self.service.on_event(block, kinds=["short_circuited"])

        def call(event: bulkhead.Event) -> None:
            self.commands.inline("ok")

        self.service.on_event(call, kinds=["bad_request"])

    def play(self, seconds: float) -> None:
        """All actors at once for some time, and then waits until nothing is under way."""
        self.ends = time.monotonic() + seconds
        actors: list[Callable[[], None]] = [self.commands.call] * CALLERS + [self.run_loop] * AWAITERS
        actors += [self.fork, self.come_and_go, self.change]
        threads = [threading.Thread(target=self.act, args=(actor,)) for actor in actors]
        for thread in threads:
            thread.start()
        for thread in threads:
            thread.join()
        if self.failures:
            raise self.failures[0]
        self.settle()

    def act(self, actor: Callable[[], None]) -> None:
        try:
            while time.monotonic() < self.ends and not self.failures:
                actor()
                time.sleep(random.random() * 0.03)
        except BaseException as error:
            self.failures.append(error)

    def run_loop(self) -> None:
        with contextlib.suppress(*ENDED):
            asyncio.run(self.commands.await_some())

    def come_and_go(self) -> None:
        """A group comes, is called, and goes."""
        self.tenants += 1
        name = f"tenant-{self.tenants % 3}"
        self.service.register(name, like="pool")
        for call in (one.of(name) for one in self.commands.pooled):
            with self.commands.counted():
                call(self.commands.mode())
        await_that(lambda: self.service.retire(name), lambda: f"{name} stays in use")

    def change(self) -> None:
        """Properties change, by hand and by new settings."""
        self.service.tune("permits", circuitBreaker_forceOpen=random.random() < 0.3)
        self.service.tune("pool", coreSize=random.randint(1, 6))
        time.sleep(0.1)
        self.reloads += 1
        self.service.reload(text=random.choice([SETTINGS, CHANGED]))

    # -- forks

    def fork(self) -> None:
        """A child goes on with the service, closes it, and leaves a record that replays."""
        child = os.fork()
        if child == 0:
            self.end_child()
        self.children += 1
        if _ended(child) != 0:
            raise Failed("a child did not end as it should")
        self.replay(f"-{child}")
        for file in self.folder.glob(f"*-{child}.*"):
            file.unlink()
        time.sleep(0.1)

    def end_child(self) -> None:
        """What a child does. It ends here."""
        status = 1
        try:
            for _ in range(20):
                self.commands.call()
            self.run_loop()
            self.settle()
            self.service.close()
            if not self.record.is_whole:
                raise Failed(f"the record of a child is not whole: {self.record.error}")
            status = 0
        except BaseException:
            os.write(2, traceback.format_exc().encode())
        finally:
            os._exit(status)

    # -- accounts

    def settle(self) -> None:
        """Waits until every group has all its slots, and nothing is under way."""
        await_that(lambda: not self.service.runs(), lambda: f"runs are left: {len(self.service.runs())}")

        def busy() -> list[str]:
            told = self.service.metrics().items()
            return [name for name, at in told if (at.free, at.busy, at.queued) != (SLOTS, 0, 0)]

        await_that(lambda: not busy(), lambda: f"something is kept that nobody has: {self.service.metrics()}")

    def take_all_permits(self) -> None:
        """As many calls, coroutines and fallbacks run at once as are permitted."""
        self.service.reload(text=SETTINGS.replace("timeoutInMilliseconds = 60", "timeoutInMilliseconds = 20000"))
        for name in ("permits", "tasks"):
            self.service.tune(name, circuitBreaker_enabled=False)
        self.meet(PERMITS, "meet")

        async def meet() -> list[str]:
            return list(await asyncio.gather(*(self.commands.task("meet") for _ in range(PERMITS))))

        told = asyncio.run(meet())
        if told != ["meet"] * PERMITS:
            raise Failed(f"{PERMITS} coroutines at once come to {told}")
        self.service.tune("permits", circuitBreaker_enabled=True, circuitBreaker_forceOpen=True)
        self.meet(FALLBACK_PERMITS, "fallback")
        self.settle()

    def meet(self, number: int, wanted: str) -> None:
        """Calls at once, each of which waits within its function or fallback for all others."""
        self.commands.meeting = threading.Barrier(number)
        told: list[object] = []

        def call() -> None:
            try:
                told.append(self.commands.inline("meet"))
            except Exception as error:
                told.append(error)

        threads = [threading.Thread(target=call) for _ in range(number)]
        for thread in threads:
            thread.start()
        for thread in threads:
            thread.join()
        if told != [wanted] * number:
            raise Failed(f"{number} calls at once come to {told}")

    def close(self) -> None:
        """Closes the service, and looks for what is left over."""
        self.service.close()
        if not self.record.is_whole:
            raise Failed(f"the record is not whole: {self.record.error}")
        await_that(lambda: held() == self.before, lambda: f"before there were {self.before}, and left over are {left_over()}")

    def replay(self, of: str = "") -> int:
        """Compares the replies of a record with those of the program, and tells how many there are."""
        record, replies = (self.folder / f"{name}{of}.jsonl" for name in ("record", "replies"))
        words = [self.program, "run", str(record.with_suffix(".toml"))]
        with record.open("rb") as lines:
            told = subprocess.run(words, stdin=lines, capture_output=True, check=True).stdout
        if told != replies.read_bytes():
            raise Failed(f"the program has other replies to {record.name}")
        return told.count(b"\n")


def _ended(child: int) -> int:
    """The status of a child that has ended; one that does not end is killed."""
    deadline = time.monotonic() + CHILD_WITHIN
    while time.monotonic() < deadline:
        ended, status = os.waitpid(child, os.WNOHANG)
        if ended:
            return status
        time.sleep(0.005)
    os.kill(child, signal.SIGKILL)
    os.waitpid(child, 0)
    return -1


def account(program: str, seconds: float, folder: Path) -> None:
    """Plays, and asserts what has to be so behind it."""
    chaos = Chaos(program, folder)
    chaos.play(seconds / 4)
    before = resident()
    chaos.play(seconds * 3 / 4)
    grown = resident() / before
    chaos.take_all_permits()
    chaos.close()
    lines = chaos.replay()
    for name in ("value", "Failed", "TimedOut", "ShortCircuited", "SemaphoreRejected", "BadRequest", "Beyond", "CancelledError"):
        if not chaos.commands.counts[name] and lines > ENOUGH:
            raise Failed(f"no call came to {name}: {dict(chaos.commands.counts)}")
    told = ", ".join(f"{name} {number}" for name, number in chaos.commands.counts.most_common())
    print(f"calls: {told}")
    raised = sum(chaos.unraisable.values())
    print(f"{chaos.children} children, {chaos.tenants} groups, {chaos.reloads} reloads, {raised} exceptions of callbacks")
    print(f"{lines} steps, to which the program gives the same replies; memory {grown:.3f}")
    if grown > MOST_GROWN:
        raise Failed(f"the resident size grew by {grown - 1:.1%}")


def main(words: list[str]) -> int:
    if len(words) not in (2, 3):
        print(__doc__, file=sys.stderr)
        return 2
    program, seconds = os.path.realpath(words[0]), float(words[1])
    seed = int(words[2]) if len(words) == 3 else random.randrange(1 << 16)
    random.seed(seed)
    print(f"Python, seed {seed}", flush=True)
    warnings.simplefilter("ignore")
    for name in ("asyncio", "concurrent.futures"):  # they tell of each exception that nobody took
        logging.getLogger(name).setLevel(logging.CRITICAL + 1)
    try:
        with tempfile.TemporaryDirectory() as folder:
            account(program, seconds, Path(folder))
    except Failed as failure:
        print(f"failed: {failure}")
        return 1
    return 0


if __name__ == "__main__":
    sys.exit(main(sys.argv[1:]))
