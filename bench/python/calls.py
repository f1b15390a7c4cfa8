"""What a call costs, by turns: each way a few times, and that again for so many rounds.

What one thread does is done in spells of a millisecond or so, many of which pass on a busy machine with nobody between.
"""

from __future__ import annotations

import asyncio
import atexit
import os
import socket
import statistics
import subprocess
import sys
import tempfile
import threading
import time
from collections.abc import Callable, Coroutine
from concurrent.futures import ThreadPoolExecutor
from pathlib import Path
from typing import Any

import bulkhead

try:
    from circuitbreaker import circuit
except ImportError:
    circuit = None

POOLS = [f"g{number}" for number in range(8)]
SETTINGS = f"""service = {{groups = {[*POOLS, "permits", "tasks"]}, slots = {{default = 96, tasks = 256}}}}
hystrix.command.permits.execution.isolation.strategy = "SEMAPHORE"
hystrix.command.tasks.execution.isolation = {{strategy = "SEMAPHORE", semaphore.maxConcurrentRequests = 200}}
hystrix.threadpool.default = {{coreSize = 10, maxQueueSize = 64, queueSizeRejectionThreshold = 64}}
"""
THREADS, SHARE, COROUTINES = 32, 50, 200
# how many spells of one thread a round has
SPELLS = 20
# of which way how much is asked, and beside which other one: a difference in microseconds, or a ratio
COMPARED = (
    ("under SEMAPHORE", "the bare function", "more"),
    ("under SEMAPHORE, with a listener", "under SEMAPHORE", "more"),
    ("a fork, with a call in the child", "a fork", "more"),
    ("200 coroutines at once", "200 bare coroutines at once", "more"),
    ("through a pool, executed", "ThreadPoolExecutor(10)", "more"),
    ("through a pool, queued and waited for", "ThreadPoolExecutor(10)", "more"),
    ("32 threads, 8 pools", "32 threads, 8 executors", "times"),
    ("32 threads, 8 pools, functions of 1 ms", "32 threads, 8 executors, functions of 1 ms", "times"),
)


# the same beside one another, where the program is given
SHARED = (
    ("by connect, over a socket", "under SEMAPHORE", "more"),
    ("by connect, over a port", "under SEMAPHORE", "more"),
)


def function(value: int) -> int:
    return value


def short(value: int) -> int:
    time.sleep(0.001)
    return value


def threads(calls: list[Callable[[int], Any]], count: int) -> Callable[[], int]:
    """32 threads, each of which calls one of the eight."""

    def run() -> int:
        def work(call: Callable[[int], Any]) -> None:
            for number in range(count):
                call(number)

        begun = [threading.Thread(target=work, args=(calls[number % 8],)) for number in range(THREADS)]
        for thread in begun:
            thread.start()
        for thread in begun:
            thread.join()
        return THREADS * count

    return run


def loop(call: Callable[[int], Any], count: int) -> Callable[[], int]:
    def run() -> int:
        for number in range(count):
            call(number)
        return count

    return run


def forked(call: Callable[[], Any]) -> Callable[[], int]:
    """A process that is forked, does something, and ends."""

    def run() -> int:
        child = os.fork()
        if not child:
            call()
            os._exit(0)
        os.waitpid(child, 0)
        return 1

    return run


def at_once(call: Callable[[int], Coroutine[Any, Any, int]]) -> Callable[[], int]:
    """200 coroutines, all of which have begun before one ends."""

    async def run() -> int:
        return len(await asyncio.gather(*[call(number) for number in range(COROUTINES)]))

    return lambda: asyncio.run(run())


async def pausing(value: int) -> int:
    await asyncio.sleep(0)
    return value


def ways_of_one() -> dict[str, Callable[[], int]]:
    """What one thread does."""
    service, listened = bulkhead.open(text=SETTINGS), bulkhead.open(text=SETTINGS)
    listened.on_event(lambda event: None)
    recorded = bulkhead.open(text=SETTINGS)
    recorded.record(Path(tempfile.mkdtemp()) / "record.jsonl")
    permits, of_record = service.command("permits")(function), recorded.command("permits")(function)
    pool, executor = service.command("g0")(function), ThreadPoolExecutor(10)
    told: dict[str, Callable[[], int]] = {"the bare function": loop(function, 2_000)}
    if circuit is not None:
        told["circuitbreaker"] = loop(circuit()(function), 1_000)
    told["under SEMAPHORE"] = loop(permits, 200)
    told["under SEMAPHORE, with a record"] = loop(of_record, 200)
    told["under SEMAPHORE, with a listener"] = loop(listened.command("permits")(function), 200)
    told["200 bare coroutines at once"] = at_once(pausing)
    told["200 coroutines at once"] = at_once(service.command("tasks")(pausing))
    told["ThreadPoolExecutor(10)"] = loop(lambda value: executor.submit(function, value).result(), 50)
    told["through a pool, executed"] = loop(pool, 50)
    told["through a pool, queued and waited for"] = loop(lambda value: pool.queue(value).result(), 50)
    return told


def ways_of_shared(program: str) -> dict[str, Callable[[], int]]:
    """What one thread does with a service in another process."""
    folder = Path(tempfile.mkdtemp())
    (folder / "settings.toml").write_text(SETTINGS)
    with socket.create_server(("127.0.0.1", 0)) as free:
        port = free.getsockname()[1]
    told: dict[str, Callable[[], int]] = {}
    for where, address in (("socket", str(folder / "share.sock")), ("port", port)):
        words = [program, "share", str(folder / "settings.toml"), f"--{where}", str(address)]
        service = subprocess.Popen(words, stdin=subprocess.PIPE, stdout=subprocess.PIPE)
        atexit.register(service.communicate)
        assert service.stdout is not None
        if not service.stdout.readline().startswith(b"listening"):
            sys.exit(f"{program} does not share")
        told[f"by connect, over a {where}"] = loop(bulkhead.connect(address).command("permits")(function), 50)
    return told


def ways_of_many() -> dict[str, Callable[[], int]]:
    """What 32 threads and a forked process do."""
    forking = bulkhead.open(text=SETTINGS).command("permits")(function)
    told: dict[str, Callable[[], int]] = {"a fork": forked(lambda: None)}
    told["a fork, with a call in the child"] = forked(lambda: forking(7))
    for called, about in ((function, ""), (short, ", functions of 1 ms")):
        service = bulkhead.open(text=SETTINGS)
        executors = [ThreadPoolExecutor(10) for _ in POOLS]
        submits = [lambda value, one=one, called=called: one.submit(called, value).result() for one in executors]
        told[f"32 threads, 8 executors{about}"] = threads(submits, SHARE)
        told[f"32 threads, 8 pools{about}"] = threads([service.command(name)(called) for name in POOLS], SHARE)
    return told


def main() -> None:
    rounds, programs, times = int(sys.argv[1]), sys.argv[2:], {}
    one, many = ways_of_one(), ways_of_many()
    for program in programs:
        one |= ways_of_shared(program)
    for _ in range(rounds):
        for named in (*[one] * SPELLS, many):
            for name, run in named.items():
                begun = time.perf_counter()
                count = run()
                times.setdefault(name, []).append((time.perf_counter() - begun) / count * 1e6)
    width = max(map(len, times))
    print(f"{'microseconds a call':<{width}}  {'least':>8}  {'middle':>8}")
    for name, each in times.items():
        print(f"{name:<{width}}  {min(each):>8.2f}  {statistics.median(each):>8.2f}")
    print("\nbeside one another, round by round: of the least, and the middle of all rounds")
    for name, beside, kind in (*COMPARED, *(SHARED if programs else ())):
        compare = (lambda one, other: one - other) if kind == "more" else (lambda one, other: one / other)
        least = compare(min(times[name]), min(times[beside]))
        middle = statistics.median(map(compare, times[name], times[beside]))
        print(f"{name}: {least:.2f} and {middle:.2f} {kind}{' than' if kind == 'more' else ''} {beside}")


main()
