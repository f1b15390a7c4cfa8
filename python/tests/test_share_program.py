"""Clients and workers of the program, as `bulkhead share` runs it. Left out where the program is not built or lacks it."""

from __future__ import annotations

import asyncio
import json
import os
import signal
import socket
import stat
import subprocess
import sys
import threading
import unittest
from functools import cache
from pathlib import Path
from typing import Any, Union

import bulkhead
from bulkhead._connection import Connection
from pages import Page
from support import PROGRAM, Case, Gate, replayed

TOP = Path(__file__).parents[2]
PAGE, EXAMPLE = TOP / "docs" / "SHARE.md", TOP / "examples" / "share" / "run.py"

SETTINGS = """
service.groups = ["catalog", "pool"]
service.command.report.group = "catalog"
hystrix.threadpool.pool.coreSize = 2
hystrix.threadpool.pool.maxQueueSize = 8

[hystrix.command.default]
circuitBreaker.requestVolumeThreshold = 1000
metrics.rollingStats.timeInMilliseconds = 3600000

[hystrix.command.catalog]
execution.isolation.strategy = "SEMAPHORE"
execution.isolation.semaphore.maxConcurrentRequests = 10
circuitBreaker.requestVolumeThreshold = 4
circuitBreaker.sleepWindowInMilliseconds = 3600000
metrics.healthSnapshot.intervalInMilliseconds = 0

[hystrix.command.report]
execution.isolation.strategy = "SEMAPHORE"
execution.isolation.thread.timeoutInMilliseconds = 200
"""
LONG = "execution.isolation.thread.timeoutInMilliseconds = 60000\n"


@cache
def shares() -> bool:
    """Whether the program is there and can be shared."""
    if not os.access(PROGRAM, os.X_OK):
        return False
    told = subprocess.run([PROGRAM, "share", "--help"], capture_output=True, text=True, check=False)
    return "--tickets" in told.stdout


@unittest.skipUnless(shares(), "the program is not built, or has no share")
class Program(Case):
    def setUp(self) -> None:
        self.at = self.folder()
        self.settings, self.socket = self.at / "settings.toml", self.at / "share.sock"
        self.settings.write_text(SETTINGS)

    def start(self, *words: object) -> "subprocess.Popen[str]":
        """Starts the service, by its socket where nothing else is said."""
        where = words or ("--socket", self.socket)
        service = subprocess.Popen(
            [PROGRAM, "share", str(self.settings), *map(str, where)],
            stdin=subprocess.PIPE,
            stdout=subprocess.PIPE,
            text=True,
        )
        self.addCleanup(self.stop, service)
        assert service.stdout is not None
        self.assertTrue(service.stdout.readline().startswith("listening"))
        return service

    def stop(self, service: "subprocess.Popen[str]") -> int:
        """Ends the service well: by the end of its input."""
        assert service.stdin is not None and service.stdout is not None
        service.stdin.close()
        try:
            status = service.wait(10)
        finally:
            service.kill()
            service.stdout.close()
        return status

    def client(self, address: Union[Path, int, None] = None, **options: Any) -> bulkhead.Client:
        client = bulkhead.connect(self.socket if address is None else address, **options)
        self.addCleanup(client.close)
        return client

    def assert_free(self, client: bulkhead.Client) -> None:
        """No run and no call is left."""
        self.until(lambda: all(not (told.busy or told.queued) for told in client.metrics().values()))
        self.until(lambda: all(told.free == 64 for told in client.metrics().values()))

    def test_values_and_errors_by_socket_and_by_port(self) -> None:
        self.start()
        self.assertEqual(stat.S_IMODE(self.socket.stat().st_mode), 0o600)
        with socket.create_server(("127.0.0.1", 0)) as free:
            port = free.getsockname()[1]
        self.start("--port", port)
        for address in (self.socket, port):
            client = self.client(address)
            call = client.command("catalog", fallback=lambda divisor, *, cause: type(cause).__name__)(lambda divisor: 12 / divisor)
            self.assertEqual((call(3), call(0)), (4, "Failed"))
            self.assertEqual(client.command("report")(lambda: 7)(), 7)
            metrics = client.metrics("catalog")
            self.assertEqual((metrics.success, metrics.failure, metrics.fallback_success), (1, 1, 1))
            self.assert_free(client)

    def test_what_one_client_finds_all_know(self) -> None:
        self.start()
        clients = [self.client() for _ in range(4)]
        calls = [client.command("catalog")(lambda: 1 // 0) for client in clients]
        for _ in range(4):
            with self.assertRaises(bulkhead.Failed):
                calls[0]()
        for call in calls:
            with self.assertRaises(bulkhead.ShortCircuited):
                call()
        self.assertEqual(clients[3].metrics("catalog").circuit, "open")
        self.assert_free(clients[0])

    def test_a_pause_of_the_service_fails_no_run(self) -> None:
        self.settings.write_text(SETTINGS.replace("[hystrix.command.catalog]\n", "[hystrix.command.catalog]\n" + LONG))
        service, gate = self.start(), Gate()
        client = self.client(settings=self.settings, timeout=0.5)
        call, other = client.command("catalog")(gate), client.command("report")(lambda: 7)
        told: list[Any] = []
        threads = [threading.Thread(target=lambda at=at: told.append(call(at))) for at in range(6)]
        for thread in threads:
            thread.start()
        gate.wait(6)
        os.kill(service.pid, signal.SIGSTOP)
        os.waitpid(service.pid, os.WUNTRACED)
        try:
            for _ in range(2):
                with self.assertRaises(bulkhead.Unreachable):
                    other()
            gate.open()
            for thread in threads:
                thread.join(10)
        finally:
            os.kill(service.pid, signal.SIGCONT)
        self.assertEqual(sorted(told), [*range(6)])
        self.until(lambda: client._links.ready() is not None)
        self.assert_free(client)
        metrics = client.metrics("catalog")
        self.assertEqual((metrics.success, metrics.failure, metrics.circuit), (6, 0, "closed"))
        self.assertEqual(other(), 7)

    def test_a_command_under_thread_is_refused(self) -> None:
        self.start()
        with self.assertRaisesRegex(bulkhead.Refused, "THREAD"):
            self.client(settings=self.settings).command("pool")
        client = self.client()
        call = client.command("pool")(lambda: 1)
        for _ in range(2):
            with self.assertRaisesRegex(bulkhead.Refused, "THREAD"):
                call()

    def test_permits_of_a_process_that_is_killed_are_free_at_once(self) -> None:
        self.start()
        client = self.client(settings=self.settings)
        call = client.command("catalog")(lambda: None)
        child = os.fork()
        if child == 0:
            try:
                gate = Gate()
                hold = self.client().command("catalog")(gate)
                for _ in range(10):
                    threading.Thread(target=hold, daemon=True).start()
                signal.pause()
            finally:
                os._exit(1)
        self.until(lambda: client.metrics("catalog").busy == 10)
        with self.assertRaises(bulkhead.SemaphoreRejected):
            call()
        os.kill(child, signal.SIGKILL)
        os.waitpid(child, 0)
        self.until(lambda: client.metrics("catalog").busy == 0, 1)
        self.assert_free(client)

    def test_processes_share_an_answer(self) -> None:
        self.start()
        client = self.client()
        ran = self.at / "ran"

        def look_up(item: str) -> int:
            with ran.open("a") as file:
                file.write(item)
            return 7

        call = client.command("catalog", key=lambda item: item, encode=str, decode=int)(look_up)
        with client.context() as context:
            self.assertEqual(call("lamp"), 7)
            child = os.fork()
            if child == 0:
                try:
                    with client.context(context.number):
                        os._exit(call("lamp"))
                finally:
                    os._exit(1)
            self.assertEqual(os.waitstatus_to_exitcode(os.waitpid(child, 0)[1]), 7)
        self.assertEqual(ran.read_text(), "lamp")
        self.assert_free(client)

    def test_who_waits_is_answered_where_the_process_that_runs_is_killed(self) -> None:
        self.start()
        client = self.client()
        call = client.command("catalog", key=lambda: 1, encode=str, decode=int)(lambda: 7)
        child = os.fork()
        if child == 0:
            try:
                own = self.client()
                hold = own.command("catalog", key=lambda: 1, encode=str, decode=int)(signal.pause)
                with own.context(5):
                    hold()
            finally:
                os._exit(1)
        self.until(lambda: client.metrics("catalog").busy == 1)
        killer = threading.Thread(target=self.kill_once, args=(client, child))
        killer.start()
        with client.context(5), self.assertRaises(bulkhead.Failed):
            call()
        killer.join()
        self.assert_free(client)

    def kill_once(self, client: bulkhead.Client, child: int) -> None:
        """Kills a process once another one shares its run."""
        self.until(lambda: client.metrics("catalog").response_from_cache == 1)
        os.kill(child, signal.SIGKILL)
        os.waitpid(child, 0)

    def test_a_run_that_is_slow_times_out(self) -> None:
        self.start()
        client = self.client(settings=self.settings)
        gate = Gate()
        call = client.command("report", fallback=lambda *, cause: type(cause).__name__)(gate)
        told: list[Any] = []
        thread = threading.Thread(target=lambda: told.append(call()))
        thread.start()
        self.until(lambda: client.metrics("report").timeout == 1)
        gate.open()
        thread.join()
        self.assertEqual(told, ["TimedOut"])
        self.assert_free(client)

    def test_coroutines_are_answered_at_their_timeout_and_cancelled(self) -> None:
        self.start()
        client = self.client(settings=self.settings)
        ends: list[str] = []

        async def slow() -> None:
            try:
                await asyncio.sleep(60)
            finally:
                ends.append("ended")

        async def main() -> None:
            call = client.command("report", fallback=lambda *, cause: type(cause).__name__)(slow)
            self.assertEqual(await asyncio.gather(*(call() for _ in range(5))), ["TimedOut"] * 5)
            task = asyncio.create_task(call())
            await asyncio.sleep(0)
            task.cancel()
            with self.assertRaises(asyncio.CancelledError):
                await task

        asyncio.run(main())
        self.assertEqual(ends, ["ended"] * len(ends))
        self.assertIn(len(ends), (5, 6))
        self.assertEqual(client.metrics("report").timeout, 5)
        self.assert_free(client)

    def test_a_service_that_ends_and_comes_again(self) -> None:
        service = self.start()
        client = self.client(when_unreachable="fallback")
        call = client.command("catalog", fallback=lambda *, cause: type(cause).__name__)(lambda: "run")
        self.assertEqual(call(), "run")
        self.assertEqual(self.stop(service), 0)
        self.assertEqual(call(), "Unreachable")
        self.start()
        self.until(lambda: call() == "run")

    def test_workers_do_what_is_queued(self) -> None:
        self.start()
        workers = [bulkhead.Worker(self.socket, "pool", {"pool": lambda arg: f"{arg}: done"}) for _ in range(2)]
        threads = [threading.Thread(target=worker.run) for worker in workers]
        for thread in threads:
            thread.start()
        link = Connection(str(self.socket), 10)
        self.addCleanup(link.close)
        for at in range(50):
            (placed,) = link.ask(b'{"op":"submit","group":"pool","arg":"item %d"}\n' % at)
            answer = link.wait(b'{"op":"collect","group":"pool","ticket":%d,"wait":true}\n' % placed["ticket"])
            self.assertEqual(answer, {"body": f"item {at}: done", "reply": "value"})
        for worker in workers:
            worker.stop()
        for thread in threads:
            thread.join(10)
            self.assertFalse(thread.is_alive())

    def test_a_record_of_calls_is_replayed_and_has_nothing_of_their_values(self) -> None:
        record = self.at / "record.jsonl"
        service = self.start("--socket", self.socket, "--record", record)
        client = self.client()
        call = client.command("catalog", fallback=lambda item, *, cause: f"no {item}")(lambda item: item[7])
        shared = client.command("report", key=lambda item: item, encode=str, decode=str)(lambda item: f"{item} is here")
        self.assertEqual((call("a secret"), call("secret")), ("t", "no secret"))
        with client.context():
            self.assertEqual(shared("lamp") + shared("lamp"), "lamp is here" * 2)
        client.close()
        self.assertEqual(self.stop(service), 0)
        lines = record.read_bytes()
        self.assertNotIn(b"secret", lines)
        self.assertEqual(lines.count(b"lamp is here"), 1)
        self.assertTrue(json.loads(lines.splitlines()[-1])["end"])
        replies = [json.loads(line) for line in replayed(self.settings, lines).splitlines()]
        self.assertEqual(len(replies), len(lines.splitlines()))
        self.assertEqual([reply for reply in replies if "error" in reply], [])
        self.assertEqual([reply["body"] for reply in replies if reply["reply"] == "value"], ["", *["lamp is here"] * 2])

    def test_each_block_of_the_page_prints_what_stands_below_it(self) -> None:
        page = Page(PAGE)
        self.settings.write_text(page.settings())
        self.addCleanup(os.chdir, Path.cwd())
        os.chdir(self.at)
        self.start()
        names, compared = page.run(self)
        self.assertEqual(compared, 4)
        for name in ("client", "other"):
            names[name].close()  # type: ignore[attr-defined]

    def test_the_example_shows_what_it_says(self) -> None:
        told = subprocess.run([sys.executable, EXAMPLE, PROGRAM], capture_output=True, text=True, check=False)
        self.assertEqual((told.returncode, told.stderr), (0, ""), told.stdout)
        self.assertEqual(told.stdout.splitlines()[-1], "as it should be")

    def test_threads_of_processes_share_the_service(self) -> None:
        self.start()
        client = self.client()
        call = client.command("catalog")(lambda value: value)
        children = []
        for _ in range(4):
            child = os.fork()
            if child == 0:
                try:
                    os._exit(0 if self.many(call) else 3)
                finally:
                    os._exit(1)
            children.append(child)
        self.assertEqual([os.waitstatus_to_exitcode(os.waitpid(child, 0)[1]) for child in children], [0] * 4)
        self.assertEqual(client.metrics("catalog").success, 4 * 2 * 200)
        self.assert_free(client)

    def many(self, call: Any) -> bool:
        """Two threads with calls of their own, each of which gets its own value."""
        told: list[bool] = []
        threads = [
            threading.Thread(target=lambda of=of: told.extend(call((of, at)) == (of, at) for at in range(200)))
            for of in range(2)
        ]
        for thread in threads:
            thread.start()
        for thread in threads:
            thread.join(30)
        return len(told) == 400 and all(told)
