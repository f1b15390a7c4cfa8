"""Workers of a group under THREAD."""

from __future__ import annotations

import os
import signal
import subprocess
import sys
import threading
from typing import Any

import bulkhead
from bulkhead._connection import Connection
from share_support import ShareCase
from support import Gate

# a worker whose function forks a process that goes on, and is killed
FORKS = """
import os, signal, sys
import bulkhead

def function(arg):
    child = os.fork()
    if not child:
        signal.alarm(60)
        signal.pause()
    print(child, flush=True)
    os.kill(os.getpid(), signal.SIGKILL)

bulkhead.work(sys.argv[1], "catalog", {"catalog": function})
"""


class Workers(ShareCase):
    def setUp(self) -> None:
        super().setUp()
        self.fake.pools.add("catalog")
        self.link = Connection(str(self.fake.path), 10)
        self.addCleanup(self.link.close)

    def worker(self, function: Any, **options: Any) -> bulkhead.Worker:
        worker = bulkhead.Worker(self.fake.path, "catalog", {"catalog": function}, timeout=10, **options)
        self.addCleanup(worker.stop)
        return worker

    def asked(self, arg: str) -> dict[str, Any]:
        """The answer to a request, as a client in any language asks for it."""
        (placed,) = self.link.ask(b'{"op":"submit","group":"catalog","arg":"%s"}\n' % arg.encode())
        return self.link.wait(b'{"op":"collect","group":"catalog","ticket":%d,"wait":true}\n' % placed["ticket"])

    def test_a_run_is_what_its_argument_says(self) -> None:
        worker = self.worker(lambda arg: f"{arg}: 7 left")
        ended = self.in_thread(worker.run)
        self.assertEqual(self.asked("lamp"), {"reply": "value", "body": "lamp: 7 left"})
        self.assertEqual(self.asked("chair"), {"reply": "value", "body": "chair: 7 left"})
        self.fake.until(lambda: self.fake.ops().count("start") == 3)
        worker.stop()
        self.assertIsNone(ended())
        self.assertEqual({of for of, line in self.fake.lines if line["op"] in ("start", "finish")}, {2})
        self.assert_settled()

    def test_what_a_function_raises_fails_the_run(self) -> None:
        def run(arg: str) -> Any:
            if arg == "bad":
                raise bulkhead.BadRequest(arg)
            return {"number": 7, "long": "x" * 257}.get(arg) or 1 // 0

        self.in_thread(self.worker(run).run)
        with self.assertLogs("bulkhead", "WARNING"):
            for arg in ("down", "number", "long"):
                self.assertEqual(self.asked(arg), {"reply": "run-fallback", "cause": "failure"})
        self.assertEqual(self.asked("bad"), {"reply": "bad-request"})

    def test_a_command_without_a_function_fails(self) -> None:
        worker = bulkhead.Worker(self.fake.path, "catalog", {"report": str})
        self.addCleanup(worker.stop)
        self.in_thread(worker.run)
        with self.assertLogs("bulkhead", "WARNING") as told:
            self.assertEqual(self.asked("lamp"), {"reply": "run-fallback", "cause": "failure"})
        self.assertIn("no function for catalog", told.output[0])

    def test_an_interrupt_ends_the_run_and_the_worker(self) -> None:
        def leave(arg: str) -> str:
            raise KeyboardInterrupt

        ended = self.in_thread(self.worker(leave).run)
        self.assertEqual(self.asked("lamp"), {"reply": "bad-request"})
        self.assertIsInstance(ended(), KeyboardInterrupt)

    def test_a_worker_that_is_killed_leaves_no_connection_to_a_child_that_its_function_forked(self) -> None:
        begun = subprocess.Popen([sys.executable, "-c", FORKS, str(self.fake.path)], stdout=subprocess.PIPE, text=True)
        assert begun.stdout is not None
        answer = self.in_thread(self.asked, "lamp")
        child = int(begun.stdout.readline())
        self.addCleanup(begun.stdout.close)
        self.addCleanup(os.kill, child, signal.SIGKILL)
        self.assertEqual(begun.wait(10), -signal.SIGKILL)
        self.assertEqual(answer()["reply"], "error")
        self.fake.until(lambda: self.fake.open_now() == 1)

    def test_no_connection_is_inherited_by_a_program_that_is_executed(self) -> None:
        self.assertFalse(os.get_inheritable(self.link._socket.fileno()))

    def test_a_worker_is_stopped_behind_its_run(self) -> None:
        gate = Gate()
        worker = self.worker(lambda arg: gate(arg))
        ended, answer = self.in_thread(worker.run), self.in_thread(self.asked, "lamp")
        gate.wait()
        worker.stop()
        gate.open()
        self.assertEqual(answer(), {"reply": "value", "body": "lamp"})
        self.assertIsNone(ended())
        self.assert_settled()

    def test_a_connection_that_is_lost_is_opened_anew(self) -> None:
        with self.assertLogs("bulkhead", "WARNING"):
            worker = self.worker(lambda arg: arg)
            ended = self.in_thread(worker.run)
            self.fake.until(lambda: self.fake.last()["op"] == "start")
            self.fake.down()
            self.fake.up()
            self.link = Connection(str(self.fake.path), 10)
            self.addCleanup(self.link.close)
            self.assertEqual(self.asked("lamp"), {"reply": "value", "body": "lamp"})
        worker.stop()
        self.assertIsNone(ended())

    def test_a_worker_waits_for_a_service_that_is_not_there_and_can_be_stopped(self) -> None:
        self.fake.down()
        with self.assertLogs("bulkhead", "WARNING") as told:
            worker = self.worker(lambda arg: arg)
            ended = self.in_thread(worker.run)
            self.until(lambda: told.output)
            worker.stop()
            self.assertIsNone(ended())

    def test_a_group_that_is_not_there_or_is_worn_ends_it(self) -> None:
        with self.assertRaises(bulkhead.NoSuchGroup):
            bulkhead.work(self.fake.path, "nobody", {"nobody": str})
        self.fake.say("start", {"reply": "worn"})
        with self.assertRaises(bulkhead.Worn):
            bulkhead.work(self.fake.path, "catalog", {"catalog": str})

    def test_a_worker_has_functions(self) -> None:
        for functions in ({}, {"catalog": 7}):
            with self.assertRaises(bulkhead.Error):
                bulkhead.Worker(self.fake.path, "catalog", functions)  # type: ignore[dict-item]

    def test_a_client_asks_for_what_a_worker_does(self) -> None:
        worker = self.worker(lambda arg: f"{arg}: {7 // int(arg)}")
        ended = self.in_thread(worker.run)
        client = self.client()
        self.assertEqual(client.ask("catalog", "7"), "7: 1")
        with self.assertLogs("bulkhead", "WARNING"):
            self.assertIsInstance(self.told(client.ask, "catalog", "0"), bulkhead.Failed)
            self.assertEqual(client.ask("catalog", "0", fallback=lambda arg, *, cause: f"{arg}: {cause.cause}"), "0: failure")
        for arg in ("x" * 65, 7):
            with self.assertRaises(bulkhead.BadText):
                client.ask("catalog", arg)  # type: ignore[arg-type]
        self.fake.pools.clear()
        with self.assertRaisesRegex(bulkhead.Refused, "SEMAPHORE"):
            client.ask("catalog", "7")
        self.assert_settled()
        worker.stop()
        self.assertIsNone(ended())
        self.fake.down()
        self.assertIsInstance(self.told(client.ask, "catalog", "7"), bulkhead.Unreachable)

    def test_workers_take_each_run_once(self) -> None:
        lock, ran = threading.Lock(), []

        def run(arg: str) -> str:
            with lock:
                ran.append(arg)
            return arg

        for _ in range(4):
            self.in_thread(self.worker(run).run)
        for at in range(40):
            self.assertEqual(self.asked(str(at))["body"], str(at))
        self.assertEqual(ran, [str(at) for at in range(40)])
