"""Forks: a child's service is opened anew by its first call, or stopped where that was asked for."""

from __future__ import annotations

import asyncio
import json
import os
import signal
import subprocess
import sys
import threading
import traceback
import unittest
from collections.abc import Callable
from pathlib import Path
from typing import Any
from unittest import mock

import bulkhead
from support import SETTINGS, Case, Gate, needs_program, no_sleep, replayed

OPENING = SETTINGS + "\n[hystrix.command.permits.circuitBreaker]\nrequestVolumeThreshold = 1\n"
TASK = 'service.command.task.group = "permits"\nhystrix.command.task.execution.isolation.strategy = "SEMAPHORE"\n'
SHORT = SETTINGS + "\n[hystrix.command.default]\nexecution.isolation.thread.timeoutInMilliseconds = 20\n"


def in_child(act: Callable[[], Any]) -> Any:
    """What is given in a forked process, or the traceback of what was raised there."""
    reading, writing = os.pipe()
    child = os.fork()
    if not child:
        try:
            told: Any = [act()]
        except BaseException:
            told = traceback.format_exc()
        os.write(writing, json.dumps(told).encode())
        os._exit(0)
    os.close(writing)
    with os.fdopen(reading, "rb") as pipe:
        told = json.loads(pipe.read())
    os.waitpid(child, 0)
    if isinstance(told, str):
        raise AssertionError(told)
    return told[0]


def name_of(call: Callable[[], Any]) -> str:
    """The class of what a call raises."""
    try:
        return repr(call())
    except bulkhead.CommandError as error:
        return type(error).__name__


@unittest.skipUnless(hasattr(os, "fork"), "there is no fork")
class Reopened(Case):
    def test_the_first_call_opens_the_service_anew_with_fresh_counts(self) -> None:
        service = self.open()
        calls = [service.command(name)(lambda value: value + 1) for name in ("pool", "permits", "more")]
        for call in calls:
            call(1), call(2)
        told = in_child(lambda: [[call(3) for call in calls], [one.success for one in service.metrics().values()]])
        self.assertEqual(told, [[4, 4, 4], [1, 1, 1]])
        self.assertEqual([one.success for one in service.metrics().values()], [2, 2, 2])
        self.assertIn('runs_total{group="pool",command="pool",end="success"} 0\n', in_child(service.prometheus))

    def test_a_call_of_any_kind_is_the_first(self) -> None:
        service = self.open(TASK + SETTINGS)
        pooled = service.command("pool")(lambda: 7)

        @service.command("task")
        async def awaited() -> int:
            await asyncio.sleep(0)
            return 7

        pooled(), asyncio.run(awaited())
        acts = (pooled, lambda: pooled.queue().result(5), lambda: asyncio.run(pooled.run()), lambda: asyncio.run(awaited()))
        for act in acts:
            self.assertEqual(in_child(act), 7)
        self.assertEqual(in_child(lambda: service.metrics("pool").success), 0)
        self.assertEqual(in_child(service.expire), 0)
        self.assertTrue(in_child(lambda: [service.register("tenant-7", like="pool"), pooled.of("tenant-7")()]))

    def test_a_service_that_was_never_called_is_opened_in_each_child(self) -> None:
        service = self.open()
        call = service.command("pool")(os.getpid)
        told = [in_child(lambda: (call(), os.getpid())) for _ in range(3)]
        self.assertEqual([one for one, _ in told], [own for _, own in told])
        self.assertEqual(call(), os.getpid())

    def test_circuits_are_closed_anew(self) -> None:
        service, hand = self.by_hand(OPENING)
        command = service.command("permits", fallback=lambda fails, *, cause: type(cause).__name__)
        call = command(lambda fails: 1 // (not fails))
        call(True)
        hand.now = 600
        self.assertEqual(call(False), "ShortCircuited")
        self.assertEqual(in_child(lambda: (call(False), service.metrics("permits").circuit)), [1, "closed"])
        self.assertEqual((call(False), service.metrics("permits").circuit), ("ShortCircuited", "open"))

    def test_groups_that_were_registered_and_retired_are_so_again(self) -> None:
        service = self.open()
        call = service.command("pool")(lambda value: value)
        for name in ("tenant-1", "tenant-2", "tenant-3"):
            service.register(name, like="pool")
        self.assertTrue(service.retire("tenant-1"))
        self.assertTrue(service.retire("permits"))
        service.register("permits", like="pool")

        def act() -> list[Any]:
            names = [*service.metrics()]
            gone = name_of(lambda: call.of("tenant-1"))
            return [names, gone, [call.of(name)(7) for name in ("tenant-2", "tenant-3", "permits")]]

        names, gone, values = in_child(act)
        self.assertEqual(set(names), set(service.metrics()))
        self.assertEqual((gone, values), ("NoSuchGroup", [7, 7, 7]))
        self.assertEqual(in_child(lambda: in_child(act))[1:], ["NoSuchGroup", [7, 7, 7]])

    def test_properties_that_changed_are_changed_again(self) -> None:
        service, hand = self.by_hand()
        call = service.command("pool", fallback=lambda *, cause: type(cause).__name__)(lambda: 7)
        service.register("tenant-7", like="pool")
        service.tune("pool", coreSize=3)
        service.tune("tenant-7", circuitBreaker_forceOpen=True)
        hand.now = 5

        def act() -> list[Any]:
            return [call(), call.of("tenant-7")(), service.turns.groups["pool"].core_size]

        self.assertEqual(in_child(act), [7, "ShortCircuited", 3])
        self.assertEqual(in_child(lambda: in_child(act)), [7, "ShortCircuited", 3])

    def test_a_child_times_out_by_a_timer_of_its_own(self) -> None:
        service, gate = self.open(SHORT), Gate()
        call = service.command("pool")(gate)
        self.assertEqual(in_child(lambda: name_of(call)), "TimedOut")
        self.assertEqual(in_child(lambda: in_child(lambda: name_of(call))), "TimedOut")
        gate.open()

    def test_listeners_are_told_in_the_child(self) -> None:
        told: list[Any] = []
        changed: list[str] = []
        service, hand = self.by_hand(OPENING, on_transition=lambda *change: changed.append(change[2]))
        service.on_event(lambda event: told.append([event.kind, os.getpid()]), kinds=["failure", "short_circuited"])
        call = service.command("permits", fallback=lambda *, cause: 1)(lambda: 1 // 0)

        def act() -> list[Any]:
            hand.now = 0
            call()
            hand.now = 600
            call()
            self.until(lambda: len(told) == 2 and changed)
            return [told, changed, os.getpid()]

        kinds, changes, child = in_child(act)
        self.assertEqual((kinds, changes), ([["failure", child], ["short_circuited", child]], ["open"]))
        self.assertEqual((told, changed), ([], []))

    @needs_program
    def test_a_record_goes_on_in_a_file_of_the_childs_own(self) -> None:
        folder, service = self.folder(), self.open()
        record = service.record(folder / "record.jsonl", replies=folder / "replies.jsonl")
        call = service.command("pool")(lambda value: value)
        service.register("tenant-7", like="pool")
        call.of("tenant-7")(1)

        def act() -> list[Any]:
            call(1), call.of("tenant-7")(2)
            service.close()
            return [str(record.path), str(record.replies), record.is_whole, os.getpid()]

        path, replies, is_whole, child = in_child(act)
        self.assertEqual((path, replies), (str(folder / f"record-{child}.jsonl"), str(folder / f"replies-{child}.jsonl")))
        self.assertTrue(is_whole)
        call(3)
        service.close()
        self.assertTrue(record.is_whole)
        for one, answers in ((record.path, record.replies), (Path(path), Path(replies))):
            assert answers is not None
            lines = one.read_bytes()
            self.assertEqual(replayed(one.with_suffix(".toml"), lines), answers.read_bytes())
            self.assertIn(b'"register"', lines)
            self.assertEqual(lines.count(b'"submit"'), 2)
            self.assertIn(b'"record":"whole"', lines)

    def test_a_record_that_cannot_go_on_holds_no_call_up(self) -> None:
        folder, service = self.folder(), self.open()
        (folder / "within").mkdir()
        record = service.record(folder / "within" / "record.jsonl")
        call = service.command("pool")(lambda: 7)
        (folder / "within").rename(folder / "elsewhere")

        def act() -> list[Any]:
            hooked = self.hooked()
            return [call(), record.is_whole, type(record.error).__name__, len(hooked)]

        self.assertEqual(in_child(act), [7, False, "FileNotFoundError", 1])

    def test_a_child_may_begin_a_record_of_its_own(self) -> None:
        folder, service = self.folder(), self.open()
        call = service.command("pool")(lambda: 7)
        call()

        def act() -> bool:
            record = service.record(folder / "record.jsonl")
            call()
            service.close()
            return record.is_whole

        self.assertTrue(in_child(act))
        self.assertEqual((folder / "record.jsonl").read_bytes().count(b'"submit"'), 1)

    def test_a_call_that_forks_is_stopped_in_the_child_which_goes_on_then(self) -> None:
        for name in ("permits", "pool"):
            service = self.open()
            told: list[Any] = []

            def fork(inner: Callable[[], Any]) -> Any:
                told.append(in_child(inner))
                return 7

            call = service.command(name)(fork)
            other = service.command("more")(lambda: 8)
            # the child of a call makes calls of its own
            self.assertEqual(call(lambda: [other() for _ in range(3)]), 7)
            self.assertEqual(told, [[8, 8, 8]])
            self.assert_idle(service)

    def test_a_run_that_comes_back_in_the_child_ends_no_ticket_of_the_new_service(self) -> None:
        service, gate = self.open(), Gate()
        reading, writing = os.pipe()
        pooled = service.command("pool")(gate)

        @service.command("permits")
        def fork() -> int:
            if child := os.fork():
                os.waitpid(child, 0)
                return 7
            futures.append(pooled.queue(8))
            gate.wait()
            return 0  # of the parent's first ticket, as the one above is this service's

        futures: list[Any] = []
        parent = os.getpid()
        told = name_of(fork)
        if os.getpid() != parent:
            try:
                gate.open()
                os.write(writing, f"{told} {futures[0].result(5)}".encode())
            finally:
                os._exit(0)
        os.close(writing)
        self.assertEqual(told, "7")
        with os.fdopen(reading) as pipe:
            self.assertEqual(pipe.read(), "Stopped 8")

    def test_a_thread_that_waits_and_forks_in_a_signal_handler_is_stopped_in_the_child(self) -> None:
        service, gate, main = self.open(), Gate(), threading.get_ident()
        children: list[int] = []
        asked: list[bool] = []

        def handler(*_: Any) -> None:
            if not asked:
                asked.append(True)
                children.append(os.fork())

        before = signal.signal(signal.SIGUSR1, handler)
        self.addCleanup(signal.signal, signal.SIGUSR1, before)

        def act() -> int:
            while not asked:
                signal.pthread_kill(main, signal.SIGUSR1)
                no_sleep()  # a signal that comes just before the system is called wakes nobody
            gate()
            return 7

        call = service.command("pool")(act)
        threading.Thread(target=lambda: (self.until(lambda: children), gate.open())).start()
        told = name_of(call)
        if children == [0]:
            os._exit(0 if told == "Stopped" and call.of else 1)
        self.assertEqual((told, os.waitpid(children[0], 0)[1]), ("7", 0))

    def test_a_context_goes_on_in_the_child(self) -> None:
        service, runs = self.open(), []
        call = service.command("permits", key=lambda item: item)(lambda item: len(runs.append(item) or runs))
        with service.context():
            call("lamp")

            def act() -> list[Any]:
                told = [call("lamp"), call("lamp")]
                return [*told, service.metrics("permits").response_from_cache]

            self.assertEqual(in_child(act), [2, 2, 1])
            self.assertEqual(call("lamp"), 1)
        self.assert_idle(service)

    def test_a_child_that_makes_no_call_opens_nothing(self) -> None:
        service = self.open()

        def act() -> list[Any]:
            with mock.patch("bulkhead._reopening.StepService", side_effect=AssertionError("it was opened")):
                service.close()
                return [service.turns.is_open, name_of(service.command("pool")(lambda: 1))]

        self.assertEqual(in_child(act), [False, "Stopped"])

    def test_a_service_that_cannot_be_opened_anew_is_stopped(self) -> None:
        service = self.open()
        call = service.command("permits")(lambda: 1)

        def act() -> list[Any]:
            hooked = self.hooked()
            with mock.patch("bulkhead._reopening.StepService", side_effect=bulkhead.NoMemory):
                told = name_of(call)
            return [told, name_of(call), [one.exc_type.__name__ for one in hooked]]

        self.assertEqual(in_child(act), ["Stopped", "Stopped", ["NoMemory"]])
        self.assertEqual(call(), 1)

    def test_a_fork_in_the_midst_of_a_turn_leaves_a_child_that_is_stopped(self) -> None:
        children: list[int] = []
        service = self.open(clock=lambda: children.append(os.fork()) or 1 if not children else 1)
        call = service.command("permits")(lambda: 1)
        told = name_of(call)
        if children == [0]:
            os._exit(0 if name_of(call) == "Stopped" else 1)
        self.assertEqual((told, os.waitpid(children[0], 0)[1]), ("1", 0))

    def test_a_closed_service_stays_closed(self) -> None:
        service = self.open()
        call = service.command("permits")(lambda: 1)
        service.close()
        self.assertEqual(in_child(lambda: name_of(call)), "Stopped")

    def test_another_choice_is_refused(self) -> None:
        with self.assertRaises(bulkhead.Refused):
            bulkhead.open(text=SETTINGS, after_fork="go on")  # type: ignore[arg-type]

    def test_forks_while_other_threads_call(self) -> None:
        service, stop = self.open(), threading.Event()
        calls = [service.command(name)(lambda: 1) for name in ("pool", "permits")]

        def work() -> None:
            while not stop.is_set():
                for call in calls:
                    name_of(call)

        threads = [threading.Thread(target=work) for _ in range(4)]
        for thread in threads:
            thread.start()
        try:
            for _ in range(20):
                self.assertEqual(in_child(lambda: [call() for call in calls]), [1, 1])
        finally:
            stop.set()
            for thread in threads:
                thread.join()
        self.assert_idle(service)


class Stopped(Case):
    def run_python(self, program: str) -> subprocess.CompletedProcess[str]:
        words = [sys.executable, "-W", "ignore", "-c", program]
        return subprocess.run(words, capture_output=True, text=True, timeout=20, check=False, env=os.environ)

    def test_a_forked_child_is_stopped_and_its_parent_goes_on(self) -> None:
        path = self.folder() / "record.jsonl"
        ended = self.run_python(
            f"""
import os, sys
import bulkhead
service = bulkhead.open(text={SETTINGS!r}, after_fork="stop")
record = service.record({str(path)!r})
pooled, permitted = service.command("pool")(lambda: 1), service.command("permits")(lambda: 1)
pooled(), permitted()
child = os.fork()
if not child:
    for call in (pooled, permitted):
        try:
            call()
        except bulkhead.Stopped:
            continue
        os._exit(1)
    service.close()
    sys.exit(7)
print(os.waitstatus_to_exitcode(os.waitpid(child, 0)[1]), pooled(), permitted())
service.close()
print(record.is_whole)
"""
        )
        self.assertEqual((ended.returncode, ended.stdout, ended.stderr), (0, "7 1 1\nTrue\n", ""))
        lines = path.read_bytes().splitlines()
        self.assertEqual(len([line for line in lines if b'"submit"' in line]), 4)

    @unittest.skipUnless(hasattr(os, "fork"), "there is no fork")
    def test_forks_while_other_threads_call(self) -> None:
        service, stop = self.open(after_fork="stop"), threading.Event()
        calls = [service.command(name)(lambda: 1) for name in ("pool", "permits")]

        def work() -> None:
            while not stop.is_set():
                for call in calls:
                    try:
                        call()
                    except bulkhead.CommandError:
                        pass

        threads = [threading.Thread(target=work) for _ in range(4)]
        for thread in threads:
            thread.start()
        for _ in range(20):
            child = os.fork()
            if not child:
                try:
                    calls[1]()
                except bulkhead.Stopped:
                    os._exit(0)
                finally:
                    os._exit(1)
            self.assertEqual(os.waitpid(child, 0)[1], 0)
        stop.set()
        for thread in threads:
            thread.join()
        self.assert_idle(service)
