"""Records, which the program answers as the service did."""

from __future__ import annotations

import json
import os
import threading
from collections.abc import Callable
from typing import Any
from unittest import mock

import bulkhead
from bulkhead._recording import Record
from support import SETTINGS, Case, needs_program, replayed


class Records(Case):
    def test_a_record_begins_before_the_first_step(self) -> None:
        service, folder = self.open(), self.folder()
        service.metrics("pool")
        with self.assertRaises(bulkhead.Error):
            service.record(folder / "record.jsonl")

    def test_a_record_has_neither_arguments_nor_values_nor_keys(self) -> None:
        folder, service = self.folder(), self.open()
        service.record(folder / "record.jsonl")
        call = service.command("pool", key=lambda item: item)(lambda item: item * 2)
        with service.context():
            call("secret")
        service.close()
        text = (folder / "record.jsonl").read_text()
        self.assertNotIn("secret", text)
        self.assertIn('"key":"0"', text)

    def test_the_settings_stand_beside_it(self) -> None:
        folder, service = self.folder(), self.open()
        service.record(folder / "record.jsonl")
        self.assertEqual((folder / "record.toml").read_text(), SETTINGS)

    def test_its_end_is_marked(self) -> None:
        folder, service = self.folder(), self.open()
        record = service.record(folder / "record.jsonl")
        service.command("permits")(lambda: 1)()
        service.close()
        self.assertTrue(record.is_whole)
        lines = [json.loads(line) for line in (folder / "record.jsonl").read_text().splitlines()]
        self.assertEqual((lines[-1]["op"], lines[-1]["record"]), ("read", "whole"))
        self.assertNotIn("record", lines[-2])

    def test_a_disk_that_fails_leaves_it_not_whole_and_disturbs_no_call(self) -> None:
        service = self.open()
        record = service.record(self.folder() / "record.jsonl", replies="/dev/full")
        call = service.command("permits")(lambda: 1)
        self.assertEqual([call() for _ in range(100)], [1] * 100)
        self.until(lambda: not record.is_whole)
        self.assertIsInstance(record.error, OSError)
        self.assertEqual(call(), 1)
        service.close()

    def test_a_disk_that_is_slow_holds_no_call_up(self) -> None:
        service, folder = self.open(), self.folder()
        os.mkfifo(folder / "replies")
        reader = os.open(folder / "replies", os.O_RDONLY | os.O_NONBLOCK)
        self.addCleanup(os.close, reader)
        record = service.record(folder / "record.jsonl", replies=folder / "replies")
        call = service.command("permits")(lambda: 1)
        for _ in range(2_000):  # some 200 kilobytes, of which the pipe takes 64
            call()
        self.until(lambda: record._in_hand)
        self.assertEqual([call() for _ in range(100)], [1] * 100)
        self.assertTrue(record.is_whole)
        os.set_blocking(reader, True)
        drain = threading.Thread(target=lambda: [*iter(lambda: os.read(reader, 1 << 16), b"")])
        drain.start()
        service.close()
        drain.join()
        self.assertTrue(record.is_whole)

    def stalled(self, **options: float) -> tuple[bulkhead.CommandService, Any, Callable[[], int]]:
        """A service whose record's file takes nothing more, its record and a call."""
        service, folder = self.open(), self.folder()
        os.mkfifo(folder / "replies")
        reader = os.open(folder / "replies", os.O_RDONLY | os.O_NONBLOCK)
        self.addCleanup(os.close, reader)
        record = service.record(folder / "record.jsonl", replies=folder / "replies", **options)
        call = service.command("permits")(lambda: 1)
        for _ in range(2_000):
            call()
        self.until(lambda: record._in_hand)
        return service, record, call

    def test_a_close_waits_for_a_file_that_stalls_until_its_time_is_over_and_tells_what_is_missing(self) -> None:
        service, record, call = self.stalled(timeout=0.01)
        with self.assertLogs("bulkhead", "WARNING") as told:
            service.close()
        self.assertFalse(record.is_whole)
        self.assertIsInstance(record.error, TimeoutError)
        self.assertGreater(record.unwritten, 1_000)
        self.assertIn(f"{record.unwritten} steps were not written", told.output[0])
        service.close()

    def test_a_fork_does_not_wait_for_a_file_that_stalls(self) -> None:
        service, record, call = self.stalled(timeout=0.01)
        child = os.fork()
        if not child:
            os._exit(7 if record.is_whole or record.unwritten else 0)
        self.assertEqual(os.waitpid(child, 0)[1], 0)
        with self.assertLogs("bulkhead", "WARNING"):
            service.close()

    def test_a_record_takes_no_step_beyond_its_bound(self) -> None:
        service, record, call = self.stalled(timeout=0.01)
        room = len(record.pending) + 100
        with mock.patch.object(Record, "ROOM", room):
            for _ in range(200):
                call()
            self.assertEqual(len(record.pending), room)
        self.assertFalse(record.is_whole)
        with self.assertLogs("bulkhead", "WARNING"):
            service.close()

    def test_three_files_are_three(self) -> None:
        service, folder = self.open(), self.folder()
        for path, replies in ((folder / "a.toml", None), (folder / "a", folder / "a"), (folder / "a", folder / "a.toml")):
            with self.assertRaises(bulkhead.Error):
                service.record(path, replies=replies)

    @needs_program
    def test_the_program_gives_the_replies_that_were_given(self) -> None:
        folder = self.folder()
        service, hand = self.by_hand(SETTINGS + "\n[hystrix.command.more.circuitBreaker]\nrequestVolumeThreshold = 2\n")
        service.record(folder / "record.jsonl", replies=folder / "replies.jsonl")

        def act(what: str) -> str:
            if what == "bad":
                raise bulkhead.BadRequest
            if what == "late":
                hand.now += 1500
                service.expire()
            return what if what != "fail" else str(1 // 0)

        calls = [
            service.command(name, key=lambda what: what, fallback=lambda what, *, cause: 1 // (what != "fail"))(act)
            for name in ("pool", "permits", "more")
        ]
        service.register("tenant-7", like="pool")
        calls += [calls[0].of("tenant-7"), calls[2].of("tenant-7")]
        for _ in range(3):
            for call in calls:
                with service.context():
                    for what in ("ok", "ok", "bad", "fail", "late"):
                        hand.now += 1
                        try:
                            call(what)
                        except (bulkhead.CommandError, bulkhead.BadRequest):
                            pass
            service.metrics()
        self.assertTrue(service.retire("tenant-7"))
        self.assertEqual(service.runs(), [])
        service.close()
        lines, replies = (folder / "record.jsonl").read_bytes(), (folder / "replies.jsonl").read_bytes()
        self.assertGreater(lines.count(b"\n"), 200)
        self.assertEqual(replayed(folder / "record.toml", lines), replies)
        self.assert_alone(folder, lines, replies)

    def assert_alone(self, folder: object, lines: bytes, replies: bytes) -> None:
        """The lines of one group alone get the same answers."""
        pairs = [*zip(lines.splitlines(keepends=True), replies.splitlines(keepends=True))]
        for name in ("pool", "permits", "tenant-7"):
            own = [pair for pair in pairs if json.loads(pair[0])["group"] == name]
            self.assertTrue(own)
            told = replayed(folder / "record.toml", b"".join(line for line, _ in own))  # type: ignore[operator]
            self.assertEqual(told, b"".join(reply for _, reply in own), name)
