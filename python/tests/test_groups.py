"""Groups that come and go."""

from __future__ import annotations

import contextlib
import json
import threading

import bulkhead
from support import SETTINGS, Case, Gate


class Groups(Case):
    def test_a_registered_group_has_the_commands_of_the_one_it_is_like(self) -> None:
        service = self.open()
        charge = service.command("pool")(lambda value: value)
        more = service.command("more")(lambda: threading.current_thread().name)
        service.register("tenant-7", like="pool")
        self.assertEqual(charge.of("tenant-7")(3), 3)
        self.assertEqual(more.of("tenant-7")(), "bulkhead-tenant-7-worker")
        self.assertEqual(charge.of("tenant-7").name, "tenant-7")
        self.assertEqual(service.metrics("tenant-7").success, 1)
        self.assertEqual(service.metrics("tenant-7/more").success, 1)
        self.assertEqual(service.metrics("pool").success, 0)
        self.assertEqual(set(service.metrics()), {"pool", "permits", "more", "tenant-7", "tenant-7/more"})
        self.assert_idle(service)

    def test_a_retired_group_is_there_no_more(self) -> None:
        service = self.open()
        charge = service.command("pool")(lambda: 1)
        service.register("tenant-7", like="pool")
        of = charge.of("tenant-7")
        self.assertEqual(of(), 1)
        self.assertTrue(service.retire("tenant-7"))
        for call in (of, of.queue(), lambda: charge.of("tenant-7"), lambda: service.retire("tenant-7")):
            with self.assertRaises(bulkhead.NoSuchGroup):
                call() if callable(call) else call.result(5)
        with self.assertRaises(bulkhead.NoSuchCommand):
            service.metrics("tenant-7")
        self.assertEqual(charge(), 1)

    def test_no_step_of_a_retired_group_is_handed_in(self) -> None:
        service, path = self.open(), self.folder() / "record.jsonl"
        service.record(path)
        call = service.command("pool", key=lambda: 1)(lambda: 1)
        service.register("tenant-7", like="pool")
        of = call.of("tenant-7")
        with service.context():
            of()
            self.assertTrue(service.retire("tenant-7"))
            for refused in (of, of.queue().result, lambda: service.retire("tenant-7")):
                with self.assertRaises(bulkhead.NoSuchGroup):
                    refused()
            with contextlib.suppress(bulkhead.NoSuchCommand):
                service.metrics("tenant-7")
            service.metrics()
        service.close()
        lines = [json.loads(line) for line in path.read_text().splitlines()]
        self.assertEqual([line["op"] for line in lines if line["group"] == "tenant-7"][-2:], ["collect", "retire"])

    def test_a_name_that_comes_again_is_another_group(self) -> None:
        service = self.open()
        charge = service.command("pool")(lambda: 1)
        service.register("tenant-7", like="pool")
        old = charge.of("tenant-7")
        old()
        self.assertTrue(service.retire("tenant-7"))
        service.register("tenant-7", like="pool")
        with self.assertRaises(bulkhead.NoSuchGroup):
            old()
        self.assertEqual(service.metrics("tenant-7").success, 0)
        self.assertEqual(charge.of("tenant-7")(), 1)

    def test_a_group_that_is_in_use_is_not_retired(self) -> None:
        service, gate = self.open(), Gate()
        charge = service.command("pool")(gate)
        service.register("tenant-7", like="pool")
        future = charge.of("tenant-7").queue()
        gate.wait()
        self.assertFalse(service.retire("tenant-7"))
        gate.open()
        future.result(5)
        self.until(lambda: service.retire("tenant-7"))

    def test_the_workers_of_a_retired_group_end(self) -> None:
        service = self.open()
        service.register("tenant-7", like="pool")
        service.command("pool")(lambda: 1).of("tenant-7")()
        service.retire("tenant-7")
        name = "bulkhead-tenant-7-worker"
        self.until(lambda: name not in [thread.name for thread in threading.enumerate()])

    def test_what_cannot_be_registered_is_refused(self) -> None:
        service = self.open()
        for name in ("pool", "more", "default", "a b", "x" * 33, "x" * 2000, "\ud800", ""):
            with self.assertRaises(bulkhead.Refused, msg=name):
                service.register(name, like="pool")
        with self.assertRaises(bulkhead.NoSuchGroup):
            service.register("tenant-7", like="more")
        with self.assertRaises(bulkhead.NoSuchGroup):
            service.retire("nobody")

    def test_a_command_is_not_of_a_group_unlike_its_own(self) -> None:
        service = self.open()
        charge = service.command("pool")(lambda: 1)
        with self.assertRaises(bulkhead.Refused):
            charge.of("permits")

    def test_a_context_that_outlives_a_group_ends(self) -> None:
        service = self.open()
        charge = service.command("pool", key=lambda: 1)(lambda: 1)
        service.register("tenant-7", like="pool")
        with service.context():
            charge()
            charge.of("tenant-7")()
            self.assertTrue(service.retire("tenant-7"))
        self.assert_idle(service)

    def test_a_group_of_the_settings_may_go_too(self) -> None:
        service = self.open(SETTINGS)
        charge = service.command("permits")(lambda: 1)
        charge()
        self.assertTrue(service.retire("permits"))
        with self.assertRaises(bulkhead.NoSuchGroup):
            charge()
        service.register("permits", like="permits")
        self.assertEqual(charge.of("permits")(), 1)
