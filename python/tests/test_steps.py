"""The service step by step."""

from __future__ import annotations

import gc
import resource
import threading
import unittest

import bulkhead
from bulkhead import BadLine, BadStep, Error, NoSuchCommand, NoSuchGroup, NotOpen, Refused, Service

SETTINGS = b"""
service.groups = ["catalog", "payment"]
service.command.refund.group = "payment"
hystrix.threadpool.payment.coreSize = 1
"""


class Steps(unittest.TestCase):
    def setUp(self) -> None:
        self.service = Service(SETTINGS)
        self.addCleanup(self.service.close)

    def test_a_request_is_answered_step_by_step(self) -> None:
        step = self.service.step
        ticket = step("submit", group="payment", now=0, text="order 3").number
        self.assertEqual(ticket, 1)
        assigned = step("start", group="payment", now=1)
        self.assertEqual((assigned.kind, assigned.number, assigned.text, assigned.command), ("assigned", 1, "order 3", 0))
        self.assertEqual(step("finish", group="payment", now=20, ticket=1, text="paid é").kind, "done")
        value = step("collect", group="payment", now=20, ticket=1)
        self.assertEqual((value.kind, value.text, value.number), ("value", "paid é", None))

    def test_a_command_is_named_or_numbered(self) -> None:
        self.assertEqual(self.service.command("payment", "refund"), 1)
        for command, kind in (("refund", "queued"), (1, "fallback-due")):
            self.assertEqual(self.service.step("submit", "payment", 0, command=command).kind, kind)
        self.assertEqual(self.service.step("read", "payment", 0, command=7).kind, "no-command")
        self.assertEqual(self.service.step("read", 9, 0).kind, "no-group")

    def test_metrics_have_their_names(self) -> None:
        metrics = self.service.step("read", "catalog", 0).metrics
        assert metrics is not None
        self.assertEqual((metrics["circuit"], metrics["free"], metrics["success"]), ("closed", 64, 0))

    def test_numbers_out_of_their_range_are_bad_steps(self) -> None:
        for name in ("group", "now", "ticket", "context"):
            for number in (-1, 1 << 64):
                given = {"operation": "collect", "group": 0, "now": 0} | {name: number}
                given |= {"operation": "close"} if name == "context" else {}
                with self.assertRaises(BadStep, msg=f"{name}={number}"):
                    self.service.step(**given)  # type: ignore[arg-type]
        for number in (-1, 256):
            with self.assertRaises(BadStep):
                self.service.step("read", "catalog", 0, command=number)
        self.assertEqual(self.service.step("read", "catalog", (1 << 64) - 1).kind, "metrics")

    def test_a_bad_step_leaves_the_clock_of_the_group(self) -> None:
        with self.assertRaises(BadStep):
            self.service.step("read", "catalog", -1)
        self.service.step("submit", "catalog", 5)
        self.assertEqual(self.service.step("expire", "catalog", 1004).number, 0)
        self.assertEqual(self.service.step("expire", "catalog", 1005).number, 1)

    def test_wrong_types_are_errors_of_the_package(self) -> None:
        for given in ({"group": 1.0}, {"now": "0"}, {"now": True}, {"text": b"x"}, {"text": 1}, {"ticket": None}):
            with self.assertRaises(Error, msg=str(given)):
                self.service.step(**({"operation": "submit", "group": 0, "now": 0} | given))  # type: ignore[arg-type]
        for call in (self.service.line, Service):
            with self.assertRaises(Error):
                call("text")  # type: ignore[arg-type]
        with self.assertRaises(Error):
            self.service.step(7, 0, 0)  # type: ignore[arg-type]

    def test_a_context_with_submit_is_refused_with_the_word_that_is_meant(self) -> None:
        for given in ({"context": 1}, {"key": "k"}):
            with self.assertRaisesRegex(BadStep, "submit-shared"):
                self.service.step("submit", "catalog", 0, **given)  # type: ignore[arg-type]
        self.assertEqual(self.service.step("submit-shared", "catalog", 0, context=1, key="k").kind, "queued")
        self.assertEqual(self.service.step("submit-shared", "catalog", 0, context=1, key="k").kind, "joined")
        self.assertEqual(self.service.step("close", "catalog", 0, context=1).number, 1)

    def test_texts_that_are_too_long_or_no_texts_are_bad_steps(self) -> None:
        for given in ({"text": "x" * 65}, {"text": "\ud800"}):
            with self.assertRaises(BadStep):
                self.service.step("submit", "catalog", 0, **given)  # type: ignore[arg-type]
        with self.assertRaises(BadStep):
            self.service.step("submit-shared", "catalog", 0, context=1, key="é" * 17)
        with self.assertRaises(BadStep):
            self.service.step("none", "catalog", 0)

    def test_names_that_nothing_has_are_told(self) -> None:
        with self.assertRaises(NoSuchGroup):
            self.service.step("read", "nobody", 0)
        with self.assertRaises(NoSuchCommand):
            self.service.step("read", "catalog", 0, command="refund")

    def test_lines_are_answered_as_by_the_program(self) -> None:
        self.assertEqual(self.service.line(b'{"op":"start","group":"catalog","now":0}'), b'{"reply":"idle"}\n')
        self.assertEqual(self.service.line(b"nothing"), b'{"error":"syntax"}\n')
        for line in (b"x" * 1025, b"\xff"):
            with self.assertRaises(BadLine):
                self.service.line(line)

    def test_what_is_in_force_is_told(self) -> None:
        self.assertIn(b"payment coreSize 1\n", self.service.check())

    def test_settings_that_are_refused_tell_why(self) -> None:
        with self.assertRaises(Refused) as refused:
            Service(b"service.groups = []")
        self.assertEqual(str(refused.exception), "settings refused: 2 no groups")

    def test_a_closed_service_is_not_open_everywhere(self) -> None:
        self.service.close()
        self.service.close()
        calls = (
            lambda: self.service.step("read", 0, 0),
            lambda: self.service.line(b"x"),
            self.service.check,
            lambda: self.service.group("catalog"),
            lambda: self.service.command(0, "catalog"),
        )
        for call in calls:
            with self.assertRaises(NotOpen):
                call()

    def test_the_library_tells_an_empty_handle(self) -> None:
        from ctypes import byref

        library, held = bulkhead._library.library, bulkhead._library.Held()
        step, reply = bytes(bulkhead._library.STEP_SIZE), bytes(bulkhead._library.REPLY_SIZE)
        self.assertEqual(library.bulkhead_make_step(byref(held), step, reply), 10)
        self.assertEqual(library.bulkhead_close(byref(held)), 10)

    def test_a_service_that_is_dropped_gives_its_memory_back(self) -> None:
        def peak() -> int:
            for _ in range(30):
                Service(SETTINGS)
            gc.collect()
            return resource.getrusage(resource.RUSAGE_SELF).ru_maxrss

        peak()
        before = peak()
        for _ in range(10):
            after = peak()
        self.assertLess(after - before, 4_000, "kilobytes")

    def test_any_thread_may_call(self) -> None:
        kinds: list[str] = []

        def work() -> None:
            for _ in range(200):
                kinds.append(self.service.step("read", "catalog", 0).kind)

        threads = [threading.Thread(target=work) for _ in range(8)]
        for thread in threads:
            thread.start()
        for thread in threads:
            thread.join()
        self.assertEqual(kinds, ["metrics"] * 1600)

    def test_a_property_changes_and_totals_are_told(self) -> None:
        settings = b'service = {groups = ["pool"], command.more.group = "pool"}'
        with bulkhead.Service(settings) as service:
            told = service.step("tune", "pool", 0, text="circuitBreaker.forceOpen", context=1, command="more")
            self.assertEqual(told, bulkhead.Reply("tuned"))
            self.assertEqual(service.step("submit", "pool", 1, command="more").cause, "short-circuited")
            totals = service.step("totals", "pool", 2, command="more").totals
            assert totals is not None
            self.assertEqual({kind: count for kind, count in totals.items() if count}, {"short_circuited": 1})
            for text, value in (("maxQueueSize", 7), ("coreSize", 65), ("circuitBreaker.forceOpen", 2)):
                with self.assertRaises(bulkhead.Refused):
                    service.step("tune", "pool", 3, text=text, context=value)
            with self.assertRaises(bulkhead.BadStep):
                service.step("tune", "pool", 3, text="x" * 65)
