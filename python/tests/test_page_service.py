"""The page of a real service: what is told without a step is what the core counts."""

from __future__ import annotations

import asyncio
import json
import os
import threading
import urllib.request
from collections.abc import Callable
from typing import Any

import bulkhead
from bulkhead import _words as words
from bulkhead._looks import CommandLook, GroupLook, look_at
from bulkhead.page import App, app
from bulkhead.page._state import state_json
from bulkhead.page._watch import watch_of
from page_support import PageCase
from support import SETTINGS, Gate, Hand

OPENING = SETTINGS + """
[hystrix.command.permits.circuitBreaker]
requestVolumeThreshold = 2
sleepWindowInMilliseconds = 1000
[hystrix.command.permits.metrics.healthSnapshot]
intervalInMilliseconds = 0
"""
ONE_SLOT = SETTINGS + "\n[hystrix.command.permits.fallback.isolation.semaphore]\nmaxConcurrentRequests = 1\n"


def fallen(*_: Any, cause: bulkhead.CommandError) -> str:
    """A fallback that names its cause."""
    return type(cause).__name__


class Bad:
    """What nothing is divided by."""

    def __rfloordiv__(self, _: int) -> int:
        raise bulkhead.BadRequest("no")


class Looks(PageCase):
    def group(self, service: bulkhead.CommandService, name: str) -> GroupLook:
        return next(group for group in look_at(service.turns) if group.name == name)

    def command(self, service: bulkhead.CommandService, name: str) -> CommandLook:
        return next(one for group in look_at(service.turns) for one in group.commands if one.name == name)

    def assert_totals(self, service: bulkhead.CommandService, group: str, command: str = "") -> None:
        """What is looked at is what the core counts, which a step tells."""
        look = self.command(service, command or group)
        told = service.totals(group, command or None)
        self.assertEqual(dict(zip(words.EVENTS, look.counted.totals())), {kind: getattr(told, kind) for kind in words.EVENTS})

    def test_each_kind_of_event_is_counted_as_the_core_does(self) -> None:
        service, hand = self.by_hand(OPENING.replace("requestVolumeThreshold = 2", "requestVolumeThreshold = 4"))
        ends: list[Callable[[], Any]] = []
        call = service.command("permits", fallback=fallen, key=lambda *_: 1)(lambda: ends[-1]())
        plain = service.command("more")(lambda value: 1 // value)

        def bad() -> None:
            raise bulkhead.BadRequest("no")

        def late() -> None:
            hand.now += 1500
            service.expire()

        for moment, end in enumerate((lambda: 7, bad, lambda: 1 // 0, late, lambda: 1 // 0, lambda: 1), 1):
            hand.now += moment
            ends.append(end)
            try:
                with service.context():
                    call(), call()
            except bulkhead.BadRequest:
                pass
            self.assert_totals(service, "permits")
        for value in (1, 0):
            try:
                plain(value)
            except bulkhead.Failed:
                pass
        service.tune("pool", "more", fallback_enabled=False)
        with self.assertRaises(bulkhead.Failed):
            plain(0)
        self.assert_totals(service, "pool", "more")
        look = self.command(service, "permits").counted.totals()
        for kind in ("success", "bad_request", "failure", "timeout", "response_from_cache", "short_circuited", "fallback_success"):
            self.assertGreater(look[words.EVENTS.index(kind)], 0, kind)

    def test_fallbacks_that_fail_or_are_too_many_are_counted(self) -> None:
        service, gate = self.open(ONE_SLOT), Gate()

        def within(*, cause: bulkhead.CommandError) -> Any:
            return gate()

        call = service.command("permits", fallback=within)(lambda: 1 // 0)
        thread = threading.Thread(target=call)
        thread.start()
        gate.wait()
        with self.assertRaises(bulkhead.Failed):
            call()
        gate.open()
        thread.join()
        self.assert_totals(service, "permits")
        failing = service.command("more", fallback=lambda *, cause: 1 // 0)(lambda: 1 // 0)
        with self.assertRaises(bulkhead.Failed):
            failing()
        self.assert_totals(service, "pool", "more")
        self.assertEqual(self.command(service, "permits").counted.totals()[words.EVENTS.index("fallback_rejection")], 1)

    def test_rejections_and_a_full_group_are_counted(self) -> None:
        service, gate = self.open(), Gate()
        call = service.command("pool", fallback=fallen)(gate)
        futures = [call.queue() for _ in range(4)]
        gate.wait(2)
        self.assertEqual(call(), "PoolRejected")
        look = self.group(service, "pool")
        self.assertEqual((look.commands[0].busy, look.commands[0].queued, look.free), (2, 2, 60))
        gate.open()
        for future in futures:
            future.result(5)
        self.assert_totals(service, "pool")
        self.until(lambda: self.group(service, "pool").free == 64)

    def test_what_is_busy_queued_and_free_is_what_the_core_says(self) -> None:
        service, hand = self.by_hand()
        gate = Gate()
        call = service.command("pool", fallback=fallen)(gate)
        futures = [call.queue() for _ in range(3)]
        gate.wait(2)
        hand.now = 5000
        self.assertEqual(service.expire(), 3)
        self.assertEqual([future.result(5) for future in futures], ["TimedOut"] * 3)
        for _ in range(2):  # the runs go on behind their timeout
            look, told = self.group(service, "pool"), service.metrics("pool")
            self.assertEqual((look.commands[0].busy, look.commands[0].queued, look.free), (told.busy, told.queued, told.free))
            if told.busy:
                self.assertEqual((told.busy, told.free), (2, 62))
                gate.open()
                self.until(lambda: not self.command(service, "pool").busy)

    def test_slots_that_cached_answers_hold_are_not_free(self) -> None:
        service = self.open()
        call = service.command("permits", key=lambda value: value)(lambda value: value)
        with service.context():
            call(1), call(2), call(1)
            self.assertEqual((self.group(service, "permits").free, service.metrics("permits").free), (62, 62))
        self.assertEqual((self.group(service, "permits").free, service.metrics("permits").free), (64, 64))

    def test_a_coroutine_that_timed_out_is_busy_until_it_ends(self) -> None:
        service, hand = self.by_hand()

        @service.command("permits", fallback=fallen)
        async def slow() -> None:
            await asyncio.sleep(60)

        async def main() -> Any:
            task = asyncio.ensure_future(slow())
            while not service.runs():
                await asyncio.sleep(0)
            hand.now = 5000
            service.expire()
            return await asyncio.wait_for(task, 10)

        self.assertEqual(asyncio.run(main()), "TimedOut")
        self.until(lambda: not self.command(service, "permits").busy)
        self.assertEqual(service.metrics("permits").busy, 0)

    def test_no_look_makes_a_step(self) -> None:
        service = self.open("service.auditSteps = 3\n" + SETTINGS)
        watch = watch_of(service)
        for _ in range(20):
            look_at(service.turns)
            state_json(watch, 0, "")
        self.assertEqual(service.command("permits")(lambda: 7)(), 7)


class Circuits(PageCase):
    def told(self, service: bulkhead.CommandService, name: str) -> Any:
        watch = watch_of(service)
        watch.look()
        groups = json.loads(state_json(watch, 0, ""))["groups"]
        return next(command for group in groups for command in group["commands"] if command["name"] == name)

    def broken(self, hand: Hand, service: bulkhead.CommandService) -> Callable[[object], Any]:
        """A command whose circuit breaker opened at 1,000. It divides by what it is given."""
        call: Callable[[object], Any] = service.command("permits", fallback=fallen)(lambda by: 1 // by)
        watch_of(service)
        hand.now = 1000
        call(0), call(0)
        self.assertEqual(call(0), "ShortCircuited")
        return call

    def test_a_circuit_tells_since_when_and_when_its_test_comes(self) -> None:
        service, hand = self.by_hand(OPENING)
        call = self.broken(hand, service)
        told = self.told(service, "permits")
        self.assertEqual((told["circuit"], told["since"], told["opened"], told["percent"]), ("open", 1000, 1000, 100))
        self.assertEqual(told["columns"]["opened"], [1])
        hand.now = 2500
        self.assertEqual(call(1), 1)
        hand.now = 3000
        told = self.told(service, "permits")
        self.assertEqual((told["circuit"], told["since"], told["opened"], told["total"]), ("closed", 2500, None, 0))
        self.assertEqual(told["columns"]["circuit"], [["open", 1], ["closed", 2]])

    def test_a_test_call_that_fails_opens_it_once_more(self) -> None:
        service, hand = self.by_hand(OPENING)
        call = self.broken(hand, service)
        hand.now = 2200
        self.assertEqual((call(0), call(1)), ("Failed", "ShortCircuited"))
        told = self.told(service, "permits")
        self.assertEqual((told["circuit"], told["since"], told["opened"]), ("open", 1000, 2200))
        self.assertEqual(sum(told["columns"]["opened"]), 2)

    def test_a_test_call_that_finds_the_request_bad_leaves_it_open_as_it_was(self) -> None:
        service, hand = self.by_hand(OPENING)
        call = self.broken(hand, service)
        hand.now = 2200
        with self.assertRaises(bulkhead.BadRequest):
            call(Bad())
        told = self.told(service, "permits")
        self.assertEqual((told["circuit"], told["opened"], sum(told["columns"]["opened"])), ("open", 1000, 1))
        self.assertEqual(call(1), 1)

    def test_a_circuit_that_is_held_open_is_told_so_everywhere(self) -> None:
        service, hand = self.by_hand()
        watch_of(service)
        service.tune("permits", circuitBreaker_forceOpen=True)
        hand.now = 1000
        self.assertEqual(self.told(service, "permits")["circuit"], "forced-open")
        labels = 'group="permits",command="permits"'
        text = service.prometheus()
        self.assertIn(f'bulkhead_circuit_state{{{labels},state="forced-open"}} 1\n', text)
        self.assertIn(f'bulkhead_circuit_state{{{labels},state="closed"}} 0\n', text)
        service.tune("permits", circuitBreaker_forceOpen=False)
        hand.now = 2000
        self.assertEqual(self.told(service, "permits")["circuit"], "closed")

    def test_one_that_is_switched_off_is_not_held_open(self) -> None:
        service, _ = self.by_hand()
        service.tune("permits", circuitBreaker_forceOpen=True, circuitBreaker_enabled=False)
        self.assertIn('command="permits",state="forced-open"} 0\n', service.prometheus())


class Served(PageCase):
    def read(self, url: str) -> bytes:
        with urllib.request.urlopen(url, timeout=10) as answer:
            body: bytes = answer.read()
        return body

    def test_a_service_serves_its_page_and_metrics(self) -> None:
        service = self.open()
        call = service.command("permits")(lambda: 7)
        with service.serve_metrics(0) as server:
            call()
            self.until(lambda: json.loads(self.read(server.url + "state.json"))["columns"]["next"] > 1)
            self.assertIn(b"<title>bulkhead</title>", self.read(server.url))
            self.assertEqual(self.read(server.url + "healthz"), b"ok\n")
            self.assertIn(b'bulkhead_runs_total{group="permits",command="permits",end="success"} 1\n', self.read(server.url + "metrics"))
            self.assertIn(b'"type":"HystrixCommand"', self.read(server.url + "hystrix.stream"))

    def test_an_app_and_a_server_share_one_history(self) -> None:
        service = self.open()
        with service.serve_metrics(0) as server:
            made = app(service)
            self.assertIsInstance(made, App)
            self.assertIs(made.watch, server.watch)

    def test_a_service_that_is_closed_is_told(self) -> None:
        service, hand = self.by_hand()
        with service.serve_metrics(0) as server:
            service.close()
            hand.now = 5000
            self.assertEqual(self.ask(server, "/healthz").status, 503)
            self.assertEqual(self.ask(server, "/state.json").status, 200)
        for call in (lambda: service.serve_metrics(0), lambda: app(service)):
            with self.assertRaises(bulkhead.Stopped):
                call()

    def test_a_forked_process_has_a_history_and_counts_of_its_own(self) -> None:
        service = self.open()
        call = service.command("permits")(lambda: 7)
        call(), call()
        server = service.serve_metrics(0)
        self.addCleanup(server.close)
        made, before = app(service), watch_of(service).run
        read_end, write_end = os.pipe()
        child = os.fork()
        if not child:
            told = self.child(made, call)
            os.write(write_end, json.dumps(told).encode())
            os._exit(0)
        os.close(write_end)
        with os.fdopen(read_end, "rb") as file:
            run, counted = json.loads(file.read())
        os.waitpid(child, 0)
        self.assertNotEqual(run, before)
        self.assertEqual(counted, 1)
        self.assertEqual(watch_of(service).run, before)
        self.assertEqual(self.ask(server, "/healthz").status, 200)

    def child(self, made: App, call: Callable[[], Any]) -> Any:
        call()
        environ = {"REQUEST_METHOD": "GET", "PATH_INFO": "/state.json", "HTTP_HOST": "localhost", "QUERY_STRING": ""}
        told = json.loads(b"".join(made.wsgi(environ, lambda *_: None)))
        group = next(group for group in made.watch.groups if group.look.name == "permits")
        return told["run"], group.commands[0].look.counted.totals()[words.EVENTS.index("success")]
