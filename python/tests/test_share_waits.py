"""How long a client waits for a service, and what it keeps meanwhile."""

from __future__ import annotations

import asyncio
from typing import Any
from unittest import mock

import bulkhead
from fake_share import FALLBACK_DUE
from share_support import Moment, ShareCase
from support import Gate


class Kept(ShareCase):
    def test_a_connection_that_is_not_used_for_a_second_is_given_up(self) -> None:
        client = self.client()
        call = client.command("catalog", key=lambda: 1, encode=str, decode=int)(lambda: 7)
        with client.context():
            call()
            self.assertEqual(self.fake.open_now(), 2)
            self.clock.now += 0.5
            self.assertEqual(client._links.give_up_unused(), 0.5)
            call()
            self.clock.now += 0.75
            self.assertEqual(client._links.give_up_unused(), 0.25)
            self.assertEqual(self.fake.open_now(), 2)
            self.clock.now += 0.25
            self.assertIsNone(client._links.give_up_unused())
            self.fake.until(lambda: self.fake.open_now() == 1)
            self.assertEqual(call(), 7)

    def test_nobody_has_to_call_for_it(self) -> None:
        client = bulkhead.connect(self.fake.path)
        self.addCleanup(client.close)
        call = client.command("catalog", key=lambda: 1, encode=str, decode=int)(lambda: 7)
        with mock.patch("bulkhead._links.KEPT_FOR", 0.01), client.context():
            call()
            self.fake.until(lambda: self.fake.open_now() == 1)

    def test_without_a_thread_to_look_after_them_none_is_kept(self) -> None:
        client = self.client()
        call = client.command("catalog", key=lambda: 1, encode=str, decode=int)(lambda: 7)
        with mock.patch("bulkhead._upkeep.Upkeep.begin", return_value=False), client.context():
            self.assertEqual((call(), call()), (7, 7))
            self.fake.until(lambda: self.fake.open_now() == 1)


class Waits(ShareCase):
    """Waits for another process: of a service that is there, of one that stands still, and of a client that is closed."""

    def setUp(self) -> None:
        super().setUp()
        self.gate = Gate()
        self.addCleanup(self.gate.open)

    def groups(self) -> int:
        """How often the service was asked for the names of its groups."""
        return sum(line["op"] == "groups" for _, line in self.fake.lines)

    def stand_still(self) -> None:
        """The service answers nothing more, as one that is stopped by a signal."""
        self.fake.held |= {"groups", "collect", "submit"}

    def test_a_wait_for_a_service_that_stands_still_ends(self) -> None:
        self.fake.pools.add("catalog")
        asked = self.in_thread(self.client(timeout=0.2).ask, "catalog", "lamp")
        self.fake.until(lambda: self.fake.last()["op"] == "collect")
        self.stand_still()
        self.assertIsInstance(asked(), bulkhead.Unreachable)

    def test_a_wait_for_a_service_that_is_there_goes_on(self) -> None:
        self.fake.pools.add("catalog")
        asked = self.in_thread(self.client(timeout=0.5).ask, "catalog", "lamp")
        self.fake.until(lambda: self.groups() > 3)
        worker = bulkhead.Worker(self.fake.path, "catalog", {"catalog": str.upper})
        self.addCleanup(worker.stop)
        self.in_thread(worker.run)
        self.assertEqual(asked(), "LAMP")

    def test_a_wait_ends_by_the_commands_own_timeout_where_that_is_shorter(self) -> None:
        client = self.client(timeout=60)
        call = client.command("catalog")(lambda: 7)
        self.assertEqual(call._call((), {}).look_for_service().period, 30)
        call._body.place.limit = 400
        self.assertEqual(call._call((), {}).look_for_service().period, 0.2)

    def waiting(self, client: bulkhead.Client) -> Any:
        """A coroutine that waits for the answer of another process."""
        call = client.command("catalog", key=lambda: 1, encode=str, decode=int)

        @call
        async def shared() -> int:
            return 8

        async def wait() -> Any:
            with client.context(9):
                try:
                    return await shared()
                except bulkhead.CommandError as error:
                    return type(error)

        return wait

    def test_a_coroutine_waits_no_longer_either(self) -> None:
        self.runs()
        asked = self.in_thread(asyncio.run, self.waiting(self.client(timeout=0.2))())
        self.fake.until(lambda: self.fake.last()["op"] == "collect")
        self.stand_still()
        self.assertIs(asked(), bulkhead.Unreachable)

    def test_a_coroutine_that_waits_ends_with_its_client(self) -> None:
        self.runs()
        client = self.client()
        asked = self.in_thread(asyncio.run, self.waiting(client)())
        self.fake.until(lambda: self.fake.last()["op"] == "collect")
        client.close()
        self.assertIn(asked(), (bulkhead.Unreachable, bulkhead.Stopped))

    def runs(self) -> None:
        """Has another process run what is shared, and go on."""
        other = self.client()
        call = other.command("catalog", key=lambda: 1, encode=str, decode=int)(lambda: self.gate(7))

        def within() -> int:
            with other.context(9):
                value: int = call()
                return value

        self.in_thread(within)
        self.gate.wait()


class Late(ShareCase):
    """Answers that come later than `timeout=`, over the connection that the calls of a process share."""

    def setUp(self) -> None:
        self.clock, self.fake = Moment(), self.service(commands=("report", "more"))
        self.late = self.client(timeout=0.25)
        self.gate = Gate()
        self.addCleanup(self.gate.open)
        self.quick = self.late.command("catalog")(lambda: 7)
        self.slow = self.late.command("report", fallback=lambda value, *, cause: "later")(self.gate_or_fail)
        self.gate.open()
        self.assertEqual((self.quick(), self.slow(1)), (7, 1))
        self.gate = Gate()
        self.connections = self.fake.connections

    def gate_or_fail(self, value: int) -> int:
        self.gate()
        return value if value else 1 // value

    def assert_caught_up(self) -> None:
        """Nothing is late any more, nobody has anything, and calls go on over the same connection."""
        link = self.late._links._shared
        assert link is not None
        self.until(lambda: not link.is_late)
        self.assert_settled()
        self.assertEqual(self.quick(), 7)
        self.assertEqual(self.fake.connections, self.connections)
        self.assert_settled()

    def test_what_a_submit_got_whose_answer_is_late_is_given_back(self) -> None:
        for answer in (None, FALLBACK_DUE, {"reply": "group-full"}):
            self.fake.held.add("submit")
            if answer:
                self.fake.say("submit", answer)
            self.assertIsInstance(self.told(self.quick), bulkhead.Unreachable)
            self.fake.let_go("submit")
            self.assert_caught_up()

    def test_runs_that_go_on_are_told_their_end(self) -> None:
        run = self.in_thread(self.slow, 8)
        self.gate.wait()
        number = max(self.fake.tickets)
        self.fake.held.add("submit")
        self.assertIsInstance(self.told(self.quick), bulkhead.Unreachable)
        self.fake.let_go("submit")
        self.gate.open()
        self.assertEqual(run(), 8)
        self.assert_caught_up()
        self.assertEqual(self.fake.tickets[number].answer, {"reply": "value", "body": ""})

    def test_a_run_whose_end_is_answered_late_has_its_own_value_and_is_no_failure(self) -> None:
        self.gate.open()
        self.fake.held.add("finish")
        self.assertEqual(self.slow(8), 8)
        number = max(self.fake.tickets)
        self.fake.let_go("finish")
        self.assert_caught_up()
        self.assertEqual(self.fake.tickets[number].answer, {"reply": "value", "body": ""})

    def test_a_failure_that_is_answered_late_has_failed_and_owes_no_fallback(self) -> None:
        self.gate.open()
        self.fake.held.add("fail")
        self.assertIsInstance(self.told(self.slow, 0), bulkhead.Failed)
        self.fake.let_go("fail")
        self.assert_caught_up()

    def test_an_answer_that_is_collected_late_leaves_nothing(self) -> None:
        self.gate.open()
        for value in (8, 0):
            self.fake.held.add("collect")
            if value:
                self.assertEqual(self.slow(value), value)
            else:
                self.assertIsInstance(self.told(self.slow, value), bulkhead.Failed)
            self.fake.let_go("collect")
            self.assert_caught_up()

    def test_a_fallback_whose_end_is_answered_late_has_its_own_value(self) -> None:
        self.gate.open()
        self.fake.held.add("fallback")
        self.assertEqual(self.slow(0), "later")
        self.fake.let_go("fallback")
        self.assert_caught_up()

    def test_an_end_that_cannot_be_sent_in_time_is_sent_later(self) -> None:
        run = self.in_thread(self.slow, 8)
        self.gate.wait()
        number = max(self.fake.tickets)
        self.fake.held.add("submit")
        late = self.in_thread(self.told, self.quick)
        self.fake.until(lambda: self.fake.last()["op"] == "submit")
        self.gate.open()
        self.assertEqual(run(), 8)
        self.assertIsInstance(late(), bulkhead.Unreachable)
        self.assertNotIn("finish", self.fake.ops()[-1:])
        self.fake.let_go("submit")
        self.assert_caught_up()
        self.assertEqual(self.fake.tickets[number].answer, {"reply": "value", "body": ""})

    def test_the_end_of_a_context_is_told_once_it_can_be(self) -> None:
        call = self.late.command("more", key=lambda: 1, encode=str, decode=int)(lambda: 7)
        with self.late.context():
            call()
            self.fake.held |= {"submit", "close"}
            self.assertIsInstance(self.told(self.quick), bulkhead.Unreachable)
        self.fake.let_go("submit")
        self.fake.let_go("close")
        self.fake.until(lambda: "close" in self.fake.ops())
        self.fake.until(lambda: all(ticket.name is None for ticket in self.fake.tickets.values()))

    def test_while_an_answer_is_late_nothing_is_asked_until_a_pause_is_over(self) -> None:
        self.fake.held.add("submit")
        for _ in range(3):
            self.assertIsInstance(self.told(self.quick), bulkhead.Unreachable)
        self.assertEqual(self.fake.ops().count("submit"), 3)
        self.fake.let_go("submit")
        self.assert_caught_up()

    def test_several_answers_in_a_row_that_are_late_lose_the_connection(self) -> None:
        run = self.in_thread(self.slow, 8)
        self.gate.wait()
        self.fake.held.add("submit")
        with mock.patch("bulkhead._shared_connection.PATIENCE", 2):
            self.assertIsInstance(self.told(self.quick), bulkhead.Unreachable)
            link = self.late._links._shared
            assert link is not None
            self.until(lambda: link.is_lost)
        self.fake.let_go("submit")
        self.gate.open()
        self.assertEqual(run(), 8)
        self.clock.now += 2
        self.assertEqual(self.quick(), 7)
        self.assertEqual(self.fake.connections, self.connections + 1)
        self.assert_settled()
