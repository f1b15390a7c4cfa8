"""Shared answers of clients: two clients stand for two processes."""

from __future__ import annotations

from collections.abc import Callable
from typing import Any

import bulkhead
from bulkhead import _lines
from bulkhead._client_contexts import key_name
from bulkhead._links import Pause
from share_support import ShareCase
from support import Gate


class Shared(ShareCase):
    def declared(self, client: bulkhead.Client, function: Any, **options: Any) -> Any:
        """A command whose answers are whole numbers, and whose key is its argument."""
        return client.command("catalog", key=lambda item: item, encode=str, decode=int, **options)(function)

    def run_and_wait(
        self, runs: tuple[Any, bulkhead.Client], waits: tuple[Any, bulkhead.Client], gate: Gate
    ) -> tuple[Callable[[], Any], Callable[[], Any]]:
        """Begins a call of the first command within a context, and then one of the second, which waits for its run."""

        def call(command: Any, client: bulkhead.Client) -> int:
            with client.context(5):
                value: int = command("lamp")
                return value

        first = self.in_thread(call, *runs)
        gate.wait()
        second = self.in_thread(call, *waits)
        self.fake.until(lambda: self.fake.last().get("wait"))
        return first, second

    def test_an_answer_of_another_process_is_read_from_its_text(self) -> None:
        ran: list[str] = []

        def look_up(item: str) -> int:
            ran.append(item)
            return 7

        first, second = self.client(), self.client()
        one, other = self.declared(first, look_up), self.declared(second, look_up)
        with first.context() as here, second.context(here.number):
            self.assertEqual((one("lamp"), one("lamp"), other("lamp"), other("chair")), (7, 7, 7, 7))
        self.assertEqual(ran, ["lamp", "chair"])
        self.assertEqual(one("lamp"), 7)
        self.assertEqual(ran, ["lamp", "chair", "lamp"])
        self.assertEqual(self.fake.ops().count("close"), 2)
        self.assert_settled()

    def test_a_process_waits_for_the_run_of_another(self) -> None:
        first, second, gate = self.client(), self.client(), Gate()
        one, other = self.declared(first, lambda item: gate(item) and 7), self.declared(second, lambda item: 8)

        runs, waits = self.run_and_wait((one, first), (other, second), gate)
        self.assertEqual(second.metrics("catalog").free, 60)
        gate.open()
        self.assertEqual((runs(), waits()), (7, 7))
        self.assert_settled()

    def test_threads_of_a_process_share_an_answer_and_wait_over_connections_of_their_own(self) -> None:
        client, gate = self.client(), Gate()
        call = self.declared(client, lambda item: gate(item) and 7)

        def within() -> int:
            with client.context(9):
                value: int = call("lamp")
                return value

        runs = self.in_thread(within)
        gate.wait()
        waits = [self.in_thread(within) for _ in range(6)]
        self.fake.until(lambda: sum(line["op"] == "collect" for _, line in self.fake.lines) == 6)
        gate.open()
        self.assertEqual([runs(), *(wait() for wait in waits)], [7] * 7)
        self.assert_settled()
        # one is shared, and some of those that were waited by are kept
        self.fake.until(lambda: self.fake.open_now() == 5)

    def test_connections_that_were_lost_while_nobody_used_them_are_opened_anew(self) -> None:
        client, gate = self.client(), Gate()
        call = self.declared(client, lambda item: gate(item) and 7)

        def within(item: str) -> int:
            with client.context():
                value: int = call(item)
                return value

        waits = [self.in_thread(within, str(at)) for at in range(4)]
        gate.wait(4)
        gate.open()
        self.assertEqual([wait() for wait in waits], [7] * 4)
        self.assertEqual(self.fake.open_now(), 5)
        self.fake.drop()
        self.assertEqual(within("lamp"), 7)
        self.assert_settled()

    def test_a_fallbacks_value_is_shared_too(self) -> None:
        first, second = self.client(), self.client()
        one = self.declared(first, lambda item: 1 // 0, fallback=lambda item, *, cause: 3)
        other = self.declared(second, lambda item: 1 // 0, fallback=lambda item, *, cause: 4)
        with first.context(1), second.context(1):
            self.assertEqual((one("lamp"), other("lamp")), (3, 3))
        self.assert_settled()

    def test_a_bad_request_of_another_process_is_one_here(self) -> None:
        def refuse(item: str) -> int:
            raise bulkhead.BadRequest(item)

        first, second = self.client(), self.client()
        with first.context(1), second.context(1):
            with self.assertRaises(bulkhead.BadRequest) as own:
                self.declared(first, refuse)("lamp")
            with self.assertRaisesRegex(bulkhead.BadRequest, "another call"):
                self.declared(second, refuse)("lamp")
        self.assertEqual(own.exception.args, ("lamp",))
        self.assert_settled()

    def test_who_waits_runs_the_fallback_of_a_run_that_timed_out(self) -> None:
        first, second, gate = self.client(), self.client(), Gate()
        one = self.declared(first, lambda item: gate(item) and 7, fallback=lambda item, *, cause: 1)
        other = self.declared(second, lambda item: 8, fallback=lambda item, *, cause: 2)

        runs, waits = self.run_and_wait((one, first), (other, second), gate)
        self.fake.time_out(1)
        self.assertEqual(waits(), 2)
        gate.open()
        self.assertEqual(runs(), 2)
        self.assert_settled()

    def test_a_value_that_cannot_be_told_is_a_bad_request(self) -> None:
        client = self.client()
        for value in ("x" * 257, "é" * 129, "\x01" * 200, "\ud800", 7, None):
            call = client.command("catalog", key=lambda: 1, encode=lambda value: value, decode=str)(lambda: value)
            client._declared.clear()
            self.assertIs(call(), value, "nothing is told without a context")
            with client.context(), self.assertRaises(bulkhead.BadText):
                call()
        self.assertEqual([line["bad"] for _, line in self.fake.lines if line["op"] == "fail"], [True] * 6)
        self.assert_settled()

    def test_texts_of_the_greatest_length_fit_into_a_line(self) -> None:
        for text in ("x" * 256, "é" * 128, '"' * 256, "\\" * 256, "\x01" * 140):
            _lines.checked_text(text, "it")
            for line in (
                _lines.finish("g" * 32, (1 << 64) - 1, text),
                _lines.fallback("g" * 32, (1 << 64) - 1, "success", text),
            ):
                self.assertLessEqual(len(line), _lines.LINE_LIMIT + 1)
        longest = _lines.submit("g" * 32, "c" * 32, "", (1 << 64) - 1, key_name((str, "k")))
        self.assertLessEqual(len(longest), _lines.LINE_LIMIT + 1)

    def test_keys_of_different_types_are_different_and_tell_nothing(self) -> None:
        names = [key_name((type(key), key)) for key in (1, "1", "lamp", "x" * 5000, "\ud800", "", -1)]
        self.assertEqual((len({*names}), {len(name.encode()) for name in names}), (7, {32}))
        client = self.client()
        with client.context(), self.assertRaises(bulkhead.BadKey):
            self.declared(client, lambda item: 1)(1.5)

    def test_without_a_context_or_a_key_nothing_is_shared(self) -> None:
        client = self.client()
        call = client.command("catalog", key=lambda item: None, encode=str, decode=int)(lambda item: 1)
        with client.context():
            call("lamp"), call("lamp")
        self.assertNotIn("close", self.fake.ops())
        self.assertEqual([line for _, line in self.fake.lines if "context" in line], [])

    def test_a_context_is_a_number_and_is_entered_once(self) -> None:
        client = self.client()
        for number in (-1, 1 << 64, "5", True, 1.0):
            with self.assertRaises(bulkhead.Error):
                client.context(number)  # type: ignore[arg-type]
        context = client.context(0)
        with context:
            with self.assertRaises(bulkhead.Error):
                context.__enter__()
        with self.assertRaises(bulkhead.Error):
            context.__enter__()
        self.assertNotEqual(client.context().number, client.context().number)

    def test_contexts_within_contexts_are_those_of_their_blocks(self) -> None:
        client, ran = self.client(), []
        call = self.declared(client, lambda item: ran.append(item) or len(ran))
        with client.context():
            self.assertEqual(call("lamp"), 1)
            with client.context():
                self.assertEqual(call("lamp"), 2)
            self.assertEqual(call("lamp"), 1)

    def test_the_end_of_a_context_that_cannot_be_told_is_told_later(self) -> None:
        client = self.client()
        call = self.declared(client, lambda item: 7)
        with client.context(5):
            call("lamp")
            self.fake.down()
        self.fake.up()
        self.assertNotIn("close", self.fake.ops())
        self.clock.now += Pause.LONGEST
        client.metrics("catalog")
        self.assertIn({"op": "close", "group": "catalog", "context": 5}, [line for _, line in self.fake.lines])

    def test_a_submit_that_is_done_too_late_keeps_no_slot(self) -> None:
        client = self.client(timeout=0.05)
        call = self.declared(client, lambda item: 7)
        with client.context(5):
            self.fake.held.add("submit")
            self.assertIsInstance(self.told(call, "lamp"), bulkhead.Unreachable)
        self.assertEqual(self.fake.ops(), ["enter", "submit", "close"])
        self.fake.let_go("submit")
        # behind the submit its connection has the end of the context once more
        self.fake.until(lambda: self.fake.ops() == ["enter", "submit", "close", "close"])
        self.assert_settled()
        self.assertEqual([ticket.name for ticket in self.fake.tickets.values()], [None])
        self.fake.until(lambda: self.fake.open_now() == 1)

    def entered(self) -> list[tuple[int, int]]:
        """The connections by which contexts were entered, and their numbers."""
        return [(number, line["context"]) for number, line in self.fake.lines if line["op"] == "enter"]

    def test_a_process_enters_a_context_before_its_first_call_with_a_key(self) -> None:
        client = self.client()
        call, plain = self.declared(client, lambda item: 7), client.command("report")(lambda: 8)
        with client.context(5):
            plain()
            self.assertEqual(self.entered(), [])
            call("lamp"), call("lamp"), call("chair")
        with client.context(6):
            call("lamp")
        self.assertEqual(self.entered(), [(1, 5), (1, 6)])
        self.assert_settled()

    def test_it_enters_again_over_a_new_connection(self) -> None:
        client = self.client()
        call = self.declared(client, lambda item: 7)
        with client.context(5):
            call("lamp")
            self.fake.drop()
            self.assertEqual(call("lamp"), 7)
            (first, _), (second, _) = self.entered()
            self.assertNotEqual(first, second)
            call("chair")
        self.assertEqual(len(self.entered()), 2)
        self.assert_settled()

    def test_a_process_that_dies_leaves_no_answer_of_its_context(self) -> None:
        client = self.client()
        call = self.declared(client, lambda item: 7)
        with client.context(5):
            call("lamp")
            client.close()
            self.fake.until(lambda: not self.fake.open_now())
            self.assertEqual([ticket.name for ticket in self.fake.tickets.values()], [None])

    def test_a_service_that_keeps_no_more_contexts_answers_all_the_same(self) -> None:
        client = self.client()
        call = self.declared(client, lambda item: 7)
        for answer in ({"error": "full"}, {"error": "op"}):
            self.fake.say("enter", answer)
            with client.context():
                self.assertEqual((call("lamp"), call("lamp")), (7, 7))
        self.assertEqual(len(self.entered()), 2)
        self.assert_settled()

    def test_a_call_that_would_wait_for_its_own_thread_is_refused(self) -> None:
        client = self.client()

        @client.command("catalog", key=lambda depth: "same", encode=str, decode=int)
        def down(depth: int) -> int:
            return depth if depth == 0 else down(depth - 1)

        with client.context():
            error = self.told(down, 1)
        self.assertIsInstance(error, bulkhead.Failed)
        self.assertIsInstance(error.__cause__, bulkhead.Reentered)
        self.assertEqual(down(3), 0)
        self.assert_settled()

    def test_a_wait_that_a_service_at_its_end_breaks_off_is_unreachable(self) -> None:
        first, second, gate = self.client(), self.client(), Gate()
        one, other = self.declared(first, lambda item: gate(item) and 7), self.declared(second, lambda item: 8)

        def call(command: Any, client: bulkhead.Client) -> Any:
            with client.context(5):
                return command("lamp")

        runs = self.in_thread(call, one, first)
        gate.wait()
        self.fake.say("collect", {"reply": "pending"})
        self.assertIsInstance(self.told(call, other, second), bulkhead.Unreachable)
        gate.open()
        self.assertEqual(runs(), 7)
        self.assert_settled()

    def test_a_context_that_ended_in_the_midst_of_a_call_keeps_no_slot(self) -> None:
        client = self.client()
        context, call = client.context(5), self.declared(client, lambda item: 7)
        take = client._links.take

        def taken_late() -> Any:
            context.close()
            return take()

        with context:
            client._links.take = taken_late
            self.assertEqual(call("lamp"), 7)
        self.assertEqual(self.fake.ops()[-3:], ["close", "finish", "collect"])
        self.assertEqual([ticket.name for ticket in self.fake.tickets.values()], [None])
