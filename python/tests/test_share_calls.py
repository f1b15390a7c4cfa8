"""Calls of a client: values, fallbacks, errors, and the lines that they send."""

from __future__ import annotations

import threading
from typing import Any

import bulkhead
from depth import overflowing
from fake_share import FALLBACK_DUE
from share_support import ShareCase
from support import Gate


class Own(Exception):
    """An exception of a function."""


class Calls(ShareCase):
    def test_a_call_sends_three_lines_over_the_connection_of_its_process(self) -> None:
        call = self.client().command("catalog")(lambda item: [item])
        self.assertEqual(call("lamp"), ["lamp"])
        self.assertEqual(
            self.fake.lines[1:],
            [
                (2, {"op": "groups"}),
                (2, {"op": "submit", "group": "catalog", "arg": ""}),
                (2, {"op": "finish", "group": "catalog", "ticket": 1, "body": ""}),
                (2, {"op": "collect", "group": "catalog", "ticket": 1, "wait": True}),
            ],
        )
        self.assertEqual(call("lamp"), ["lamp"])
        self.assertEqual(
            self.fake.lines[5:],
            [
                (1, {"op": "submit", "group": "catalog", "arg": ""}),
                (1, {"op": "finish", "group": "catalog", "ticket": 2, "body": ""}),
                (1, {"op": "collect", "group": "catalog", "ticket": 2}),
            ],
        )
        self.assert_settled()

    def test_any_value_comes_through_as_it_is(self) -> None:
        call = self.client().command("catalog")(lambda value: value)
        for value in (None, object(), bulkhead, "x" * 1000):
            self.assertIs(call(value), value)

    def test_a_further_command_is_found_in_its_group(self) -> None:
        client = self.client()
        self.assertEqual(client.command("report")(lambda: 7)(), 7)
        self.assertEqual(self.fake.lines[1][1], {"op": "metrics", "group": "catalog", "command": "report"})
        self.assertEqual(self.fake.lines[3][1], {"op": "submit", "group": "catalog", "command": "report", "arg": ""})

    def test_of_a_command_of_a_command_both_decide_the_outer_one_first(self) -> None:
        client = self.client()
        outer = client.command("catalog")(client.command("report")(lambda item: [item]))
        self.assertEqual((outer.name, outer("lamp")), ("catalog", ["lamp"]))
        submits = [line.get("command") for _, line in self.fake.lines if line["op"] == "submit"]
        self.assertEqual(submits, [None, "report"])
        self.assert_settled()

    def test_a_failure_names_its_cause(self) -> None:
        reason = Own("down")

        def fail() -> None:
            raise reason

        error = self.told(self.client().command("catalog")(fail))
        self.assertIsInstance(error, bulkhead.Failed)
        self.assertEqual((error.cause, error.fallback), ("failure", "missing"))
        self.assertIs(error.__cause__, reason)
        self.assertIn((2, {"op": "fail", "group": "catalog", "ticket": 1, "bad": False}), self.fake.lines)
        self.assert_settled()

    def test_a_fallback_gets_the_arguments_and_the_cause(self) -> None:
        seen: list[Any] = []

        def fallback(*arguments: Any, cause: bulkhead.CommandError, **named: Any) -> str:
            seen.append((arguments, named, type(cause), type(cause.__cause__)))
            return "later"

        call = self.client().command("catalog", fallback=fallback)(lambda *_, **__: 1 // 0)
        self.assertEqual(call(1, two=2), "later")
        self.assertEqual(seen, [((1,), {"two": 2}, bulkhead.Failed, ZeroDivisionError)])
        said = {"op": "fallback", "group": "catalog", "ticket": 1, "end": "success", "body": ""}
        self.assertIn((2, said), self.fake.lines)
        self.assert_settled()

    def test_a_fallback_that_raises_leaves_the_error(self) -> None:
        call = self.client().command("catalog", fallback=lambda *, cause: 1 // 0)(lambda: 1 // 0)
        error = self.told(call)
        self.assertEqual((type(error), error.fallback), (bulkhead.Failed, "failed"))
        self.assertIn("catalog: failure; the fallback raised ZeroDivisionError: ", str(error))
        self.assertIs(error.fallback_error, error.__context__)
        self.assert_settled()

    def test_an_ignored_exception_passes_through_as_a_bad_request(self) -> None:
        def fail() -> None:
            raise Own("no such item")

        call = self.client().command("catalog", fallback=lambda *, cause: 1, ignored=Own)(fail)
        with self.assertRaisesRegex(Own, "no such item"):
            call()
        self.assertIn({"op": "fail", "group": "catalog", "ticket": 1, "bad": True}, [line for _, line in self.fake.lines])
        self.assert_settled()

    def test_a_failed_result_goes_to_the_fallback(self) -> None:
        def fallback(*, cause: bulkhead.FailedResult) -> tuple[str, int]:
            return type(cause).__name__, cause.value

        command = self.client().command("catalog", fallback=fallback, failed_result=lambda status: status == 503)
        call: Any = command(lambda: 503)
        self.assertEqual(call(), ("FailedResult", 503))
        self.assertIn({"op": "fail", "group": "catalog", "ticket": 1, "bad": False}, [line for _, line in self.fake.lines])
        self.assert_settled()

    def test_a_refused_call_does_not_run_and_falls_back(self) -> None:
        ran: list[int] = []
        call = self.client().command("catalog", fallback=lambda *, cause: type(cause).__name__)(lambda: ran.append(1))
        for cause, name in (("short-circuited", "ShortCircuited"), ("semaphore-rejected", "SemaphoreRejected")):
            self.fake.say("submit", FALLBACK_DUE | {"cause": cause})
            self.assertEqual(call(), name)
        self.assertEqual(ran, [])
        self.assert_settled()

    def test_fallbacks_that_are_switched_off_are_told(self) -> None:
        self.fake.say("submit", FALLBACK_DUE)
        self.fake.say("collect", {"reply": "error", "cause": "short-circuited", "fallback": "disabled"})
        error = self.told(self.client().command("catalog", fallback=lambda *, cause: 1)(lambda: 1))
        self.assertEqual((type(error), error.fallback), (bulkhead.ShortCircuited, "disabled"))

    def test_a_property_changes_for_all_processes(self) -> None:
        client = self.client()
        client.tune("catalog", circuitBreaker_forceOpen=True)
        client.tune("catalog", "report", {"fallback.enabled": False, "circuitBreaker.sleepWindowInMilliseconds": 7})
        self.assertEqual(
            self.fake.values,
            {
                ("catalog", "circuitBreaker.forceOpen"): True,
                ("report", "fallback.enabled"): False,
                ("report", "circuitBreaker.sleepWindowInMilliseconds"): 7,
            },
        )
        for error in ("property", "field", "range", "tune"):
            self.fake.say("tune", {"error": error})
            with self.assertRaises(bulkhead.Refused):
                client.tune("catalog", coreSize=7)
        with self.assertRaises(bulkhead.NoSuchGroup):
            client.tune("nobody", coreSize=7)
        with self.assertRaises(bulkhead.NoSuchCommand):
            client.tune("catalog", "nobody", coreSize=7)

    def test_a_timeout_that_changes_holds_for_a_client_that_knows_the_settings(self) -> None:
        text = b'service.groups = ["catalog"]\nhystrix.command.catalog.execution.isolation.strategy = "SEMAPHORE"'
        with bulkhead.Service(text) as service:
            known = bulkhead.settings.in_force(service.check())
        client = self.client(known=known)
        client.tune("catalog", execution_isolation_thread_timeoutInMilliseconds=7, requestCache_enabled=False)
        (place,) = client._groups[0].places
        self.assertEqual((place.limit, place.settings.is_cached), (7, False))

    def test_totals_are_those_of_all_processes(self) -> None:
        client = self.client()
        self.assertEqual(client.totals("catalog", "report"), bulkhead.Totals(success=7))
        self.fake.say("totals", {"reply": "worn"})
        with self.assertRaises(bulkhead.Worn):
            client.totals("catalog")

    def test_calls_without_a_ticket_are_told_why(self) -> None:
        call = self.client().command("catalog")(lambda: 1)
        for answer, kind in (
            ({"reply": "group-full"}, bulkhead.GroupFull),
            ({"reply": "worn"}, bulkhead.Worn),
            ({"error": "group"}, bulkhead.NoSuchGroup),
            ({"error": "command"}, bulkhead.NoSuchCommand),
            ({"error": "long"}, bulkhead.Error),
        ):
            self.fake.say("submit", answer)
            with self.assertRaises(kind):
                call()
        self.assertEqual(call(), 1)

    def test_a_connection_that_is_full_is_passed_by(self) -> None:
        call = self.client().command("catalog")(lambda: 1)
        call()
        self.fake.say("submit", {"error": "full"})
        self.assertEqual(call(), 1)
        self.assertEqual(self.fake.ops(1), ["submit"])
        self.assertEqual(self.fake.ops(2), ["submit", "finish", "collect"] * 2)

    def test_a_bad_request_passes_through_and_has_no_fallback(self) -> None:
        reason = bulkhead.BadRequest("order", 7)

        def refuse() -> None:
            raise reason

        with self.assertRaises(bulkhead.BadRequest) as refused:
            self.client().command("catalog", fallback=lambda *, cause: 1)(refuse)()
        self.assertIs(refused.exception, reason)
        self.assertIn((2, {"op": "fail", "group": "catalog", "ticket": 1, "bad": True}), self.fake.lines)
        self.assert_settled()

    def test_an_interrupt_passes_through_and_leaves_nothing(self) -> None:
        def leave() -> None:
            raise KeyboardInterrupt

        def fallback(*, cause: bulkhead.CommandError) -> None:
            raise SystemExit

        client = self.client()
        with self.assertRaises(KeyboardInterrupt):
            client.command("catalog")(leave)()
        with self.assertRaises(SystemExit):
            client.command("report", fallback=fallback)(lambda: 1 // 0)()
        self.assertEqual(self.fake.lines[-2][1]["end"], "missing")
        self.assert_settled()

    def test_a_run_that_timed_out_falls_back_when_it_comes_back(self) -> None:
        call = self.client().command("catalog", fallback=lambda *, cause: type(cause).__name__)(
            lambda: self.fake.time_out(1)
        )
        self.assertEqual(call(), "TimedOut")
        self.assert_settled()

    def test_what_a_run_raises_too_late_is_not_why_it_timed_out(self) -> None:
        def late() -> None:
            self.fake.time_out(1)
            raise Own

        error = self.told(self.client().command("catalog")(late))
        self.assertEqual((type(error), error.__cause__), (bulkhead.TimedOut, None))
        self.assert_settled()

    def test_commands_within_commands_go_over_one_connection(self) -> None:
        client = self.client()
        inner = client.command("report")(lambda value: value + 1)
        outer = client.command("catalog")(lambda value: inner(value) * 2)
        inner(0), outer(0)
        connections = self.fake.connections
        self.assertEqual(outer(1), 4)
        self.assertEqual(self.fake.connections, connections)

    def test_threads_share_one_connection_and_get_their_own_answers(self) -> None:
        call = self.client().command("catalog")(lambda value: value)
        call(0)
        gate, told = threading.Barrier(8), []

        def work(of: int) -> None:
            gate.wait(10)
            told.extend(call(1000 * of + at) == 1000 * of + at for at in range(50))

        waits = [self.in_thread(work, of) for of in range(8)]
        for wait in waits:
            self.assertIsNone(wait())
        self.assertEqual((len(told), all(told)), (400, True))
        self.assertEqual(self.fake.connections, 2)
        self.assert_settled()

    def test_a_call_goes_on_while_another_one_runs(self) -> None:
        client, gate = self.client(), Gate()
        slow = client.command("catalog")(gate)
        wait = self.in_thread(slow, 5)
        gate.wait()
        self.assertEqual(client.command("report")(lambda: 7)(), 7)
        gate.open()
        self.assertEqual(wait(), 5)

    def test_a_decorated_method_is_bound(self) -> None:
        client = self.client()

        class Api:
            def __init__(self, base: int) -> None:
                self.base = base

            @client.command("catalog")
            def look_up(self, number: int) -> int:
                """Looks up."""
                return self.base + number

        self.assertEqual((Api(10).look_up(1), Api.look_up(Api(20), 2)), (11, 22))
        self.assertEqual((Api.look_up.__doc__, Api.look_up.name), ("Looks up.", "catalog"))

    def test_what_is_told_of_metrics(self) -> None:
        client = self.client()
        call = client.command("catalog")(lambda down: 1 // (not down))
        call(False), self.told(call, True)
        metrics = client.metrics("catalog")
        self.assertEqual((metrics.circuit, metrics.success, metrics.failure, metrics.timeout), ("closed", 3, 2, 0))
        self.assertEqual(client.metrics(), {"catalog": metrics})
        self.assertEqual(client.metrics("report"), metrics)
        self.assertEqual(client.metrics(), {"catalog": metrics, "report": metrics})
        text = client.prometheus()
        self.assertIn('bulkhead_circuit_state{group="catalog",command="catalog",state="closed"} 1\n', text)
        self.assertIn('bulkhead_runs_total{group="catalog",command="catalog",end="failure"} 1\n', text)
        self.assertIn('bulkhead_unreachable_total{group="catalog",command="catalog"} 0\n', text)
        with self.assertRaises(bulkhead.NoSuchCommand):
            client.metrics("nobody")
        self.fake.say("metrics", *[{"reply": "worn"}] * 3)
        with self.assertRaises(bulkhead.Worn):
            client.metrics("catalog")
        self.assertEqual(client.metrics(), {})


class Declarations(ShareCase):
    def test_a_name_that_nothing_has_is_refused(self) -> None:
        with self.assertRaises(bulkhead.NoSuchGroup):
            self.client().command("nobody")

    def test_a_name_that_is_given_twice_is_refused(self) -> None:
        client = self.client()
        client.command("catalog")(lambda: 1)
        with self.assertRaises(bulkhead.Refused):
            client.command("catalog")(lambda: 2)

    def test_a_key_wants_texts_and_texts_want_a_key(self) -> None:
        client = self.client()
        for given in ({"key": len}, {"key": len, "encode": str}, {"encode": str, "decode": int}, {"decode": int}):
            with self.assertRaisesRegex(bulkhead.Refused, "together"):
                client.command("catalog", **given)

    def test_a_choice_that_is_none_is_refused(self) -> None:
        with self.assertRaises(bulkhead.Refused):
            self.client().command("catalog", when_unreachable="later")  # type: ignore[arg-type]
        with self.assertRaises(bulkhead.Refused):
            bulkhead.connect(self.fake.path, when_unreachable="later")  # type: ignore[arg-type]

    def test_a_coroutine_fallback_of_a_plain_function_is_refused(self) -> None:
        async def fallback(*, cause: bulkhead.CommandError) -> None:
            pass

        with self.assertRaises(bulkhead.Refused):
            self.client().command("catalog", fallback=fallback)(lambda: 1)

    def test_a_command_is_not_queued(self) -> None:
        call = self.client().command("catalog")(lambda: 1)
        for refused in (call.queue, lambda: call.run().send(None)):
            with self.assertRaises(bulkhead.Refused):
                refused()

    def test_a_command_under_thread_is_refused_and_leaves_nothing(self) -> None:
        self.fake.pools.add("catalog")
        client = self.client()
        ran: list[int] = []
        call = client.command("catalog", fallback=lambda *, cause: 1)(lambda: ran.append(1))
        for _ in range(2):
            with self.assertRaisesRegex(bulkhead.Refused, "THREAD"):
                call()
        self.assertEqual((self.fake.ops().count("submit"), ran), (1, []))
        self.assert_settled()
        self.fake.pools.clear()
        self.assertEqual(client.command("report")(lambda: 7)(), 7)

    def test_with_settings_a_command_under_thread_is_refused_where_it_is_declared(self) -> None:
        pooled = bulkhead.settings.CommandSettings("catalog", True, 1000, True, True)
        known = [bulkhead.settings.GroupSettings("catalog", 10, (pooled,))]
        with self.assertRaisesRegex(bulkhead.Refused, "THREAD"):
            self.client(known=known).command("catalog")
        self.assertEqual(self.fake.ops(), [])

    def test_settings_of_another_service_are_refused(self) -> None:
        known = [bulkhead.settings.GroupSettings("other", 10, ())]
        with self.assertRaisesRegex(bulkhead.Refused, "catalog"):
            self.client(known=known)

    def test_an_address_is_a_path_or_a_port(self) -> None:
        for address in (0, 65_536, True, None, b"path"):
            with self.assertRaises(bulkhead.Error):
                bulkhead.connect(address)  # type: ignore[arg-type]
        with self.assertRaises(bulkhead.Error):
            bulkhead.connect(self.fake.path, timeout=0)


class Depth(ShareCase):
    """Calls for which the stack has no room."""

    def test_calls_that_overflow_the_stack_leave_nothing_behind(self) -> None:
        client = self.client()
        call = client.command("catalog", fallback=lambda value, *, cause: "later")(lambda value: [value])
        keyed = client.command("report", key=lambda: 1, encode=str, decode=int)(lambda: 7)

        def within() -> int:
            with client.context():
                value: int = keyed()
                return value

        for made in (lambda: call(7), within):
            made()
            self.assertGreater(overflowing(made), 3)
            made()
            self.assert_settled()
            self.assertEqual([ticket for ticket in self.fake.tickets.values() if ticket.name], [])
        client.close()
        self.fake.until(lambda: not self.fake.open_now())
