"""Which exceptions and values are failures, as a declaration says, and what a fallback raised."""

from __future__ import annotations

import asyncio
import traceback
from collections.abc import Callable
from typing import Any

import bulkhead
from support import SETTINGS, Case

TASK = 'service.command.task.group = "permits"\nhystrix.command.task.execution.isolation.strategy = "SEMAPHORE"\n'
BOTH = TASK + SETTINGS


class NoSuchItem(Exception):
    """The request asks for what is not there."""


class Down(Exception):
    """The dependency is down."""


class Slow(Down):
    """The dependency is slow."""


def counts(service: bulkhead.CommandService, name: str) -> tuple[int, int, int]:
    """Successes, failures and bad requests."""
    told = service.metrics(name)
    return told.success, told.failure, told.bad_request


class Failures(Case):
    def raising(self, name: str, **options: Any) -> tuple[bulkhead.CommandService, Callable[[BaseException], Any]]:
        """A service, and a command of it that raises what it is called with."""
        service = self.open(BOTH)

        def act(error: BaseException) -> None:
            raise error

        async def act_async(error: BaseException) -> None:
            await asyncio.sleep(0)
            raise error

        call = service.command(name, **options)(act if name != "task" else act_async)  # type: ignore[arg-type]
        return service, call if name != "task" else lambda error: asyncio.run(call(error))

    def outcome(self, call: Callable[..., Any], *arguments: Any) -> Any:
        """What a call gives, or what it raises."""
        try:
            return call(*arguments)
        except Exception as error:
            return error

    def assert_ignored(self, name: str, error: Exception, **options: Any) -> None:
        service, call = self.raising(name, fallback=lambda error, *, cause: "fallback", **options)
        told = self.outcome(call, error)
        self.assertEqual((type(told), told.args), (type(error), error.args))
        self.assertEqual(counts(service, name), (0, 0, 1))
        self.assert_idle(service)

    def assert_failure(self, name: str, error: Exception, **options: Any) -> None:
        service, call = self.raising(name, fallback=lambda error, *, cause: cause, **options)
        told = self.outcome(call, error)
        self.assertEqual((type(told), told.__cause__), (bulkhead.Failed, error))
        self.assertEqual(counts(service, name), (0, 1, 0))
        self.assert_idle(service)

    def test_an_ignored_exception_passes_through_and_counts_against_nobody(self) -> None:
        for name in ("pool", "permits", "task"):
            self.assert_ignored(name, NoSuchItem("lamp", 7), ignored=NoSuchItem)
            self.assert_ignored(name, Slow("at noon"), ignored=(NoSuchItem, Down))
            self.assert_ignored(name, Down(404), ignored=lambda error: error.args == (404,))

    def test_any_other_exception_is_a_failure(self) -> None:
        for name in ("pool", "permits", "task"):
            self.assert_failure(name, Down(), ignored=Slow)
            self.assert_failure(name, Down(503), ignored=lambda error: error.args == (404,))

    def test_with_failures_what_they_do_not_mean_is_ignored(self) -> None:
        for name in ("pool", "permits", "task"):
            self.assert_failure(name, Slow(), failures=[Down])
            self.assert_failure(name, Down(503), failures=lambda error: error.args == (503,))
            self.assert_ignored(name, NoSuchItem("lamp"), failures=Down)

    def test_what_is_ignored_is_no_failure(self) -> None:
        self.assert_ignored("permits", Slow(), failures=Down, ignored=Slow)
        self.assert_failure("permits", Down(), failures=Down, ignored=Slow)

    def test_a_bad_request_is_none_whatever_is_said(self) -> None:
        self.assert_ignored("pool", bulkhead.BadRequest("order"), failures=Exception)

    def test_an_ignored_exception_keeps_its_cause_and_where_it_was_raised(self) -> None:
        for name in ("pool", "permits"):
            service = self.open()

            def act() -> None:
                try:
                    raise KeyError("lamp")
                except KeyError as error:
                    raise NoSuchItem("lamp") from error

            told = self.outcome(service.command(name, ignored=NoSuchItem)(act))
            self.assertIsInstance(told.__cause__, KeyError)
            self.assertIn("act", [frame.name for frame in traceback.extract_tb(told.__traceback__)])

    def test_an_exception_that_cannot_be_copied_is_handed_on_itself(self) -> None:
        class Odd(Exception):
            def __init__(self, one: int, other: int) -> None:
                super().__init__(one)

        service, reason = self.open(), Odd(1, 2)

        def act() -> None:
            raise reason

        self.assertIs(service.command("pool", ignored=Odd)(act).queue().exception(5), reason)

    def test_an_ignored_exception_behind_the_timeout_counts_for_nothing(self) -> None:
        service, hand = self.by_hand()

        def slow() -> None:
            hand.now += 2000
            service.expire()
            raise NoSuchItem

        call = service.command("permits", fallback=lambda *, cause: type(cause).__name__, ignored=NoSuchItem)(slow)
        self.assertEqual(call(), "TimedOut")
        self.assertEqual(counts(service, "permits"), (0, 0, 0))

    def test_each_caller_that_shares_an_answer_gets_the_ignored_exception(self) -> None:
        service, reason = self.open(), NoSuchItem("lamp")

        def act() -> None:
            raise reason

        call = service.command("permits", key=lambda: 1, ignored=NoSuchItem)(act)
        with service.context():
            told = [self.outcome(call) for _ in range(3)]
        self.assertEqual([type(one) for one in told], [NoSuchItem] * 3)
        self.assertEqual(len({id(one) for one in told}), 3)
        self.assertEqual((service.metrics("permits").response_from_cache, service.metrics("permits").bad_request), (2, 1))

    def test_a_value_may_be_a_failure(self) -> None:
        for name in ("pool", "permits", "task"):
            service, seen = self.open(BOTH), []

            async def give(status: int) -> int:
                return status

            def fallback(status: int, *, cause: bulkhead.FailedResult) -> str:
                seen.append((type(cause), cause.value, cause.cause, cause.__cause__))
                return "later"

            function: Any = give if name == "task" else lambda status: status
            call: Any = service.command(name, fallback=fallback, failed_result=lambda status: status >= 500)(function)
            ask = (lambda status: asyncio.run(call(status))) if name == "task" else call
            self.assertEqual([ask(200), ask(503)], [200, "later"])
            self.assertEqual(seen, [(bulkhead.FailedResult, 503, "failure", None)])
            self.assertEqual(counts(service, name), (1, 1, 0))
            self.assert_idle(service)

    def test_without_a_fallback_a_failed_result_is_raised_with_its_value(self) -> None:
        service = self.open()
        call = service.command("pool", failed_result=lambda value: value is None)(lambda: None)
        with self.assertRaises(bulkhead.Failed) as failed:
            call()
        error = failed.exception
        self.assertIsInstance(error, bulkhead.FailedResult)
        self.assertEqual((error.cause, error.fallback, getattr(error, "value")), ("failure", "missing", None))

    def test_failed_results_open_the_circuit(self) -> None:
        text = SETTINGS + "\n[hystrix.command.permits.circuitBreaker]\nrequestVolumeThreshold = 2\n"
        service, hand = self.by_hand(text)
        call = service.command("permits", failed_result=lambda status: status == 503)(lambda: 503)
        self.assertEqual([type(self.outcome(call)) for _ in range(2)], [bulkhead.FailedResult] * 2)
        hand.now = 600
        self.assertIsInstance(self.outcome(call), bulkhead.ShortCircuited)

    def test_a_failed_result_of_a_command_is_the_cause_of_a_command_of_it(self) -> None:
        service = self.open()
        inner = service.command("permits", failed_result=lambda value: True)(lambda: 503)
        told = self.outcome(service.command("pool")(inner))
        self.assertEqual((type(told), type(told.__cause__)), (bulkhead.Failed, bulkhead.FailedResult))
        self.assertEqual(told.__cause__.value, 503)

    def test_what_a_predicate_raises_leaves_a_failure(self) -> None:
        hooked = self.hooked()
        self.assert_failure("permits", Down(), ignored=lambda error: 1 // 0)
        self.assertEqual([one.exc_type for one in hooked], [ZeroDivisionError])
        service = self.open()
        told = self.outcome(service.command("pool", failed_result=lambda value: 1 // 0)(lambda: 1))
        self.assertEqual((type(told), type(told.__cause__)), (bulkhead.Failed, ZeroDivisionError))

    def test_a_registered_group_has_the_same_failures(self) -> None:
        service = self.open()
        call = service.command("pool", ignored=NoSuchItem)(self.raise_item)
        service.register("tenant-7", like="pool")
        self.assertIsInstance(self.outcome(call.of("tenant-7")), NoSuchItem)

    def raise_item(self) -> None:
        raise NoSuchItem

    def test_what_cannot_be_asked_is_refused(self) -> None:
        service = self.open()
        wrong = ({"failures": 7}, {"ignored": [KeyError, "lamp"]}, {"ignored": KeyboardInterrupt}, {"failed_result": 503})
        for options in wrong:
            with self.assertRaises(bulkhead.Refused):
                service.command("pool", **options)  # type: ignore[arg-type]


class Fallbacks(Case):
    def assert_told(self, error: Any, raised: type[BaseException], text: str) -> None:
        self.assertEqual(error.fallback, "failed")
        self.assertIsInstance(error.fallback_error, raised)
        self.assertIs(error.__context__, error.fallback_error)
        self.assertIn(text, str(error))

    def test_what_a_fallback_raised_is_told(self) -> None:
        text = "; the fallback raised TypeError: "
        for name in ("pool", "permits"):
            service = self.open()
            call: Any = service.command(name, fallback=lambda value: 5)(lambda value: 1 // 0)
            with self.assertRaises(bulkhead.Failed) as failed:
                call(1)
            self.assert_told(failed.exception, TypeError, f"{name}: failure{text}")
            self.assertIn("'cause'", str(failed.exception))
            self.assertIsInstance(failed.exception.__cause__, ZeroDivisionError)
        queued: Any = self.open().command("pool", fallback=lambda: 5)(lambda: 1 // 0)
        self.assert_told(queued.queue().exception(5), TypeError, text)

    def test_it_is_told_where_the_caller_handles_an_exception(self) -> None:
        call = self.open().command("permits", fallback=lambda *, cause: {}["lamp"])(lambda: 1 // 0)
        try:
            raise OSError
        except OSError:
            with self.assertRaises(bulkhead.Failed) as failed:
                call()
        self.assert_told(failed.exception, KeyError, "KeyError: 'lamp'")
        assert failed.exception.__context__ is not None
        self.assertIsInstance(failed.exception.__context__.__context__, OSError)

    def test_a_traceback_shows_it_where_the_function_raised_nothing(self) -> None:
        service, hand = self.by_hand()

        def slow() -> None:
            hand.now += 2000
            service.expire()

        call = service.command("permits", fallback=lambda *, cause: {}["lamp"])(slow)
        with self.assertRaises(bulkhead.TimedOut) as timed_out:
            call()
        self.assert_told(timed_out.exception, KeyError, "permits: timeout; the fallback raised KeyError")
        self.assertIn("KeyError: 'lamp'", "".join(traceback.format_exception(None, timed_out.exception, None)))

    def test_a_coroutine_fallback_is_told_too(self) -> None:
        async def function() -> None:
            raise OSError

        async def fallback(*, cause: bulkhead.CommandError) -> None:
            raise KeyError("lamp")

        call = self.open().command("permits", fallback=fallback)(function)
        with self.assertRaises(bulkhead.Failed) as failed:
            asyncio.run(call())
        self.assert_told(failed.exception, KeyError, "KeyError: 'lamp'")

    def test_an_exception_whose_text_raises_is_named(self) -> None:
        class Mute(Exception):
            def __str__(self) -> str:
                raise ValueError

        def fallback(*, cause: bulkhead.CommandError) -> None:
            raise Mute

        call = self.open().command("permits", fallback=fallback)(lambda: 1 // 0)
        with self.assertRaises(bulkhead.Failed) as failed:
            call()
        self.assert_told(failed.exception, Mute, "permits: failure; the fallback raised Mute")

    def test_where_no_fallback_raised_there_is_none(self) -> None:
        service = self.open()
        with self.assertRaises(bulkhead.Failed) as failed:
            service.command("pool")(lambda: 1 // 0)()
        error = failed.exception
        self.assertEqual((error.fallback, error.fallback_error, str(error)), ("missing", None, "pool: failure"))
