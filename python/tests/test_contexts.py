"""Request contexts, keys and shared answers."""

from __future__ import annotations

import contextvars
import threading

import bulkhead
from support import SETTINGS, Case, Gate


class Contexts(Case):
    def test_equal_keys_share_one_answer_within_a_context(self) -> None:
        service, ran = self.open(), []
        for name in ("pool", "permits"):
            call = service.command(name, key=lambda item: item)(lambda item: ran.append(item) or len(ran))
            with service.context():
                first, again, other = call("a"), call("a"), call("b")
            self.assertEqual((first, again, other), (first, first, first + 1))
            self.assertNotEqual(call("a"), first)
            with service.context():
                self.assertNotEqual(call("a"), first)
        self.assert_idle(service)

    def test_a_str_and_an_int_are_different_keys(self) -> None:
        service = self.open()
        call = service.command("pool", key=lambda item: item)(lambda item: item)
        with service.context():
            self.assertEqual([call(1), call("1"), call(1)], [1, "1", 1])

    def test_no_key_shares_nothing(self) -> None:
        service, ran = self.open(), []
        call = service.command("pool", key=lambda: None)(lambda: ran.append(0))
        with service.context():
            call()
            call()
        self.assertEqual(len(ran), 2)

    def test_keys_of_other_types_are_refused(self) -> None:
        service = self.open()
        call = service.command("pool", key=lambda item: item)(lambda item: item)

        class Word(str):
            pass

        with service.context():
            for key in (1.0, b"a", (1,), True, Word("a"), object()):
                with self.assertRaises(bulkhead.BadKey):
                    call(key)
        self.assertEqual(call(1.0), 1.0)
        self.assert_idle(service)

    def test_callers_join_a_run_that_goes_on(self) -> None:
        service, gate = self.open(), Gate()
        call = service.command("pool", key=lambda: "one")(gate)
        with service.context():
            futures = [call.queue() for _ in range(5)]
            gate.wait()
            gate.open()
            self.assertEqual([future.result(5) for future in futures], [None] * 5)
        self.assertEqual(service.metrics("pool").response_from_cache, 4)
        self.assert_idle(service)

    def test_each_holder_gets_an_exception_of_its_own(self) -> None:
        service, gate = self.open(), Gate()

        def fail() -> None:
            gate()
            raise ValueError("down")

        call = service.command("pool", key=lambda: 1)(fail)
        with service.context():
            futures = [call.queue() for _ in range(3)]
            gate.open()
            errors = [future.exception(5) for future in futures]
        self.assertEqual(len({id(error) for error in errors}), 3)
        self.assertEqual({type(error) for error in errors}, {bulkhead.Failed})
        self.assertEqual(len({id(error.__cause__) for error in errors if error}), 1)

    def test_a_bad_request_reaches_every_holder_as_one_of_its_own(self) -> None:
        service, gate = self.open(), Gate()

        def refuse() -> None:
            gate()
            raise bulkhead.BadRequest("no")

        call = service.command("pool", key=lambda: 1)(refuse)
        with service.context():
            futures = [call.queue() for _ in range(3)]
            gate.open()
            errors = [future.exception(5) for future in futures]
        self.assertEqual({(type(error), str(error)) for error in errors}, {(bulkhead.BadRequest, "no")})
        self.assertEqual(len({id(error) for error in errors}), 3)

    def test_one_holder_runs_the_fallback_for_all(self) -> None:
        service, gate, ran = self.open(), Gate(), []

        def fail() -> None:
            gate()
            raise ValueError

        call = service.command("pool", key=lambda: 1, fallback=lambda *, cause: ran.append(cause) or "later")(fail)
        with service.context():
            futures = [call.queue() for _ in range(4)]
            gate.open()
            self.assertEqual([future.result(5) for future in futures], ["later"] * 4)
        self.assertEqual(len(ran), 1)
        self.assert_idle(service)

    def test_a_fallback_gets_the_arguments_of_the_first_caller(self) -> None:
        service, gate = self.open(), Gate()

        def fail(number: int) -> None:
            gate()
            raise ValueError

        call = service.command("pool", key=lambda number: 1, fallback=lambda number, *, cause: number)(fail)
        with service.context(), self.occupier(service, "more")():
            futures = [call.queue(number) for number in (7, 8, 9)]
            self.assertTrue(futures[0].cancel())
            gate.open()
        self.assertEqual([future.result(5) for future in futures[1:]], [7, 7])
        self.assert_idle(service)

    def test_holders_that_are_gone_run_no_fallback(self) -> None:
        service, ran = self.open('service.command.held.group = "pool"\n' + SETTINGS), []
        occupied = self.occupier(service, "held")
        call = service.command("pool", key=lambda: 1, fallback=lambda *, cause: ran.append(1) or "later")(lambda: 1 // 0)
        with service.context():
            with occupied():
                futures = [call.queue() for _ in range(2)]
                self.assertTrue(futures[0].cancel())
            self.assertEqual(futures[1].result(5), "later")
        self.assertEqual(ran, [1])
        more = service.command("more", key=lambda: 1, fallback=lambda *, cause: ran.append(2))(lambda: 1 // 0)
        with service.context():
            with occupied():
                self.assertTrue(more.queue().cancel())
            self.until(lambda: service.metrics("more").fallback_missing == 1)
        self.assertEqual(ran, [1])
        self.assert_idle(service)

    def test_a_context_that_was_closed_caches_no_more(self) -> None:
        service, ran = self.open(), []
        call = service.command("pool", key=lambda: 1)(lambda: ran.append(1))
        with service.context():
            call()
            kept = contextvars.copy_context()
        kept.run(call)
        kept.run(call)
        self.assertEqual(len(ran), 3)
        self.assert_idle(service)

    def test_a_key_holds_a_slot_until_its_context_ends(self) -> None:
        service = self.open('service = {groups = ["pool"], slots.pool = 2}')
        call = service.command("pool", key=lambda item: item)(lambda item: item)
        with service.context():
            call(1)
            call(2)
            self.assertEqual(call(1), 1)
            with self.assertRaisesRegex(bulkhead.GroupFull, "context"):
                call(3)
        self.assertEqual(call(3), 3)

    def test_contexts_within_one_another_are_apart(self) -> None:
        service, ran = self.open(), []
        call = service.command("pool", key=lambda: 1)(lambda: ran.append(1) or len(ran))
        with service.context():
            outer = call()
            with service.context():
                inner = call()
            self.assertEqual((call(), inner), (outer, outer + 1))

    def test_a_context_is_entered_once(self) -> None:
        context = self.open().context()
        with context, self.assertRaises(bulkhead.Error), context:
            pass
        with self.assertRaises(bulkhead.Error), context:
            pass

    def test_joining_a_run_of_ones_own_thread_is_reentered(self) -> None:
        service, seen = self.open(), []
        for name in ("pool", "permits"):

            def again() -> str:
                try:
                    call()
                except bulkhead.Reentered:
                    seen.append(1)
                return "done"

            call = service.command(name, key=lambda: 1)(again)
            with service.context():
                self.assertEqual(call(), "done")
        self.assertEqual(seen, [1, 1])
        self.assert_idle(service)

    def test_a_fallback_that_joins_its_own_ticket_is_reentered(self) -> None:
        service = self.open()

        def fallback(*, cause: bulkhead.CommandError) -> str:
            try:
                call()
            except bulkhead.Reentered:
                return "once"
            return "twice"

        call = service.command("permits", key=lambda: 1, fallback=fallback)(lambda: 1 // 0)
        with service.context():
            self.assertEqual(call(), "once")
        self.assert_idle(service)

    def test_threads_of_one_context_share(self) -> None:
        service, gate, values = self.open(), Gate(), []
        call = service.command("pool", key=lambda: 1)(lambda: gate() or object())
        with service.context():
            threads = [
                threading.Thread(target=contextvars.copy_context().run, args=(lambda: values.append(call()),))
                for _ in range(4)
            ]
            for thread in threads:
                thread.start()
            gate.open()
            for thread in threads:
                thread.join()
        self.assertEqual(len(set(map(id, values))), 1)
        self.assertEqual(len(values), 4)

    def test_a_run_that_outlives_its_context_answers_all_who_share_it(self) -> None:
        for name in ("pool", "permits"):
            service, gate, values = self.open(), Gate(), []
            call = service.command(name, key=lambda: 1)(lambda gate=gate: gate(7))
            with service.context():
                threads = [
                    threading.Thread(
                        target=contextvars.copy_context().run,
                        args=(lambda call=call, values=values: values.append(call()),),
                    )
                    for _ in range(3)
                ]
                for thread in threads:
                    thread.start()
                self.until(lambda service=service: [run.holders for run in service.runs()] == [3])
            gate.open()
            for thread in threads:
                thread.join()
            self.assertEqual(values, [7] * 3)
            self.assert_idle(service)

    def test_a_switched_off_cache_shares_nothing(self) -> None:
        service = self.open(SETTINGS + "\n[hystrix.command.pool.requestCache]\nenabled = false\n")
        call = service.command("pool", key=lambda: 1)(object)
        with service.context():
            self.assertIsNot(call(), call())
