"""Clients whose service is not there: what calls come to, and how the connection is opened anew."""

from __future__ import annotations

import os
import socket
from typing import Any

import bulkhead
from bulkhead._connection import Connection, Lost
from bulkhead._links import Pause
from fake_share import FALLBACK_DUE
from share_support import Moment, ShareCase
from support import Gate


class Lasting(ShareCase):
    def test_a_service_that_is_not_there_is_told_at_once(self) -> None:
        for address in (self.folder() / "nothing.sock", "x" * 200):
            with self.assertRaises(bulkhead.Unreachable) as raised:
                bulkhead.connect(address)
            self.assertIsInstance(raised.exception.__cause__, Exception)

    def test_with_settings_a_client_may_be_there_before_its_service(self) -> None:
        self.fake.down()
        own = bulkhead.settings.CommandSettings("catalog", False, 1000, True, True)
        client = self.client(known=[bulkhead.settings.GroupSettings("catalog", 10, (own,))])
        call = client.command("catalog")(lambda: 7)
        self.assertIsInstance(self.told(call), bulkhead.Unreachable)
        self.fake.up()
        self.clock.now += Pause.LONGEST
        self.assertEqual(call(), 7)

    def test_what_is_no_service_is_unreachable(self) -> None:
        self.fake.say("groups", {"reply": "pending"})
        with self.assertRaises(bulkhead.Unreachable):
            bulkhead.connect(self.fake.path)

    def test_calls_meanwhile_are_unreachable_and_do_not_run(self) -> None:
        ran: list[int] = []
        client = self.client()
        call = client.command("catalog", fallback=lambda *, cause: "later")(lambda: ran.append(1))
        self.fake.down()
        for _ in range(3):
            error = self.told(call)
            self.assertEqual((type(error), error.cause, error.fallback), (bulkhead.Unreachable, None, None))
        with self.assertRaises(bulkhead.Unreachable):
            client.metrics("catalog")
        self.assertEqual(ran, [])

    def test_calls_meanwhile_are_answered_by_their_fallback_where_the_team_chose_so(self) -> None:
        seen: list[Any] = []

        def fallback(item: str, *, cause: bulkhead.CommandError) -> str:
            seen.append(type(cause))
            return f"{item}: later"

        client = self.client(when_unreachable="fallback")
        call = client.command("catalog", fallback=fallback)(lambda item: item)
        bare = client.command("report")(lambda: 1)
        self.fake.down()
        self.assertEqual((call("lamp"), seen), ("lamp: later", [bulkhead.Unreachable]))
        self.assertEqual(self.told(bare).fallback, "missing")

    def test_the_choice_of_a_command_goes_before_that_of_its_client(self) -> None:
        client = self.client()
        call = client.command("catalog", fallback=lambda *, cause: 1 // 0, when_unreachable="fallback")(lambda: 1)
        self.fake.down()
        error = self.told(call)
        self.assertEqual((type(error), error.fallback), (bulkhead.Unreachable, "failed"))
        self.assertIsInstance(error.fallback_error, ZeroDivisionError)
        self.assertIn("; the fallback raised ZeroDivisionError: ", str(error))

    def test_a_connection_that_was_lost_is_opened_anew_by_the_next_call(self) -> None:
        call = self.client().command("catalog")(lambda: 7)
        call(), call()
        self.fake.drop()
        self.assertEqual((call(), call()), (7, 7))
        self.assertEqual(self.fake.connections, 3)
        self.assert_settled()

    def test_after_a_failure_nothing_is_tried_for_a_moment_that_grows(self) -> None:
        client = self.client()
        call = client.command("catalog")(lambda: 7)
        call()
        self.fake.down()
        lengths = []
        for _ in range(8):
            self.assertIsInstance(self.told(call), bulkhead.Unreachable)
            lengths.append(client._links._opener.pause.length)
            self.clock.now += lengths[-1]
        self.assertEqual(lengths, [0.05, 0.1, 0.2, 0.4, 0.8, 1.6, 2.0, 2.0])
        self.assertIsInstance(self.told(call), bulkhead.Unreachable)
        self.fake.up()
        before = self.fake.connections
        self.clock.now += 1.9
        self.assertIn("tried again", str(self.told(call)))
        self.assertEqual(self.fake.connections, before)
        self.clock.now += 0.1
        self.assertEqual(call(), 7)
        self.assertEqual(client._links._opener.pause.length, 0)

    def test_a_service_that_does_not_answer_is_not_asked_again_at_once(self) -> None:
        client = self.client(timeout=0.05)
        call = client.command("catalog")(lambda: 7)
        self.assertEqual(call(), 7)
        connections = self.fake.connections
        self.fake.held.add("submit")
        for _ in range(3):
            self.assertIsInstance(self.told(call), bulkhead.Unreachable)
        self.assertEqual(self.fake.connections, connections)
        self.assertEqual(client._links._opener.pause.length, Pause.SHORTEST)
        self.fake.held.add("groups")
        self.clock.now += Pause.LONGEST
        self.assertIsInstance(self.told(call), bulkhead.Unreachable)
        self.assertEqual(client._links._opener.pause.length, 2 * Pause.SHORTEST)
        self.fake.let_go("groups")
        self.fake.let_go("submit")
        self.clock.now += Pause.LONGEST
        self.assertEqual(call(), 7)
        self.assert_settled()

    def test_a_run_whose_connection_is_lost_has_its_own_value(self) -> None:
        client = self.client()
        call = client.command("catalog")(lambda: self.fake.drop() or 7)
        self.assertEqual(call(), 7)
        self.assert_settled()

    def test_a_value_whose_answer_cannot_be_collected_is_its_callers_and_leaves_nothing(self) -> None:
        client = self.client()
        call = client.command("catalog")(lambda: 7)
        call()
        for answer in ({"reply": "pending"}, {"error": "gone"}, {"reply": "no-ticket"}):
            self.fake.say("collect", answer)
            self.assertEqual(call(), 7)
            self.assert_settled()

    def test_a_run_that_fails_as_its_connection_is_lost_has_failed(self) -> None:
        def fail(error: BaseException) -> None:
            self.fake.drop()
            raise error

        client = self.client()
        call = client.command("catalog", fallback=lambda error, *, cause: repr(cause))(fail)
        self.assertIsInstance(self.told(call, OSError("down")), bulkhead.Failed)
        for error in (bulkhead.BadRequest(1), KeyboardInterrupt()):
            with self.assertRaises(type(error)):
                call(error)
        kept = client.command("report", fallback=lambda error, *, cause: type(cause), when_unreachable="fallback")(fail)
        self.assertEqual(kept(OSError("down")), bulkhead.Failed)
        self.assert_settled()

    def test_a_fallback_whose_connection_is_lost_has_its_own_value(self) -> None:
        def fallback(*, cause: bulkhead.CommandError) -> str:
            self.fake.drop()
            return "later"

        self.fake.say("submit", FALLBACK_DUE)
        self.assertEqual(self.client().command("catalog", fallback=fallback)(lambda: 7)(), "later")
        self.assert_settled()

    def test_a_connection_that_is_lost_before_an_answer_is_unreachable(self) -> None:
        call = self.client().command("catalog")(lambda: 7)
        self.fake.say("submit", None, None)
        self.assertIsInstance(self.told(call), bulkhead.Unreachable)
        self.fake.say("submit", FALLBACK_DUE)
        self.fake.say("collect", None)
        self.assertIsInstance(self.told(call), bulkhead.Unreachable)
        self.assertEqual(call(), 7)
        self.assert_settled()

    def test_an_exchange_that_is_interrupted_loses_the_connection_and_nothing_else(self) -> None:
        client = self.client()
        call = client.command("catalog")(lambda: 7)
        call()

        class Interrupt(BaseException):
            pass

        def interrupt() -> None:
            raise Interrupt

        self.fake.held.add("submit")
        sent = self.signalled(interrupt, lambda: self.fake.last()["op"] == "submit")
        with self.assertRaises(Interrupt):
            call()
        sent()
        self.fake.let_go("submit")
        self.assertEqual(call(), 7)
        self.assert_settled()

    def test_a_call_of_a_signal_handler_in_the_midst_of_a_line_is_refused(self) -> None:
        client = self.client()
        call, other = client.command("catalog")(lambda: 7), client.command("report")(lambda: 1)
        call(), other()
        told: list[Any] = []

        def call_other() -> None:
            told.append(self.told(other))
            self.fake.let_go("submit")

        self.fake.held.add("submit")
        sent = self.signalled(call_other, lambda: self.fake.last()["op"] == "submit")
        self.assertEqual(call(), 7)
        sent()
        self.assertEqual([type(one) for one in told], [bulkhead.Reentered])
        self.assert_settled()

    def test_a_client_that_is_closed_is_stopped(self) -> None:
        with self.client() as client:
            call = client.command("catalog")(lambda: 7)
            call(), call()
        with self.assertRaises(bulkhead.Stopped):
            call()
        self.fake.until(lambda: not self.fake.open_now())

    def test_a_client_that_is_closed_in_the_midst_of_a_call_leaves_its_value(self) -> None:
        client, gate = self.client(), Gate()
        wait = self.in_thread(client.command("catalog")(gate), 7)
        gate.wait()
        client.close()
        gate.open()
        self.assertEqual(wait(), 7)
        self.assert_settled()

    def test_a_forked_child_goes_on_over_a_connection_of_its_own(self) -> None:
        client = self.client()
        call = client.command("catalog")(lambda: 7)
        call(), call()
        before = self.fake.connections
        child = os.fork()
        if child == 0:
            try:
                os._exit(0 if call() == 7 else 1)
            finally:
                os._exit(2)
        self.assertEqual(os.waitstatus_to_exitcode(os.waitpid(child, 0)[1]), 0)
        self.assertEqual(self.fake.connections, before + 1)
        self.assertEqual(call(), 7)
        self.assertEqual({of for of, line in self.fake.lines if line["op"] == "submit"}, {1, 2, before + 1})
        self.assert_settled()

    def test_a_child_that_is_forked_in_the_midst_of_a_run_does_not_end_it(self) -> None:
        children: list[int] = []

        def run() -> int:
            children.append(os.fork())
            return 7 if children[0] else 8

        call = self.client().command("catalog")(run)
        call_value = call()
        if not children[0]:
            os._exit(0 if call_value == 8 else 1)
        self.assertEqual(os.waitstatus_to_exitcode(os.waitpid(children[0], 0)[1]), 0)
        self.assertEqual(call_value, 7)
        self.assertEqual(self.fake.ops(), ["submit", "finish", "collect"])
        self.assert_settled()


class Wire(ShareCase):
    def test_answers_are_cut_wherever_they_come(self) -> None:
        listener = socket.create_server(("127.0.0.1", 0))
        self.addCleanup(listener.close)
        gate = Gate()

        def serve() -> None:
            one, _ = listener.accept()
            with one:
                one.recv(1000)
                for byte in b'{"reply":"idle"}\n{"reply":"do':
                    one.sendall(bytes([byte]))
                gate(None)
                one.sendall(b'ne"}\n')
                one.recv(1000)
                one.sendall(b"what\n")

        served = self.in_thread(serve)
        link = Connection(listener.getsockname()[1], 10)
        wait = self.in_thread(link.ask, b'{"op":"start"}\n', b'{"op":"finish"}\n')
        gate.wait()
        gate.open()
        self.assertEqual(wait(), [{"reply": "idle"}, {"reply": "done"}])
        with self.assertRaisesRegex(Lost, "no service"):
            link.ask(b"{}\n")
        with self.assertRaises(Lost):
            link.ask(b"{}\n")
        served()

    def test_a_service_that_accepts_nobody_is_slow(self) -> None:
        path = str(self.folder() / "share.sock")
        with socket.socket(socket.AF_UNIX) as listener:
            listener.bind(path)
            listener.listen(0)
            waiting: list[Connection] = []
            with self.assertRaises(Lost) as lost:
                while len(waiting) < 100:
                    waiting.append(Connection(path, 0.01))
        self.assertTrue(lost.exception.is_slow)
        for link in waiting:
            link.close()

    def test_many_lines_are_answered_in_their_order(self) -> None:
        link = Connection(str(self.fake.path), 10)
        self.addCleanup(link.close)
        lines = [b'{"op":"finish","group":"catalog","ticket":%d,"body":""}\n' % at for at in range(1000)]
        self.assertEqual(link.ask(*lines), [{"reply": "not-running"}] * 1000)

    def test_a_pause_grows_and_ends(self) -> None:
        clock = Moment()
        pause = Pause(clock)
        self.assertTrue(pause.is_over())
        pause.failed()
        self.assertFalse(pause.is_over())
        clock.now += Pause.SHORTEST
        self.assertTrue(pause.is_over())
        pause.answered()
        pause.failed()
        self.assertEqual(pause.length, Pause.SHORTEST)
