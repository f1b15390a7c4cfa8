"""Interrupts of a client's calls: at whatever place, nothing of the service is kept, and the next call goes its way."""

from __future__ import annotations

import contextlib
import itertools
import random
import sys
import warnings
from collections.abc import Callable
from typing import Any

import bulkhead
from interrupts import FROM_3_11, Alarm, Interrupt, at_place
from share_support import ShareCase


class Interrupts(ShareCase):
    def setUp(self) -> None:
        super().setUp()
        # a socket that was just made when the interrupt came is closed as it is dropped, which is told else
        warned = warnings.catch_warnings()
        warned.__enter__()
        self.addCleanup(warned.__exit__, None, None, None)
        warnings.simplefilter("ignore", ResourceWarning)
        self.addCleanup(setattr, sys, "unraisablehook", sys.unraisablehook)
        sys.unraisablehook = lambda told: None

    def at_each_place(self, call: Callable[[], Any], after: Callable[[], None]) -> int:
        """Interrupts a call at each of its places, and tells how many there were."""
        for number in itertools.count(1):
            if not at_place(call, number):
                return number - 1
            self.fake.until(self.fake.settled)
            after()
        raise AssertionError("there is a last place")

    def test_a_call_may_be_interrupted_at_each_place(self) -> None:
        client = self.client()
        call = client.command("catalog", fallback=lambda value, *, cause: 1 // value)(lambda value: 1 // value)
        for value in (1, 0):
            self.assertGreater(self.at_each_place(lambda: call(value), lambda: self.assertEqual(call(1), 1)), 20)

    def test_a_call_that_shares_its_answer_may_be_interrupted_at_each_place(self) -> None:
        client = self.client()
        call = client.command("catalog", key=lambda value: value, encode=str, decode=int)(lambda value: 1 // value)

        def after() -> None:
            self.assertEqual(([*client._bodies[0].at], [*client._links._lent]), ([], []))

        def shared() -> None:
            with contextlib.suppress(bulkhead.BadRequest):  # what the other call's run is told as, where it is interrupted
                call(value)

        for value in (1, 0):
            for number in itertools.count(1):
                # one call runs the function, and one shares the answer
                with client.context():
                    was_reached = [at_place(shared, number) for _ in range(2)]
                self.fake.until(self.fake.settled)
                after()
                if not any(was_reached):
                    break
            self.assertGreater(number, 50)
            self.fake.until(lambda: all(ticket.name is None for ticket in self.fake.tickets.values()))

    @FROM_3_11
    def test_contexts_may_be_interrupted_by_the_kernel_at_random_places(self) -> None:
        client, alarm, count = self.client(), Alarm(self), 0
        call = client.command("catalog", key=lambda value: value, encode=str, decode=int)(lambda value: 1 // value)

        def within_while_armed() -> None:  # a loop of its own: where one ends a `try`, some versions of Python leave it out
            while alarm.is_armed:
                with client.context():
                    call(1)
                    call(1)

        random.seed(3)
        while count < 300:
            try:
                alarm.arm(0.002)
                within_while_armed()
            except Interrupt:
                count += 1
            finally:
                alarm.is_armed = False
            self.assertIsNone(client.current.get())
        self.assertEqual(call(1), 1)
        self.fake.until(self.fake.settled)
        self.assertEqual([ticket for ticket in self.fake.tickets.values() if ticket.name is not None], [])
