"""What the tests of interrupts share: a call that is interrupted at a place of the package, or by the kernel."""

from __future__ import annotations

import inspect
import itertools
import random
import signal
import sys
import unittest
from collections.abc import Callable
from types import FrameType
from typing import Any, Optional

from bulkhead import CommandError


# an earlier Python looks for signals at jumps, too, and not only where a call begins or ends
FROM_3_11 = unittest.skipIf(sys.version_info < (3, 11), "before Python 3.11 an interrupt may leave something behind")


class Interrupt(KeyboardInterrupt):
    """What the signal handler of these tests raises. A loop lets it out as it does a KeyboardInterrupt."""


def at_place(call: Callable[[], Any], number: int) -> bool:
    """Makes a call that is interrupted at that place of the package; whether it came so far.

    Places are the begins of functions and the ends of calls, which is where the interpreter looks for signals. A
    coroutine that pauses is none.
    """
    places, was_reached = itertools.count(1), False

    def profile(frame: FrameType, event: str, argument: object) -> None:
        nonlocal was_reached
        code = frame.f_code
        is_place = event != "c_call" and not (event == "return" and code.co_flags & inspect.CO_COROUTINE)
        if is_place and "/bulkhead/" in code.co_filename and next(places) == number:
            sys.setprofile(None)
            was_reached = True
            raise Interrupt

    try:
        sys.setprofile(profile)
        call()
    except (Interrupt, CommandError):
        pass
    finally:
        sys.setprofile(None)
    return was_reached


class Alarm:
    """A signal of the kernel that raises an Interrupt once it was armed: once, and at a random moment."""

    def __init__(self, case: unittest.TestCase) -> None:
        self.is_armed = False
        before = signal.signal(signal.SIGALRM, self.ring)
        case.addCleanup(signal.signal, signal.SIGALRM, before)

    def ring(self, number: int, frame: Optional[FrameType]) -> None:
        if self.is_armed:
            self.is_armed = False
            raise Interrupt

    def arm(self, longest: float) -> None:
        """From now on it rings within so many seconds."""
        self.is_armed = True
        signal.setitimer(signal.ITIMER_REAL, random.uniform(0.000_001, longest))
