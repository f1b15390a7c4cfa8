"""Calls that are made with less and less room in the stack."""

from __future__ import annotations

import sys
from collections.abc import Callable
from typing import Any

from bulkhead import CommandError

# how many frames a call may have before the stack overflows, which is tried one by one
ROOM = range(1, 70)


def depth() -> int:
    """How many frames the stack has where it is called."""
    frame, count = sys._getframe(1), 0
    while frame is not None:
        frame, count = frame.f_back, count + 1  # type: ignore[assignment]
    return count


def overflowing(call: Callable[[], Any]) -> int:
    """Makes a call with more and more room in the stack, and tells how often it overflowed."""
    before, count = sys.getrecursionlimit(), 0
    for room in ROOM:
        limit = depth() + room
        try:
            sys.setrecursionlimit(limit)
            call()
        except RecursionError:
            count += 1
        except CommandError as error:
            if not isinstance(error.__cause__, RecursionError):
                raise
            count += 1
        finally:
            sys.setrecursionlimit(before)
    return count
