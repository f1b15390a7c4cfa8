"""Exceptions that can be raised to nobody, as those of callbacks in a thread of the package."""

from __future__ import annotations

import weakref


class _Raises:
    """Raises an exception where the interpreter can hand it to nobody, and then tells whose it is."""

    def __init__(self, error: BaseException, whose: object) -> None:
        self._error, self._whose = error, whose

    def __call__(self, _: object) -> None:
        raise self._error

    def __repr__(self) -> str:
        return repr(self._whose)


class _Dropped:
    """What is dropped, which calls back."""


def tell_unraisable(error: BaseException, whose: object) -> None:
    """Hands an exception to `sys.unraisablehook`.

    Its argument is made by the interpreter alone, as for what a callback of a weak reference raises.
    """
    dropped = _Dropped()
    reference = weakref.ref(dropped, _Raises(error, whose))
    del dropped
    assert reference() is None, "it was dropped"
