"""What of a function's exceptions and values is a failure, as the declaration of its command says."""

from __future__ import annotations

from collections.abc import Callable, Iterable
from typing import Any, Optional, Union

from . import _words as words
from ._unraisable import tell_unraisable
from .errors import BadRequest, FailedValue, Refused

# exception classes, or what is called with an exception and tells whether it is meant
Which = Union[type[Exception], Iterable[type[Exception]], Callable[[Exception], object]]
# how a run ended: the operation that tells it, its value and its exception
End = tuple[int, Any, Optional[BaseException]]


class LoopClosed(RuntimeError):
    """The event loop of a run was closed in the midst of it."""


class Judge:
    """Tells how a run ended, by what its function raised or gave. It is asked in the function's thread, outside of a turn."""

    def __init__(
        self,
        is_failure: Optional[Callable[[Exception], object]] = None,
        is_ignored: Optional[Callable[[Exception], object]] = None,
        is_failed_result: Optional[Callable[[Any], object]] = None,
    ) -> None:
        self._is_failure, self._is_ignored, self._is_failed_result = is_failure, is_ignored, is_failed_result

    def of_value(self, value: Any) -> End:
        """How a run ended that gave a value."""
        try:
            if self._is_failed_result is None or not self._is_failed_result(value):
                return words.FINISH, value, None
        except Exception as error:
            return self.of_error(error)
        return words.FAIL, None, FailedValue(value)

    def of_error(self, error: BaseException) -> End:
        """How a run ended that raised: what says nothing of the dependency counts as a bad request."""
        return (words.FAIL if self._is_of_dependency(error) else words.FAIL_BAD_REQUEST), None, error

    def _is_of_dependency(self, error: BaseException) -> bool:
        if isinstance(error, BadRequest) or not isinstance(error, Exception):
            return False
        try:
            if self._is_ignored is not None and self._is_ignored(error):
                return False
            return self._is_failure is None or bool(self._is_failure(error))
        except Exception as raised:
            tell_unraisable(raised, self)
            return True


# of a command that says nothing of its failures: each exception but `BadRequest` is one, and no value
PLAIN = Judge()


def judge_of(
    name: str,
    failures: Optional[Which],
    ignored: Optional[Which],
    failed_result: Optional[Callable[[Any], object]],
) -> Judge:
    """What a declaration says of a command's failures. Raises `Refused` where it says nothing that can be asked."""
    if failures is None and ignored is None and failed_result is None:
        return PLAIN
    if failed_result is not None and not callable(failed_result):
        raise Refused(f"{name}: failed_result= is called with a value, and is no {type(failed_result).__name__}")
    return Judge(_asked(name, "failures=", failures), _asked(name, "ignored=", ignored), failed_result)


def _asked(name: str, option: str, which: Optional[Which]) -> Optional[Callable[[Exception], object]]:
    """What tells whether an exception is one of those that an option means."""
    if which is None:
        return None
    if callable(which) and not isinstance(which, type):
        return which
    kinds = (which,) if isinstance(which, type) else tuple(which) if isinstance(which, Iterable) else (which,)
    for kind in kinds:
        if not (isinstance(kind, type) and issubclass(kind, Exception)):
            raise Refused(f"{name}: {option} has classes of exceptions, or is called with one, and {kind!r} is neither")
    return lambda error: isinstance(error, kinds)


def passes_through(error: Optional[BaseException]) -> bool:
    """Whether an exception that ended a run as a bad request is handed to its caller as it is."""
    return isinstance(error, Exception) and not isinstance(error, LoopClosed)
