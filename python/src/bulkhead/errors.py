"""What the package raises.

Every class but `BadRequest` is an `Error`. A call of a command that has no value raises a `CommandError`, whose class
names why; what a call of the low level could not do is raised as one of the other classes, and nothing was done then.
"""

from __future__ import annotations

from typing import Any, Optional, Union

from . import _words as words


class Error(Exception):
    """Something was not done, for the reason that the text says."""


class Refused(Error):
    """Settings, a change of them, or a declaration, are refused. For settings the text is the program's.

    Of a value that is refused, `value` is what stands there, where that is a number, a truth value or a text, and `range` the
    least and the greatest number that the property may have. `line` is where in the settings the refused name stands, from 1.
    Each is None where it does not apply. Of settings it is the program `bulkhead` that tells them (see `bulkhead.lint`), and
    where there is none they are None.
    """

    line: Optional[int] = None
    value: Union[int, str, None] = None
    range: Optional[tuple[int, int]] = None


class NotTunable(Refused):
    """New settings are not taken by `reload`, and nothing was changed.

    `properties` has each that is another one there and cannot change while the service is open, as "payment maxQueueSize".
    """

    properties: tuple[str, ...] = ()


class SettingsWarning(UserWarning):
    """Settings are taken, and may surprise. `warnings` switches it off, by this class."""


class UnknownNameWarning(SettingsWarning):
    """Settings have a name that nothing looks up, as one that is misspelt. `warnings` switches it off, by this class."""


class NoMemory(Error):
    """Memory was refused."""


class BadLine(Error):
    """A line is of more than 1,024 bytes, or not UTF-8."""


class BadStep(Error):
    """A step names no operation, or an argument of it is of a wrong type, out of its range, or too long."""


class BadKey(Error, TypeError):
    """A key is neither a `str` nor an `int`."""


class BadText(Error):
    """A value cannot be told to another process: what tells it as text gave none, or one of more than 256 bytes."""


class NoSuchCommand(Error):
    """No command of the group has the name."""


class NotOpen(Error):
    """The service of steps was closed."""


class BadRequest(Exception):
    """Raised by a command's function: the request is at fault, and not the dependency.

    It passes through to the caller, counts for no circuit breaker, and has no fallback.
    """


class CommandError(Error):
    """A call of a command has no value.

    `cause` is why the run gave none ("short-circuited", "thread-pool-rejected", "semaphore-rejected", "failure", "timeout"
    or "group-full"), and `fallback` why the fallback gave none ("failed", "rejected", "missing" or "disabled"); each is None
    where it does not apply. `__cause__` is the function's exception, if it raised one. `fallback_error` is the fallback's,
    if that raised one: it stands in the text, and in the chain of `__context__`.
    """

    cause: Optional[str] = None
    fallback: Optional[str] = None
    fallback_error: Optional[BaseException] = None


class ShortCircuited(CommandError):
    """The circuit breaker of the command is open."""


class PoolRejected(CommandError):
    """Neither a worker nor a place in the queue was free."""


class SemaphoreRejected(CommandError):
    """No permit was free."""


class Failed(CommandError):
    """The function raised an exception, which is the `__cause__`."""


class FailedResult(Failed):
    """The function gave a value that counts as a failure, by `failed_result=`. It stands in `value`."""

    value: Any = None


class TimedOut(CommandError):
    """The run took longer than it may."""


class GroupFull(CommandError):
    """No slot of the group is free: each call that is under way takes one, and a key holds one until its context ends."""

    cause = "group-full"


class Worn(CommandError):
    """The group has made all the steps that it may."""


class Stopped(CommandError):
    """The service or the client was closed; or this process was forked in the midst of the call, or with `after_fork="stop"`."""


class Unreachable(CommandError):
    """The service that processes share cannot be asked. `__cause__` says why; `cause` is None, as no run was decided on."""


class Interrupted(CommandError):
    """The run was ended by an exception that says nothing of the dependency, as a KeyboardInterrupt."""


class Reentered(CommandError):
    """The call would wait for its own thread."""


class NoSuchGroup(CommandError):
    """No group that is there has the name: none had it, or the last that had it was retired."""


_OF_CAUSES: tuple[type[CommandError], ...] = (ShortCircuited, PoolRejected, SemaphoreRejected, Failed, TimedOut)


class FailedValue(Exception):
    """In the place of a function's exception: it gave a value that counts as a failure."""

    def __init__(self, value: Any) -> None:
        super().__init__("the value counts as a failure")
        self.value = value


def error_of(
    name: str,
    cause: int,
    fallback: Optional[int] = None,
    reason: Optional[BaseException] = None,
    raised: Optional[BaseException] = None,
) -> CommandError:
    """A new error of a command by the numbers of its cause and of what became of its fallback.

    `reason` is what its function raised, and `raised` what its fallback did.
    """
    word = words.CAUSES[cause - 1]
    if isinstance(reason, FailedValue):
        error: CommandError = FailedResult(f"{name}: {word}, as its value counts for one")
        error.value, reason = reason.value, None  # type: ignore[attr-defined]
    else:
        error = _OF_CAUSES[cause - 1](f"{name}: {word}")
    error.cause = word
    error.fallback = words.FALLBACKS[fallback - 1] if fallback else None
    error.__cause__ = reason
    add_fallback_error(error, raised)
    return error


def add_fallback_error(error: CommandError, raised: Optional[BaseException]) -> None:
    """Has an error tell what its fallback raised, if it raised something."""
    if raised is None:
        return
    error.fallback_error = error.__context__ = raised
    error.__suppress_context__ = error.__cause__ is not None
    error.args = (f"{error}; the fallback raised {_said(raised)}",)


def _said(error: BaseException) -> str:
    """An exception in one line: its class, and its text if it has one."""
    try:
        text = str(error)
    except Exception:
        text = ""
    return f"{type(error).__name__}: {text}" if text else type(error).__name__


_OF_CODES: dict[int, tuple[type[Error], str]] = {
    1: (Refused, "the settings are refused"),
    2: (NoMemory, "memory was refused"),
    3: (Error, "the buffer is too short"),
    4: (BadLine, "the line is of more than 1,024 bytes, or not UTF-8"),
    5: (NoSuchGroup, "no group has the name"),
    6: (BadStep, "a text is not UTF-8"),
    7: (BadStep, "a text is too long"),
    8: (BadStep, "no operation has the number"),
    9: (NoSuchCommand, "no command of the group has the name"),
    10: (NotOpen, "the service is closed"),
    11: (Refused, "no property of the name may change while a group runs"),
    12: (Refused, "the value is out of the range of its property"),
}


def raise_unless_done(code: int) -> None:
    """Raises what a number of the library stands for, unless the call was done."""
    if code:
        kind, text = _OF_CODES[code]
        raise kind(text)
