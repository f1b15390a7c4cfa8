"""What commands share, those of a service of this process and those of a client: how they are made of functions."""

from __future__ import annotations

import copy
import functools
from collections.abc import Callable
from typing import Any, Optional, TypeVar

from . import _coroutines
from ._runs import Body
from .errors import Refused

Self = TypeVar("Self", bound="Declared")


class Declared:
    """A command that was made of a function."""

    def __init__(self, body: Body) -> None:
        # of a command below it nothing but its name and its text is taken over: both decide, this one first
        attributes = () if isinstance(body.function, Declared) else functools.WRAPPER_UPDATES
        functools.update_wrapper(self, body.function, updated=attributes)
        self._body = body
        # the instance, where it is the command of a method that was bound
        self._bound: tuple[Any, ...] = ()

    @property
    def is_awaited(self) -> bool:
        """Whether it is the command of a coroutine function."""
        return self._body.is_awaited

    @property
    def name(self) -> str:
        """The name of the command, by which its metrics go."""
        return self._body.place.spelled

    def __get__(self: Self, instance: object, owner: Optional[type] = None) -> Self:
        """The command of a method is bound as the method would be."""
        if instance is None:
            return self
        made = copy.copy(self)
        made._bound = (instance,)
        return made


def is_coroutine_command(name: str, function: Callable[..., Any], fallback: Optional[Callable[..., Any]]) -> bool:
    """Whether the command of a function is awaited. `Refused` where its fallback alone would be."""
    is_coroutine = _is_awaited(function)
    if not is_coroutine and _is_awaited(fallback):
        raise Refused(f"the fallback of {name} is a coroutine function, and the function is none")
    return is_coroutine


def _is_awaited(function: object) -> bool:
    """Whether a call of a function, or of another command, is awaited."""
    return function.is_awaited if isinstance(function, Declared) else _coroutines.is_coroutine_function(function)


def not_queued(name: str) -> Refused:
    """The error of a command that runs in its caller, and was to be queued."""
    return Refused(f"{name} runs under SEMAPHORE: to queue it, it has to run under THREAD")
