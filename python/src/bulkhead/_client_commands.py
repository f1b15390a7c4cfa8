"""Commands of a client: functions whose calls are decided on by a service that processes share."""

from __future__ import annotations

from collections.abc import Callable, Coroutine
from concurrent.futures import Future
from typing import TYPE_CHECKING, Any, Generic, Optional, TypeVar

from . import _client_calls, _client_coroutines
from ._client_bodies import ClientBody, Keyed
from ._client_calls import Call
from ._client_contexts import ClientContext, key_name
from ._declared import Declared, not_queued
from ._typing import ParamSpec
from .contexts import checked_key
from .errors import Refused

if TYPE_CHECKING:
    from .client import Client

P = ParamSpec("P")
R = TypeVar("R")
T = TypeVar("T")


class _ClientDeclared(Declared):
    """What the two kinds of command share."""

    _body: ClientBody

    def __init__(self, client: Client, body: ClientBody, key: Optional[Callable[..., Any]]) -> None:
        super().__init__(body)
        self._client, self._key = client, key

    def queue(self, *args: Any, **kwargs: Any) -> Future[Any]:
        """Refused: a command of a client runs in its caller, under SEMAPHORE."""
        raise not_queued(self.name)

    def _call(self, arguments: tuple[Any, ...], named: dict[str, Any]) -> Call:
        """A call that has not been submitted yet."""
        self._body.refuse_queued()
        arguments = (*self._bound, *arguments)
        keyed = None if self._key is None else self._keyed(self._key, arguments, named)
        return Call(self._body, arguments, named, keyed)

    def _keyed(
        self, key: Callable[..., Any], arguments: tuple[Any, ...], named: dict[str, Any]
    ) -> Optional[Keyed]:
        """The request context and the key of a call, if it has both."""
        context = self._client.current.get()
        if not isinstance(context, ClientContext) or not context.is_open or not self._body.place.settings.is_cached:
            return None
        checked = checked_key(key(*arguments, **named))
        return None if checked is None else (context, key_name(checked))


class ClientCommand(_ClientDeclared, Generic[P, R]):
    """A command of a plain function, which runs in its caller's thread. To call it is to execute it."""

    def __call__(self, *args: P.args, **kwargs: P.kwargs) -> R:
        """Executes the command: its value, or the fallback's.

        Raises a `CommandError` where there is neither, which is `Unreachable` where the service cannot be asked.
        """
        value: R = _client_calls.execute(self._call(args, kwargs))
        return value

    async def run(self, *args: P.args, **kwargs: P.kwargs) -> R:
        """Refused, as `queue` is: a coroutine function is awaited by its call."""
        raise Refused(f"{self.name} is a plain function, and runs in the thread of its caller: call it")


class AsyncClientCommand(_ClientDeclared, Generic[P, T]):
    """A command of a coroutine function, which runs as a task of its caller's loop. To await its call is to execute it."""

    def __call__(self, *args: P.args, **kwargs: P.kwargs) -> Coroutine[Any, Any, T]:
        """Executes the command: its value, or the fallback's, which may be a coroutine function too."""
        return self.run(*args, **kwargs)

    async def run(self, *args: P.args, **kwargs: P.kwargs) -> T:
        """The same.

        Where the client was given the settings, the caller is answered at the command's timeout, and the task is cancelled.
        """
        value: T = await _client_coroutines.execute(self._call(args, kwargs))
        return value
