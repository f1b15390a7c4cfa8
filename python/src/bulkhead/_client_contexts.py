"""Request contexts of a client: within one, calls with equal keys share one answer, also those of other processes."""

from __future__ import annotations

import secrets
from collections.abc import Callable
from contextlib import suppress
from contextvars import ContextVar
from hashlib import blake2b
from typing import TYPE_CHECKING, Any, Optional

from . import _lines
from ._connection import Lost
from .contexts import RequestContext
from .errors import Error, Stopped

if TYPE_CHECKING:
    from ._links import Links
    from ._shared_connection import SharedConnection

_NUMBERS = 1 << 64


class _Direct:
    """In the place of turns: what a context does at its end is done at once."""

    def __init__(self) -> None:
        self.owed: list[RequestContext] = []

    def turn(self, begin: Callable[..., Any], *arguments: Any) -> Any:
        return begin(*arguments)


class ClientContext(RequestContext):
    """A request context, from `with client.context():` until that block ends. It is entered once.

    `number` is what another process gives to `client.context(number)` to be within the same one. Each process ends it in the
    groups in which it made calls.
    """

    def __init__(
        self, links: Links, current: ContextVar[Optional[RequestContext]], number: Optional[int] = None
    ) -> None:
        if number is not None and (type(number) is not int or not 0 <= number < _NUMBERS):
            raise Error(f"a request context is a whole number from 0 to 2**64 - 1, and not {number!r}")
        super().__init__(_Direct(), current, secrets.randbits(64) if number is None else number)  # type: ignore[arg-type]
        self._links = links
        self.used: dict[str, None] = {}
        # over which connection the service was told that this process is within it, by groups
        self._entered: dict[str, SharedConnection] = {}

    def enter(self, group: str) -> None:
        """Tells the service that this process is within it, once for each connection that calls share. Raises `Lost`.

        Where the process dies, the service then ends the context for it. One that keeps no more of them, or knows of none,
        says so, and the calls go on: a death may leave a slot taken then.
        """
        link = self._links.shared()
        if self._entered.get(group) is link:
            return
        line = _lines.enter(group, self.number)
        try:
            link.ask(line)
        except Lost as lost:  # while nobody used it, as where the service began anew
            self._links.slowed(lost)
            link = self._links.shared()
            link.ask(line)
        self._entered[group] = link

    def left(self, group: str) -> None:
        """A connection was lost, and perhaps all were: the service may have ended it, and is told again."""
        self._entered.pop(group, None)

    def _close(self) -> None:
        """Ends it in each group, or has that done with the next connection. Begun anew where it was broken off."""
        while self.used:
            group = next(iter(self.used))
            self.end_in(group)
            self.used.pop(group, None)
        self.is_open = False

    def end_in(self, group: str) -> None:
        """Has the answers of a group cached no longer."""
        line = _lines.close(group, self.number)
        with suppress(Stopped):  # the client is closed, and tells nothing any more
            self._links.end_context(line)


def key_name(key: tuple[type, object]) -> str:
    """What every process calls a key of `checked_key` by: 32 letters that tell nothing of it."""
    kind, said = key
    return blake2b(f"{kind.__name__} {said}".encode(errors="surrogatepass"), digest_size=16).hexdigest()
