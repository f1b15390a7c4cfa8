"""What a client keeps of a command: its function, its fallback, how its values are told, and what is counted of its calls."""

from __future__ import annotations

from bisect import bisect_left
from collections.abc import Callable
from typing import TYPE_CHECKING, Any, NamedTuple, Optional
from weakref import WeakValueDictionary

from . import _lines, _words as words
from ._events import EXCEPTION_THROWN, FALLBACK_FAILURE, FALLBACK_MISSING, FALLBACK_REJECTION, FALLBACK_SUCCESS, TIMEOUT
from ._failures import PLAIN, Judge
from ._groups import Place
from ._runs import Body
from .errors import Refused
from .metrics import RUN_BOUNDS

if TYPE_CHECKING:
    from ._client_calls import Call
    from ._client_contexts import ClientContext
    from ._links import Links

# the request context of a call, and what the service knows its key by
Keyed = tuple["ClientContext", str]


class Texts(NamedTuple):
    """How a value is told to another process, and read there again."""

    encode: Callable[[Any], str]
    decode: Callable[[str], Any]


class ClientBody(Body):
    """A function with its fallback, as a command of a service that processes share."""

    def __init__(
        self,
        links: Links,
        place: Place,
        function: Callable[..., Any],
        fallback: Optional[Callable[..., Any]],
        is_awaited: bool,
        texts: Optional[Texts],
        falls_back: bool,
        judge: Judge = PLAIN,
    ) -> None:
        super().__init__(place, function, fallback, is_awaited, judge)
        self.links, self.texts, self.falls_back = links, texts, falls_back
        self.group_name = place.group.name
        self.command_name = place.settings.name if place.number else None
        self.plain_line = _lines.submit(self.group_name, self.command_name)
        # whether the service was seen to let callers run it, as it does under SEMAPHORE, or to queue it, as under THREAD
        self.is_inline = self.is_queued = False
        # the calls with a key that are under way, by the threads and tasks that are at each
        self.at: WeakValueDictionary[tuple[Keyed, object], Call] = WeakValueDictionary()
        self.unreachable = 0

    def checked_text(self, value: Any) -> str:
        """What `encode=` tells a value by. Raises what that raises, and `BadText` where it can't cross."""
        assert self.texts is not None, "a command with a key has texts"
        return _lines.checked_text(self.texts.encode(value), f"encode= of {self.place.spelled}")

    def refuse_queued(self) -> None:
        """Raises where the command runs under THREAD."""
        if self.is_queued:
            raise thread_refused(self.place.spelled)

    # -- counts, which threads share

    def count_event(self, kind: int) -> None:
        """An event of a call, by the number of its kind."""
        with self.links.counting:
            self.place.counters.events[kind] += 1

    def count_full(self) -> None:
        """A call found no slot free."""
        with self.links.counting:
            self.place.counters.full += 1

    def count_end(self, operation: int, told: object, took: float) -> None:
        """A run ended after so many seconds, and the service said "done" or "late"."""
        if told not in ("done", "late"):
            return
        counters, milliseconds = self.place.counters, int(took * 1000)
        with self.links.counting:
            row = counters.ended[operation if told == "done" else words.EXPIRE]
            row[bisect_left(RUN_BOUNDS, milliseconds)] += 1
            counters.run_ms += milliseconds
            counters.events[TIMEOUT] += told == "late"

    def count_answer(self, reply: object, fallback: Optional[str]) -> None:
        """A call that shares no answer was answered, with why no fallback gave a value where that is so."""
        if reply == "fallback-value":
            self.count_event(FALLBACK_SUCCESS)
        elif reply == "error":
            self.count_event(EXCEPTION_THROWN)
            if fallback in _OF_FALLBACKS:
                self.count_event(_OF_FALLBACKS[fallback])

    def count_unreachable(self) -> None:
        """A call found no service."""
        with self.links.counting:
            self.unreachable += 1


# the events of a fallback that gave no value, by the words of a reply
_OF_FALLBACKS = {"failed": FALLBACK_FAILURE, "missing": FALLBACK_MISSING, "rejected": FALLBACK_REJECTION}


def thread_refused(name: str) -> Refused:
    """Why a command of a pool is none for a client."""
    return Refused(
        f"{name} runs under THREAD, where the workers of bulkhead.work run what is queued: a command of a client runs in its"
        " caller, and has to run under SEMAPHORE"
    )
