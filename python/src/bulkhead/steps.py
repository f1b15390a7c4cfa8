"""The service step by step: what a program that keeps its own threads and clock uses.

    with Service(settings) as service:
        ticket = service.step("submit", group="catalog", now=0, text="item 7").number
        line = service.line(b'{"op":"read","group":"catalog","now":0}')

Any thread may call; a lock takes the calls one at a time. docs/DEFINITIONS.md tells what each step does.
"""

from __future__ import annotations

import os
import threading
import weakref
from ctypes import byref, c_char, c_size_t, c_uint8, c_uint64
from dataclasses import dataclass
from typing import Any, Optional, Union

from . import _library, _words as words
from ._closing import Closing
from .errors import BadStep, Error, NotOpen, Reentered, Refused, raise_unless_done

_NUMBERED = {word: number for number, word in enumerate(words.OPERATIONS, 1)}
_NUMBERED_KINDS = frozenset(("queued", "inline", "fallback-due", "joined", "assigned", "expired", "closed"))
_CAUSED_KINDS = frozenset(("fallback-due", "run-fallback", "fallback-value", "error"))
_TEXT_KINDS = frozenset(("assigned", "value", "fallback-value"))
_ARGUMENT_ROOM = 64
_KEYED = words.SUBMIT_SHARED
_IN_CONTEXT = (words.SUBMIT_SHARED, words.CLOSE_CONTEXT, words.TUNE)
# the operations whose text has less room than a body
_SHORT_TEXTS = (words.SUBMIT, words.SUBMIT_SHARED, words.TUNE)


@dataclass(frozen=True)
class Reply:
    """A reply: its kind, and of the others those that the kind has; what it has not is None."""

    kind: str
    number: Optional[int] = None
    command: Optional[int] = None
    cause: Optional[str] = None
    fallback: Optional[str] = None
    text: Optional[str] = None
    metrics: Optional[dict[str, Union[int, str]]] = None
    totals: Optional[dict[str, int]] = None


def metrics_in(reply: bytearray) -> dict[str, Union[int, str]]:
    """The metrics that stand in the bytes of a reply."""
    told: dict[str, Union[int, str]] = dict(zip(words.METRICS, _library.METRICS.unpack_from(reply, _library.METRICS_AT)))
    told["circuit"] = words.CIRCUITS[int(told["circuit"]) - 1]
    return told


def _totals_in(reply: bytearray) -> dict[str, int]:
    """The counts of events that stand in the bytes of a reply."""
    told = dict(zip(words.METRICS, _library.METRICS.unpack_from(reply, _library.METRICS_AT)))
    return {name: told[name] for name in words.EVENTS}


def _reply_in(reply: bytearray) -> Reply:
    kind, cause, fallback, length, number, command = _library.REPLY.unpack_from(reply)
    word = words.KINDS[kind - 1]
    at = _library.REPLY_TEXT_AT
    return Reply(
        word,
        number=number if word in _NUMBERED_KINDS else None,
        command=command if word == "assigned" else None,
        cause=words.CAUSES[cause - 1] if word in _CAUSED_KINDS else None,
        fallback=words.FALLBACKS[fallback - 1] if word == "error" else None,
        text=reply[at : at + length].decode() if word in _TEXT_KINDS else None,
        metrics=metrics_in(reply) if word == "metrics" else None,
        totals=_totals_in(reply) if word == "totals" else None,
    )


def close_held(held: _library.Held, process: int) -> None:
    """Gives the memory of a service back, in the process that took it alone."""
    if os.getpid() == process:
        _library.library.bulkhead_close(byref(held))


def _number(value: Any, what: str, bits: int = 64) -> int:
    if type(value) is not int:
        raise BadStep(f"{what} is a whole number, and not {type(value).__name__}")
    if not 0 <= value < 1 << bits:
        raise BadStep(f"{what} is 0 to {(1 << bits) - 1}, and not {value}")
    return value


def _bytes(value: Any, what: str, room: int) -> bytes:
    if not isinstance(value, str):
        raise BadStep(f"{what} is a str, and not {type(value).__name__}")
    try:
        told = value.encode()
    except UnicodeEncodeError:
        raise BadStep(f"{what} is not UTF-8") from None
    if len(told) > room:
        raise BadStep(f"{what} has at most {room} bytes, and not {len(told)}")
    return told


def _raw(value: Any, what: str) -> bytes:
    if not isinstance(value, (bytes, bytearray, memoryview)):
        raise Error(f"{what} is given as bytes, and not as {type(value).__name__}")
    return bytes(value)


class Service(Closing):
    """A service of new groups, by the bytes of a settings file. `Refused` is raised where they are refused.

    A service that is dropped gives its memory back, as one that is closed does.
    """

    def __init__(self, settings: bytes) -> None:
        given = _raw(settings, "a settings file")
        held, why, length = _library.Held(), (c_uint8 * _library.WHY_ROOM)(), c_size_t()
        code = _library.library.bulkhead_open(byref(held), given, len(given), why, len(why), byref(length))
        if code == 1:
            raise Refused(bytes(why[: min(length.value, len(why))]).decode(errors="replace"))
        raise_unless_done(code)
        self.held = held
        self.given = bytearray(_library.STEP_SIZE)
        self.told = bytearray(_library.REPLY_SIZE)
        # the words of 8 bytes that a reply begins with
        self.numbers = memoryview(self.told)[: _library.REPLY.size].cast("Q")
        step = (c_char * _library.STEP_SIZE).from_buffer(self.given)
        reply = (c_char * _library.REPLY_SIZE).from_buffer(self.told)
        self.places = byref(held), byref(step), byref(reply)
        self._lock, self._is_in_call = threading.RLock(), False
        self._finalizer = weakref.finalize(self, close_held, held, os.getpid())
        self._finalizer.atexit = False

    def close(self) -> None:
        """Gives the memory back; a service that is closed already is left alone. Every later call is `NotOpen`."""
        with self._lock:
            self._finalizer()

    def forget(self) -> None:
        """In a forked process: the memory is left alone, and every call is `NotOpen`."""
        self._finalizer.detach()

    def _call(self, function: Any, *arguments: Any) -> int:
        """One call of the library, under the lock. A signal handler in the midst of another is `Reentered`."""
        if self._is_in_call:
            raise Reentered("the service is in the midst of a call of this thread")
        self._is_in_call = True
        try:
            if not self._finalizer.alive:
                raise NotOpen("the service is closed")
            return int(function(byref(self.held), *arguments))
        finally:
            self._is_in_call = False

    def group(self, name: str) -> int:
        """The number of the group of the name: of those that had it the last, where it was not retired."""
        number, given = c_uint64(), _bytes(name, "a name", 1 << 20)
        with self._lock:
            raise_unless_done(self._call(_library.library.bulkhead_group, given, len(given), byref(number)))
        return number.value

    def command(self, group: Union[str, int], name: str) -> int:
        """The number of the command of the name in a group, which is named or given by its number."""
        of = self.group(group) if isinstance(group, str) else _number(group, "a group")
        number, given = c_uint8(), _bytes(name, "a name", 1 << 20)
        with self._lock:
            raise_unless_done(self._call(_library.library.bulkhead_command, of, given, len(given), byref(number)))
        return number.value

    def step(
        self,
        operation: str,
        group: Union[str, int],
        now: int,
        ticket: int = 0,
        text: str = "",
        context: int = 0,
        key: str = "",
        command: Union[str, int] = 0,
    ) -> Reply:
        """Makes a step of a group and, where it is a submit, a read, a tune or totals, of a command, each named or given by its number.

        A `tune` has the name of the property as `text`, and as `context` its value, where a truth value is 0 or 1.

        Raises `Refused` where a property of the name may not change, or not to the value. Raises `BadStep` where an argument is of a wrong type, out of its range or too long, and where one is given that
        counts for another operation alone, as a context for a `submit`.
        """
        code = _NUMBERED.get(operation) if isinstance(operation, str) else None
        if code is None:
            raise BadStep(f"no operation is called {operation!r}")
        if context and code not in _IN_CONTEXT or key and code != _KEYED:
            meant = "submit-shared" if code == words.SUBMIT else " or ".join(words.OPERATIONS[n - 1] for n in _IN_CONTEXT[:2])
            raise BadStep(f"a {operation} has no context and no key: {meant} is meant")
        of = self.group(group) if isinstance(group, str) else _number(group, "a group")
        which = self.command(of, command) if isinstance(command, str) else _number(command, "a command", 8)
        moment, of_ticket, of_context = _number(now, "now"), _number(ticket, "a ticket"), _number(context, "a context")
        room = _ARGUMENT_ROOM if code in _SHORT_TEXTS else _library.TEXT_ROOM
        of_key, of_text = _bytes(key, "a key", _library.KEY_ROOM), _bytes(text, "a text", room)
        with self._lock:
            if self._is_in_call:
                raise Reentered("the service is in the midst of a call of this thread")
            given = self.given
            _library.STEP.pack_into(given, 0, of, moment, of_ticket, of_context, code, len(of_key), len(of_text))
            given[_library.KEY_AT : _library.KEY_AT + len(of_key)] = of_key
            given[_library.TEXT_AT : _library.TEXT_AT + len(of_text)] = of_text
            given[_library.COMMAND_AT] = which
            _, step, reply = self.places
            raise_unless_done(self._call(_library.make_step, step, reply))
            return _reply_in(self.told)

    def line(self, line: bytes) -> bytes:
        """Answers a line of bytes, which has no line feed, by a line with its line feed."""
        given = _raw(line, "a line")
        answer, length = _library.Answer(), _library.Length()
        self.line_into(given, answer, length)
        return bytes(answer[: length.value])

    def line_into(self, line: bytes, answer: Any, length: Any) -> None:
        """Answers a line into a place of the caller's."""
        with self._lock:
            into = (answer, len(answer), byref(length))
            raise_unless_done(self._call(_library.library.bulkhead_line, line, len(line), *into))

    def check(self) -> bytes:
        """The text of what is in force, as `bulkhead check` prints it."""
        text, length = (c_uint8 * 1)(), c_size_t()
        with self._lock:
            if self._call(_library.library.bulkhead_check, text, 0, byref(length)) == 3:
                text = (c_uint8 * length.value)()
            raise_unless_done(self._call(_library.library.bulkhead_check, text, len(text), byref(length)))
        return bytes(text[: length.value])
