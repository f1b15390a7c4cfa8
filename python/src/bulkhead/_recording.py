"""The record of a service: each step as a line of `bulkhead run`, and the replies if they are asked for."""

from __future__ import annotations

import json
import logging
import os
import threading
from pathlib import Path
from typing import TYPE_CHECKING, Any, BinaryIO, NamedTuple, Optional, Union

from . import _library, _words as words
from .errors import Error
from .steps import metrics_in

if TYPE_CHECKING:
    from ._core import Core
    from ._groups import Group

_log = logging.getLogger("bulkhead")
_unpack_step, _unpack_reply = _library.STEP.unpack_from, _library.REPLY.unpack_from
_KEY_AT, _COMMAND_AT = _library.KEY_AT, _library.COMMAND_AT
_ENDS = {
    words.FALLBACK_SUCCESS: "success",
    words.FALLBACK_FAILURE: "failure",
    words.FALLBACK_MISSING: "missing",
}
_TICKETS = (words.QUEUED, words.INLINE, words.FALLBACK_DUE, words.JOINED, words.ASSIGNED)
_CAUSED = (words.FALLBACK_DUE, words.RUN_FALLBACK, words.FALLBACK_VALUE, words.ERROR)


class Step(NamedTuple):
    """A step and its reply: their numbers, and the metrics if it was a read. A record ends with its last one."""

    numbers: tuple[int, ...]
    key: bytes
    command: int
    told: tuple[int, ...]
    is_last: bool
    metrics: Optional[dict[str, Any]]


class Act(NamedTuple):
    """The line of a registration or a retirement, and its answer."""

    line: bytes
    answer: bytes


Entry = Union[Step, Act]


class Record:
    """A record, which a thread of its own writes. `is_whole` tells whether all that was to be written was.

    Where it was not, `unwritten` is the number of steps that are missing, and `error` says why unless too many waited.
    """

    # how often it is written, in seconds, and how many steps wait at most
    INTERVAL, ROOM = 0.1, 1_000_000

    def __init__(
        self, path: Path, replies: Optional[Path], settings: bytes, turns: Core, timeout: float = 5.0
    ) -> None:
        if path.with_suffix(".toml") in (path, replies) or path == replies:
            raise Error("a record, its replies and its settings are three files")
        self._given, self._content, self._turns, self._timeout = (path, replies), settings, turns, timeout
        self._begin(path, replies)

    def _begin(self, path: Path, replies: Optional[Path]) -> None:
        self.path, self.replies, self.settings = path, replies, path.with_suffix(".toml")
        self.is_whole = True
        self.error: Optional[Exception] = None
        self.pending: list[Entry] = []
        self.is_last = False
        self._groups: dict[int, Group] = {}
        self._over, self._claim = threading.Event(), threading.Lock()
        self._thread: Optional[threading.Thread] = None
        # how many steps the thread is at, and how many are missing
        self._in_hand = self._missing = 0
        self._files: list[BinaryIO] = []
        self.settings.write_bytes(self._content)
        # unbuffered: what a forked child has of a buffer would be written twice
        self._files.append(path.open("wb", buffering=0))
        if replies is not None:
            self._files.append(replies.open("wb", buffering=0))

    @property
    def unwritten(self) -> int:
        """How many steps are not written, or not yet."""
        return self._missing + self._in_hand + len(self.pending)

    def start(self) -> None:
        """Starts the thread that writes. To start it twice is to start it once."""
        thread = threading.Thread(target=self._work, name="bulkhead-record", daemon=True)
        thread.start()
        self._thread = thread

    def entry(self, given: bytearray, reply: bytearray) -> Entry:
        """A step and its reply, under the lock."""
        step, told = _unpack_step(given), _unpack_reply(reply)
        key = bytes(given[_KEY_AT : _KEY_AT + step[5]])
        metrics = metrics_in(reply) if told[0] == words.METRICS_TOLD else None
        return Step(step, key, given[_COMMAND_AT], told, self.is_last, metrics)

    def keep(self, entry: Entry) -> None:
        """Keeps a step to be written, under the lock, unless there is no room for it or one before it is missing."""
        if self.is_whole and len(self.pending) < self.ROOM:
            self.pending += (entry,)
        else:
            self.is_whole = False
            self._missing += 1

    def _work(self) -> None:
        if not self._claim.acquire(blocking=False):
            return  # another thread is at it
        while not self._over.wait(self.INTERVAL):
            self._write()
        self._write()
        self._close()

    def _write(self) -> None:
        """Writes what was kept so far. A failure leaves the record not whole."""
        pending = self._turns.take_pending(self)
        self._in_hand = len(pending)
        try:
            if self.is_whole:
                lines = [self._lines(entry) for entry in pending]
                for at, file in enumerate(self._files):
                    _write_all(file, b"".join(line[at] for line in lines))
        except Exception as error:
            self.error, self.is_whole = error, False
        if not self.is_whole:
            self._missing += len(pending)
        self._in_hand = 0

    def _close(self) -> None:
        for file in self._files:
            file.close()
        self._files = []

    def finish(self) -> None:
        """Has the rest written and the files closed, and waits for that until its time is over."""
        if self._over.is_set():
            return
        self._over.set()
        thread = self._thread
        if thread is None:
            self._close()
            return
        thread.join(self._timeout)
        if thread.is_alive():
            self.is_whole = False
            self.error = TimeoutError(f"{self.path} took nothing more within {self._timeout:g} s")
            _log.warning("%s: %d steps were not written", self.error, self.unwritten)

    def drop(self) -> None:
        """Of a forked process: what its parent writes it does not."""
        self.is_whole, self.pending, self._in_hand = False, [], 0
        # the parent's thread may be at the event that was
        self._over = threading.Event()
        self._over.set()
        self._close()

    def renew(self, acts: list[Act]) -> None:
        """Of a forked process: begins anew in files of its own, with what was registered and retired so far.

        They are called as the parent's, with the number of the process behind a hyphen. Raises an OSError.
        """
        path, replies = self._given
        try:
            self._begin(_of_process(path), None if replies is None else _of_process(replies))
        except OSError as error:
            self.error, self.is_whole = error, False
            self._over.set()
            self._close()
            raise
        self.pending += acts

    def _group(self, number: int) -> Group:
        if number not in self._groups:
            self._groups = {group.number: group for group in self._turns.every_group}
        return self._groups[number]

    def _lines(self, entry: Entry) -> tuple[bytes, bytes]:
        if isinstance(entry, Act):
            return entry.line + b"\n", entry.answer
        group = self._group(entry.numbers[0])
        said = _step_line(group, entry)
        if entry.is_last:
            said["record"] = "whole"
        return _line(said), _line(dict(sorted(_reply_line(group, entry).items())))


def _of_process(path: Path) -> Path:
    """The path of a file of this process."""
    return path.with_name(f"{path.stem}-{os.getpid()}{path.suffix}")


def _line(said: dict[str, Any]) -> bytes:
    return json.dumps(said, separators=(",", ":")).encode() + b"\n"


def _write_all(file: BinaryIO, content: bytes) -> None:
    rest = memoryview(content)
    while rest:
        rest = rest[file.write(rest) :]


def _step_line(group: Group, step: Step) -> dict[str, Any]:
    """The members of a step's line. The core has no argument and no body of a call."""
    _, moment, ticket, context, operation, _, _ = step.numbers
    word = words.OPERATIONS[operation - 1]
    said: dict[str, Any] = {"op": word.partition("-")[0], "group": group.name, "now": moment}
    if operation in (words.SUBMIT, words.SUBMIT_SHARED):
        said |= {"arg": ""}
        if operation == words.SUBMIT_SHARED:
            said |= {"context": context, "key": step.key.decode()}
    elif operation in (words.FAIL, words.FAIL_BAD_REQUEST):
        said |= {"op": "fail", "ticket": ticket, "bad": operation == words.FAIL_BAD_REQUEST}
    elif operation in _ENDS:
        said |= {"ticket": ticket, "end": _ENDS[operation]}
    elif operation in (words.FINISH, words.COLLECT):
        said |= {"ticket": ticket}
    elif operation == words.CLOSE_CONTEXT:
        said |= {"context": context}
    if operation in (words.FINISH, words.FALLBACK_SUCCESS):
        said |= {"body": ""}
    if operation in (words.SUBMIT, words.SUBMIT_SHARED, words.READ) and step.command:
        said |= {"command": group.command_names()[step.command]}
    return said


def _reply_line(group: Group, step: Step) -> dict[str, Any]:
    """The members of a reply's line."""
    kind, cause, fallback, _, number, command = step.told
    said: dict[str, Any] = {"reply": words.KINDS[kind - 1]}
    if kind in _TICKETS:
        said |= {"ticket": number}
    if kind == words.ASSIGNED:
        said |= {"arg": ""} | ({"command": group.command_names()[command]} if command else {})
    elif kind in (words.VALUE, words.FALLBACK_VALUE):
        said |= {"body": ""}
    elif kind == words.EXPIRED:
        said |= {"count": number}
    elif kind == words.CLOSED:
        said |= {"released": number}
    if kind in _CAUSED:
        said |= {"cause": words.CAUSES[cause - 1]}
    if kind == words.ERROR:
        said |= {"fallback": words.FALLBACKS[fallback - 1]}
    metrics = step.metrics
    if metrics is not None:
        said |= {name: value for name, value in metrics.items() if name not in words.EVENTS}
        said |= {"events": {name.upper(): metrics[name] for name in words.EVENTS if metrics[name]}}
    return said
