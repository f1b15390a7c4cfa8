"""The lines that a service which processes share is asked by."""

from __future__ import annotations

import json
from typing import Any, Optional, Union

from .errors import BadText

TEXT_LIMIT = 256
ARG_LIMIT = 64
LINE_LIMIT = 1024
_WAIT = ',"wait":true'


def _line(**members: Any) -> bytes:
    said = {name: value for name, value in members.items() if value is not None}
    return json.dumps(said, separators=(",", ":"), ensure_ascii=False).encode() + b"\n"


def submit(
    group: str, command: Optional[str], arg: str = "", context: Optional[int] = None, key: Optional[str] = None
) -> bytes:
    """Asks for a run. A command of None is the group's own."""
    return _line(op="submit", group=group, command=command, arg=arg, context=context, key=key)


def start(group: str) -> bytes:
    """Asks for a queued run, and waits until there is one."""
    return _line(op="start", group=group, wait=True)


# Lines of tickets are of groups that the service has, whose names need no escapes, so they are put together by hand: a call
# has three, and `json` would take as long for them as the system does.


def finish(group: str, ticket: int, body: str = "") -> bytes:
    """Tells that a run gave a value, by a text of `checked_text`."""
    return f'{{"op":"finish","group":"{group}","ticket":{ticket},"body":{_text(body)}}}\n'.encode()


def fail(group: str, ticket: int, is_bad: bool) -> bytes:
    """Tells that a run failed, or that its request was bad."""
    return f'{{"op":"fail","group":"{group}","ticket":{ticket},"bad":{"true" if is_bad else "false"}}}\n'.encode()


def collect(group: str, ticket: int, waits: bool = False) -> bytes:
    """Asks for the answer of a ticket."""
    return f'{{"op":"collect","group":"{group}","ticket":{ticket}{_WAIT if waits else ""}}}\n'.encode()


def fallback(group: str, ticket: int, end: str, body: Optional[str] = None) -> bytes:
    """Tells how a fallback ended: "success" with a body, "failure" or "missing"."""
    said = "" if body is None else f',"body":{_text(body)}'
    return f'{{"op":"fallback","group":"{group}","ticket":{ticket},"end":"{end}"{said}}}\n'.encode()


def _text(text: str) -> str:
    return json.dumps(text, ensure_ascii=False) if text else '""'


def close(group: str, context: int) -> bytes:
    """Ends a request context in a group."""
    return _line(op="close", group=group, context=context)


def metrics(group: str, command: Optional[str]) -> bytes:
    """Asks for the metrics of a command."""
    return _line(op="metrics", group=group, command=command)


def tune(group: str, command: Optional[str], name: str, value: Union[int, bool]) -> bytes:
    """Asks that a property of a command has a value from now on."""
    return _line(op="tune", group=group, command=command, property=name, value=value)


def properties(group: str, command: Optional[str]) -> bytes:
    """Asks which properties of a command are in force."""
    return _line(op="properties", group=group, command=command)


def totals(group: str, command: Optional[str]) -> bytes:
    """Asks how many events of each kind a command has had."""
    return _line(op="totals", group=group, command=command)


def enter(group: str, context: int) -> bytes:
    """Tells that this process is within a request context, which then ends with the connection at the latest."""
    return _line(op="enter", group=group, context=context)


GROUPS = _line(op="groups")


def checked_text(text: object, whose: str, limit: int = TEXT_LIMIT) -> str:
    """A text of at most so many bytes, which can cross to another process. Raises `BadText` where it cannot."""
    if not isinstance(text, str):
        raise BadText(f"{whose} gave no str, but {type(text).__name__}")
    try:
        size = len(text.encode())
    except UnicodeEncodeError:
        raise BadText(f"{whose} gave a text that is not UTF-8") from None
    if size > limit:
        raise BadText(f"{whose} gave a text of {size} bytes, and {limit} are the most")
    # control characters take six bytes each in a line; group names have at most 32 and tickets 20
    if len(json.dumps(text, ensure_ascii=False).encode()) > LINE_LIMIT - 128:
        raise BadText(f"{whose} gave a text with too many control characters for a line of {LINE_LIMIT} bytes")
    return text
