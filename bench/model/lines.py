"""The lines of a script, and what is answered to them."""

from __future__ import annotations

import json
import re
from typing import Any, Iterator, Optional

from .group import Group, Reply
from .settings import Settings, is_name

LINE_LIMIT = 1024
MOST_GROUPS = 10_000
MOST_NESTED = 127

#: The members that a line of the operation has to have beside its group and its moment, by type.
MEMBERS: dict[str, dict[str, type]] = {
    "submit": {"arg": str},
    "start": {},
    "finish": {"ticket": int, "body": str},
    "fail": {"ticket": int, "bad": bool},
    "expire": {},
    "collect": {"ticket": int},
    "fallback": {"ticket": int, "end": str},
    "close": {"context": int},
    "read": {},
}

#: How many bytes a text may have.
BOUNDS = {"arg": 64, "key": 32, "body": 256}


class Fault(Exception):
    """A line that asks for nothing, by its word."""


class LineEnds(Exception):
    """A line that ends the run."""


def cut(data: bytes) -> Iterator[str]:
    """The lines of the input; `LineEnds` comes at the first that is too long or not UTF-8."""
    *whole, rest = data.split(b"\n")
    if rest not in (b"", b"\r"):
        whole.append(rest)
    for line in whole:
        if len(line) > LINE_LIMIT:
            raise LineEnds
        try:
            yield line.removesuffix(b"\r").decode()
        except UnicodeDecodeError:
            raise LineEnds from None


class _Number(float):
    """A number that is not whole, or not of 64 bits."""


def _whole(text: str) -> Any:
    value = int(text)
    return value if not text.startswith("-") and value < 1 << 64 else _real(text)


def _real(text: str) -> _Number:
    value = _Number(text)
    if value in (float("inf"), float("-inf")):
        raise ValueError(text)
    return value


def _no_constant(text: str) -> Any:
    raise ValueError(text)


def _object(members: list[tuple[str, Any]]) -> dict[str, Any]:
    """The object of the members, the last of a name: also one that another takes the place of has to be UTF-8."""
    json.dumps(members, ensure_ascii=False).encode()
    return dict(members)


def _is_too_deep(line: str) -> bool:
    deep = 0
    for token in re.findall(r'"(?:[^"\\]|\\.)*"|[\[\]{}]', line):
        deep += (token in "[{") - (token in "]}")
        if deep > MOST_NESTED:
            return True
    return False


def parse(line: str) -> Any:
    """The JSON of a line; `Fault` where it is none."""
    try:
        value = json.loads(
            line, parse_int=_whole, parse_float=_real, parse_constant=_no_constant, object_pairs_hook=_object
        )
        json.dumps(value, ensure_ascii=False).encode()
    except (ValueError, RecursionError):
        raise Fault("syntax") from None
    if _is_too_deep(line):
        raise Fault("syntax")
    return value


def _is_of(value: Any, kind: type) -> bool:
    if kind is int:
        return isinstance(value, int) and not isinstance(value, bool)
    return isinstance(value, kind)


def _members(said: dict[str, Any], wanted: dict[str, type]) -> dict[str, Any]:
    if not all(_is_of(said.get(name), kind) for name, kind in wanted.items()):
        raise Fault("field")
    return {name: said[name] for name in wanted}


def _told(op: str, said: dict[str, Any]) -> dict[str, Any]:
    """The members of a step, of the right types; `Fault` where one is missing or of another type."""
    told = _members(said, {"group": str, "now": int, **MEMBERS[op]})
    if op == "submit" and ("context" in said or "key" in said):
        told |= _members(said, {"context": int, "key": str})
    if op in ("submit", "read") and "command" in said:
        told |= _members(said, {"command": str})
    if op == "fallback":
        if told["end"] not in ("success", "failure", "missing"):
            raise Fault("field")
        if told["end"] == "success":
            told |= _members(said, {"body": str})
    return told


class Script:
    """The groups of the settings, all new, and those that lines register."""

    def __init__(self, settings: Settings) -> None:
        self.settings = settings
        self.groups = {name: Group(props, settings.step_limit) for name, props in settings.groups.items()}
        self.registered = len(self.groups)

    def answer(self, line: str) -> str:
        """The line that a line is answered by."""
        try:
            reply = self._reply(parse(line))
        except Fault as fault:
            reply = {"error": str(fault)}
        return json.dumps(reply, sort_keys=True, separators=(",", ":"), ensure_ascii=False)

    def _reply(self, said: Any) -> Reply:
        if not isinstance(said, dict) or not isinstance(said.get("op"), str):
            raise Fault("field")
        op = said["op"]
        if op == "register":
            return self._register(**_members(said, {"group": str, "like": str}))
        if op == "retire":
            return self._retire(**_members(said, {"group": str}))
        if op not in MEMBERS:
            raise Fault("op")
        return self._step(op, _told(op, said))

    def _step(self, op: str, told: dict[str, Any]) -> Reply:
        group = self.groups.get(told["group"])
        if group is None:
            raise Fault("group")
        told["command"] = self._command(group, told.get("command"))
        for name, bound in BOUNDS.items():
            if len(told.get(name, "").encode()) > bound:
                raise Fault("long")
        return self._made(told["group"], op, told)

    def _made(self, name: str, op: str, told: dict[str, Any]) -> Reply:
        """Makes a step of the group of the name."""
        return self.groups[name].step(op, told["now"], told)

    def named(self, line: str) -> Optional[str]:
        """The group that a line names; None where the line asks for nothing, whatever groups there are."""
        try:
            said = parse(line)
            self._reply(said)
        except Fault as fault:
            if str(fault) in ("syntax", "field", "op"):
                return None
        return str(said["group"])

    def _command(self, group: Group, name: Optional[str]) -> int:
        if name is None:
            return 0
        for number, each in enumerate(group.props.subjects):
            if number and each.name == name:
                return number
        own = next(key for key, each in self.groups.items() if each is group)
        if name == own:
            return 0
        raise Fault("command")

    def _register(self, group: str, like: str) -> Reply:
        if not is_name(group) or group in self.groups or group in self.settings.further():
            raise Fault("name")
        if like not in self.settings.groups:
            raise Fault("like")
        if self.registered == MOST_GROUPS:
            raise Fault("groups")
        self.registered += 1
        self.groups[group] = Group(self.settings.groups[like], self.settings.step_limit)
        return {"group": group, "reply": "registered"}

    def _retire(self, group: str) -> Reply:
        if group not in self.groups:
            raise Fault("group")
        if self.groups[group].is_in_use:
            return {"reply": "held"}
        del self.groups[group]
        return {"reply": "retired"}


def run(settings: Settings, data: bytes) -> tuple[bytes, bool]:
    """What is written for the input, and whether a line ended the run."""
    script, out = Script(settings), []
    try:
        for line in cut(data):
            out.append(script.answer(line) + "\n")
    except LineEnds:
        return "".join(out).encode(), True
    return "".join(out).encode(), False


def kept(settings: Settings, data: bytes, names: list[str]) -> bytes:
    """The lines that `bulkhead cut` keeps of the input for groups of these names."""
    script, out, rest = Script(settings), [], data
    try:
        for line in cut(data):
            whole, feed, rest = rest.partition(b"\n")
            if script.named(line) in names:
                out.append(whole + feed)
    except LineEnds:
        pass
    return b"".join(out)
