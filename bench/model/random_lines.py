"""Scripts at random, in which every rule comes into play."""

from __future__ import annotations

import json
from random import Random
from typing import Any, Callable

from .group import Ticket
from .lines import MOST_NESTED, Script
from .random_settings import FURTHER, GROUPS
from .settings import Settings

COMERS = ["a", "b", "new", "x1", "c", "default", "", "no.name", "n" * 33]
TEXTS = ["", "x", "order 7", "fünf", "日本", 'quo"te', "back\\slash", "tab\t", "\u0001", "\U0001f600", "/", "\x7f"]
CONTEXTS = [0, 1, 2, (1 << 64) - 1]
WORDS = ["submit", "start", "finish", "fail", "expire", "collect", "fallback", "close", "read"]
WEIGHTS = [6, 4, 4, 2, 1, 5, 3, 1, 2]

#: Of which tickets a line of the operation mostly asks.
WANTED: dict[str, Callable[[Ticket], bool]] = {
    "finish": lambda ticket: ticket.busy,
    "fail": lambda ticket: ticket.busy,
    "collect": lambda ticket: ticket.holders > 0,
    "fallback": lambda ticket: ticket.state == "in-fallback",
}


def _text(random: Random, bound: int) -> str:
    if random.random() < 0.02:
        letter = random.choice("xü日")
        return letter * (bound // len(letter.encode()) + random.randint(-1, 1))
    return random.choice(TEXTS) + str(random.randint(0, 9))


def _nested(deep: int) -> Any:
    """A list in a list, and so on."""
    return [_nested(deep - 1)] if deep > 1 else []


class _Lines:
    """Lines about some groups, whose moments mostly rise and whose tickets are mostly there: the model answers each."""

    def __init__(self, random: Random, settings: Settings) -> None:
        self.random = random
        self.script = Script(settings)
        self.now = random.choice([0, 0, 0, 1000, (1 << 64) - 2000])
        #: Words of which more lines ask than of others.
        self.favoured = random.choices(WORDS, WEIGHTS, k=8)

    def next(self) -> bytes:
        said = self._come_or_go() if self.random.random() < 0.02 else self._step()
        if self.random.random() < 0.02:
            self._spoil(said)
        line = self._written(said)
        self.script.answer(line.decode(errors="ignore").rstrip("\r\n"))
        return line

    def _step(self) -> dict[str, Any]:
        random = self.random
        self.now = min(self.now + random.choice([0, 0, 0, 1, 1, 7, 30, 120]), (1 << 64) - 1)
        op = random.choice(self.favoured) if random.random() < 0.6 else random.choices(WORDS, WEIGHTS)[0]
        groups = list(self.script.groups)
        name = random.choice(groups) if groups and random.random() < 0.98 else random.choice(COMERS)
        said: dict[str, Any] = {"op": op, "group": name}
        said["now"] = self.now if random.random() < 0.9 else max(0, self.now - random.randint(0, 200))
        if op in WANTED:
            said["ticket"] = self._ticket(name, WANTED[op])
        if op in ("submit", "read") and random.random() < 0.5:
            said["command"] = self._command(name)
        said |= getattr(self, "_of_" + op, dict)()
        return said

    def _ticket(self, name: str, holds: Callable[[Ticket], bool]) -> int:
        """Mostly a ticket of the group of which that holds."""
        group = self.script.groups.get(name)
        found = [each.serial for each in group.tickets if holds(each)] if group else []
        if found and self.random.random() < 0.9:
            return self.random.choice(found)
        return self.random.randint(0, group.next_serial if group else 3)

    def _command(self, name: str) -> str:
        """Mostly a command of the group."""
        group = self.script.groups.get(name)
        if group is None or self.random.random() < 0.05:
            return self.random.choice(FURTHER + GROUPS)
        return self.random.choice(group.props.subjects).name

    def _of_submit(self) -> dict[str, Any]:
        said: dict[str, Any] = {"arg": _text(self.random, 64)}
        if self.random.random() < 0.4:
            said |= {
                "context": self.random.choice(CONTEXTS),
                "key": self.random.choice(["k", "k", _text(self.random, 32)]),
            }
        return said

    def _of_finish(self) -> dict[str, Any]:
        return {"body": _text(self.random, 256)}

    def _of_fail(self) -> dict[str, Any]:
        return {"bad": self.random.random() < 0.2}

    def _of_fallback(self) -> dict[str, Any]:
        end = self.random.choice(["success", "success", "failure", "missing"])
        return {"end": end, "body": _text(self.random, 256)} if end == "success" else {"end": end}

    def _of_close(self) -> dict[str, Any]:
        return {"context": self.random.choice(CONTEXTS)}

    def _come_or_go(self) -> dict[str, Any]:
        name = self.random.choice([*COMERS, *self.script.groups])
        if self.random.random() < 0.5:
            return {"op": "retire", "group": name}
        like = self.random.choice([*self.script.settings.groups, "new"])
        return {"op": "register", "group": name, "like": like}

    def _spoil(self, said: dict[str, Any]) -> None:
        random = self.random
        name = random.choice(list(said))
        values: list[Any] = [None, True, -1, 0, 1.0, 1e30, 1 << 64, (1 << 64) - 1, "", "x", [], {}, [[1]], {"a": 1}]
        values += [_nested(MOST_NESTED - 1), _nested(MOST_NESTED)]
        match random.randint(0, 3):
            case 0:
                del said[name]
            case 1:
                said[name] = random.choice(values)
            case 2:
                said[random.choice(["context", "key", "command", "end", "body", "other"])] = random.choice(values)
            case _:
                said["op"] = random.choice(["jump", "Submit", "groups", "call", 7])

    def _written(self, said: dict[str, Any]) -> bytes:
        random = self.random
        members = list(said.items())
        if random.random() < 0.3:
            random.shuffle(members)
        if random.random() < 0.02 and members:
            members.append((random.choice(members)[0], random.choice(["again", 5, None])))
        space = random.choice(["", "", "", " ", "  ", "\t"])
        ascii_only = random.random() < 0.3
        body = f",{space}".join(
            f"{json.dumps(name)}:{space}{json.dumps(value, ensure_ascii=ascii_only)}" for name, value in members
        )
        line = f"{space}{{{space}{body}{space}}}{space}"
        if random.random() < 0.02:
            line = self._damaged(line)
        return line.encode() + random.choice([b"\n", b"\n", b"\n", b"\r\n"])

    def _damaged(self, line: str) -> str:
        random = self.random
        at = random.randrange(len(line) + 1)
        inserted = random.choice(
            [
                '"',
                "\\",
                ",",
                "}",
                "{",
                "x",
                "0",
                "-",
                "\\u12",
                "\\ud800",
                "\\ud83d\\ude00",
                "[" * 130,
                "[" * 100,
                "1e999",
                "NaN",
            ]
        )
        return line[:at] + random.choice(["", inserted]) + line[at + random.choice([0, 1, 5]) :]


def script(random: Random, settings: Settings, lines: int) -> bytes:
    """So many lines about the groups of the settings, with no line feed behind the last of some scripts."""
    source = _Lines(random, settings)
    data = b"".join(source.next() for _ in range(lines))
    if random.random() < 0.05:
        data += random.choice([b"\xff\n", b"x" * 1025 + b"\n", b"x" * 1024, b"\r", b"\n\n", b"{}"])
    return data.removesuffix(b"\n") if random.random() < 0.2 else data
