"""Settings files at random, sound ones and doubtful ones, small enough that every rule comes into play."""

from __future__ import annotations

import json
import tomllib
from random import Random
from typing import Any, Optional

from .layout import Entry
from .settings import COMMAND_PROPERTIES, POOL_PROPERTIES, Path, Property

#: Values that bring a rule into play soon.
CHOICES: dict[str, list[Any]] = {
    "strategy": ["THREAD", "SEMAPHORE"],
    "timeout_ms": [0, 1, 20, 100, 1000, 1000],
    "timeout_on": [True, True, False],
    "semaphore": [0, 1, 2, 10],
    "fallback_permits": [0, 1, 2, 10],
    "fallback_on": [True, True, True, False],
    "circuit_on": [True, True, True, False],
    "volume": [0, 1, 2, 3, 20],
    "sleep_ms": [0, 1, 10, 100],
    "percent": [0, 1, 34, 50, 100, 101],
    "force_open": [False, False, False, False, False, True],
    "force_closed": [False, False, False, False, False, True],
    "window_ms": [10, 60, 600, 1200],
    "buckets": [1, 2, 5, 10],
    "health_ms": [0, 0, 5, 50, 500],
    "cache_on": [True, True, False],
    "core": [1, 2, 3, 10],
    "max_queue": [-1, 0, 1, 2, 5],
    "queue_threshold": [0, 1, 2, 5],
}

GROUPS = ["a", "b", "mail", "Z_9-", "group-of-a-long-name-of-32-bytes"]
FURTHER = ["c", "d", "B", "zz", "0"]


def settings_text(random: Random) -> str:
    """A settings file of one to four groups that is not refused."""
    groups = random.sample(GROUPS, random.randint(1, 4))
    further = random.sample(FURTHER, random.randint(0, 4))
    return "".join(f"{line}\n" for line in _settings(random, groups, further))


def _settings(random: Random, groups: list[str], further: list[str]) -> list[str]:
    lines = [f"service.groups = {json.dumps(groups)}"]
    lines += [f'service.command."{name}".group = "{random.choice(groups)}"' for name in further]
    if random.random() < 0.1:
        lines.append(f"service.auditSteps = {random.randint(1, 200)}")
    for name in ["default", *groups]:
        if random.random() < 0.5:
            lines.append(f'service.slots."{name}" = {random.choice([1, 2, 5, 64, 200])}')
    for name in ["default", *groups, *further]:
        lines += _properties(random, name, COMMAND_PROPERTIES)
    for name in ["default", *groups]:
        lines += _properties(random, name, POOL_PROPERTIES)
    return lines


def _properties(random: Random, name: str, properties: tuple[Property, ...]) -> list[str]:
    given = 0.9 if name == "default" else 0.3
    return [
        f'{each.of}."{name}".{each.name} = {json.dumps(random.choice(CHOICES[each.field]))}'
        for each in properties
        if random.random() < given
    ]


#: Lines of which most are at fault wherever they stand.
STRAY = [
    "service.x = 1",
    "service.slots.nobody = 1",
    "service.slots.a = 0",
    "service.slots.default = 4097",
    "service.slots = 3",
    'service.slots.a = "x"',
    "service.command = 1",
    'service.command.bad.group = "nobody"',
    'service.command."not a name".group = "a"',
    'service.command.a.group = "b"',
    "service.command.q.group = 1",
    'service.command.q.groups = "a"',
    "service.command.q = 2",
    "service.auditSteps = 0",
    "service.auditSteps = 1000000",
    "service.auditSteps = 1000001",
    "service.auditSteps = true",
    "other.key = 1",
    "hystrix.command.a.unknown = 1",
    "hystrix.command.b = 1",
    "hystrix.threadpool = []",
    "x = 99999999999999999999",
    "x = 9223372036854775807",
    "x = = 1",
    "[service]",
    "[hystrix.command.a]",
]

VALUES = [
    "0",
    "-1",
    "-2",
    "1.0",
    "true",
    '"THREAD"',
    '"thread"',
    '""',
    "[]",
    "{}",
    "60",
    "61",
    "64",
    "65",
    "7",
    "3600000",
]
VALUES += ["3600001", "4294967295", "4294967296", "0x10", "1_000", "1979-05-27", "inf"]

LISTS = [
    "[]",
    '["a", 1]',
    '"a"',
    "{}",
    '["a", "b", "a"]',
    '["a", ""]',
    '["default"]',
    '["a", "no name"]',
    '["' + "n" * 33 + '"]',
]


def doubtful_text(random: Random) -> str:
    """A settings file that may be refused, for several reasons."""
    groups = random.sample(GROUPS, random.randint(1, 4))
    many = [f"c{number}" for number in range(random.choice([0, 0, 0, 14, 16, 18]))]
    lines = _settings(random, groups, random.sample(FURTHER, random.randint(0, 4)) + many)
    if random.random() < 0.1:
        lines[0] = f"service.groups = {random.choice(LISTS)}"
    for _ in range(random.choice([0, 1, 1, 2, 3])):
        at = random.randint(1, len(lines))
        if random.random() < 0.6 and at < len(lines):
            lines[at] = lines[at].split(" = ")[0] + " = " + random.choice(VALUES)
        else:
            lines.insert(at, random.choice(STRAY))
    return "".join(f"{line}\n" for line in lines)


#: What a name may be misspelt with.
LETTERS = ["x", "ü", "日", "\U0001f600", " ", ".", "Z"]

#: Values of several lines.
LONG_VALUES = ['"""\nx = 1\n"""', "'''\n\n[x]'''", "[\n  1, # ]\n  { a = 1 },\n]", "[[],\n\n[]]"]

ODD_NAMES = ["", "\u0001", "n" * 64, "n" * 65, "日" * 22, "hystrix", "command", "group", "a", "service", "x.y", "'", '"']


def lint_entries(random: Random) -> list[Entry]:
    """The keys and values of a settings file of which something may be amiss, in the order in which they may stand."""
    lines = [line for line in doubtful_text(random).splitlines() if not line.startswith("[")]
    found: dict[Path, str] = {}
    for line in lines:
        path = _path(line)
        if path is not None:
            value = random.choice(LONG_VALUES) if random.random() < 0.02 else line.split(" = ", 1)[1]
            found.setdefault(_misspelt(random, path) if random.random() < 0.05 else path, value)
    entries = list(found.items())
    if random.random() < 0.5:
        random.shuffle(entries)
    return entries


def _path(line: str) -> Optional[Path]:
    """The names of the key of a line; None where it is no TOML."""
    try:
        tree: Any = tomllib.loads(line)
    except tomllib.TOMLDecodeError:
        return None
    path: list[str] = []
    for _ in range(line.split(" = ")[0].count(".") + 1):
        if not isinstance(tree, dict) or not tree:
            break
        name, tree = next(iter(tree.items()))
        path.append(name)
    return tuple(path)


def _misspelt(random: Random, path: Path) -> Path:
    """The path with a name that is another one."""
    at = random.randrange(len(path))
    name = path[at]
    if random.random() < 0.2:
        name = random.choice(ODD_NAMES)
    for _ in range(random.choice([1, 1, 2, 3])):
        cut = random.randrange(len(name) + 1)
        put = random.choice(["", *LETTERS])
        name = name[:cut] + put + name[cut + random.choice([0, 1, 1]) :]
    return (*path[:at], name, *path[at + 1 :])
