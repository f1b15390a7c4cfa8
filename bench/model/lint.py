"""What `bulkhead lint --json` tells of a settings file."""

from __future__ import annotations

import datetime
from dataclasses import dataclass
from typing import Any, Callable, Iterator, Optional

from . import settings
from .settings import COMMAND_PROPERTIES, PROPERTIES, Path, Property, Refused, Subject, Values, at, path_of

Place = tuple[int, int]

#: Names of more bytes are not shown.
MOST_SHOWN = 64

#: What is said behind a refusal that has no name of its own.
REASONS = {
    "2": ": `service.groups` is no list of 1 to 1000 texts",
    "3": ": it is not 1 to 32 letters, digits, `_` and `-`, or is `default`",
    "4": ": it stands before",
    "10": ", in the order of the names: its name may not name a group, or names one; or it is no table of one key, `group`,"
    " the name of a group; or that group has 16 commands before it",
}

#: A value that can hardly be meant: what is said, the properties of which one is given, and when it is so.
Doubt = tuple[str, tuple[str, ...], Callable[[Values], bool]]

OF_GROUPS: Doubt = (
    "queueSizeRejectionThreshold is over maxQueueSize",
    ("queue_threshold", "max_queue"),
    lambda v: bool(0 < v["max_queue"] < v["queue_threshold"]),
)

DOUBTS: tuple[Doubt, ...] = (
    ("circuitBreaker.errorThresholdPercentage is over 100", ("percent",), lambda v: bool(v["percent"] > 100)),
    (
        "circuitBreaker.forceOpen and circuitBreaker.forceClosed are both true",
        ("force_open", "force_closed"),
        lambda v: v["force_open"] is True and v["force_closed"] is True,
    ),
    (
        "execution.isolation.thread.timeoutInMilliseconds is 0",
        ("timeout_ms",),
        lambda v: bool(v["timeout_on"] is True and v["timeout_ms"] == 0),
    ),
    (
        "no call can run: execution.isolation.semaphore.maxConcurrentRequests is 0, and execution.isolation.strategy is"
        " SEMAPHORE",
        ("semaphore", "strategy"),
        lambda v: bool(v["strategy"] == "SEMAPHORE" and v["semaphore"] == 0),
    ),
    (
        "execution.isolation.thread.timeoutInMilliseconds is idle, since execution.timeout.enabled is false",
        ("timeout_ms",),
        lambda v: v["timeout_on"] is False,
    ),
    (
        "fallback.isolation.semaphore.maxConcurrentRequests is idle, since fallback.enabled is false",
        ("fallback_permits",),
        lambda v: v["fallback_on"] is False,
    ),
    (
        "what is given of the circuit is idle, since circuitBreaker.enabled is false",
        ("volume", "sleep_ms", "percent"),
        lambda v: v["circuit_on"] is False,
    ),
)


@dataclass(frozen=True)
class Finding:
    """Something amiss: what is said, the path of the name that it is about, and what is told beside it."""

    message: str
    path: Path
    is_error: bool = False
    key: str = ""
    near: tuple[str, ...] = ()
    range: Optional[list[int]] = None

    def told(self, file: str, places: dict[Path, Place]) -> dict[str, Any]:
        """The object that tells it, with the names that may be told as the nearest one."""
        line, column = places.get(shown_path(self.path), (1, 1))
        return {
            "column": column,
            "file": file,
            "line": line,
            "message": self.message,
            "nearest": nearest(self.key, self.near),
            "range": self.range,
            "severity": "error" if self.is_error else "warning",
        }


def shown(text: str) -> str:
    """A text of the file, as it is told."""
    data = text.encode()
    plain = len(data) <= MOST_SHOWN and all(byte >= 32 and byte != 127 for byte in data)
    return text if plain else "(not shown)"


def shown_path(path: Path) -> Path:
    """A path, as it is told: names of a table that are not shown are the same there."""
    return tuple(map(shown, path))


def findings(tree: Values) -> list[Finding]:
    """All findings in a file that was read as this tree, the errors first."""
    try:
        names = settings.names_of(tree)
    except Refused as refused:
        groups = ("service", "groups")
        return [_refused(refused, groups if at(tree, groups) is not None else groups[:1])]
    errors = list(_of_service(tree, names))
    try:
        further = settings.further_of(tree, names)
    except Refused as refused:
        further = {}
        errors.append(_refused(refused, _bad_command(tree, refused)))
    subjects = [
        each
        for name in names
        for each in settings.group_of(tree, name, [each for each in further if further[each] == name]).subjects
    ]
    errors += _of_values(tree, subjects)
    return errors + list(_of_names(tree, names, list(further), subjects)) + list(_doubts(tree, subjects))


def _refused(refused: Refused, path: Path) -> Finding:
    return Finding(f"{refused}{REASONS[str(refused).split()[0]]}", path, is_error=True)


def _bad_command(tree: Values, refused: Refused) -> Path:
    commands = sorted(tree["service"]["command"], key=str.encode)
    return ("service", "command", commands[int(str(refused).split()[-1]) - 1])


def _of_service(tree: Values, names: list[str]) -> Iterator[Finding]:
    known = ("groups", "auditSteps", "slots", "command")
    for key in sorted(tree["service"], key=str.encode):
        value = tree["service"][key]
        is_right = key in known and (key not in ("slots", "command") or isinstance(value, dict))
        if is_right and key == "slots":
            is_right = {"default", *names} >= set(value)
        if not is_right:
            message = f"5 unknown service property: `{shown(key)}` is none, or holds what it may not"
            yield Finding(message, ("service", key), True, key, known)


def _of_values(tree: Values, subjects: list[Subject]) -> list[Finding]:
    found = [
        _bad_value(tree, subject, each, f"{number} {word}")
        for number, word in ((6, "wrong type"), (7, "out of range"))
        for subject in subjects
        for each in subject.properties
        if subject.values[each.field] is not None and each.fault_of(subject.values[each.field]) == word
    ]
    return found or [_bad_window(tree, each) for each in subjects if each.values["window_ms"] % each.values["buckets"]]


def _bad_value(tree: Values, subject: Subject, wanted: Property, fault: str) -> Finding:
    message = f"{fault}: {subject.name} {wanted.name} is {_stands(subject.values[wanted.field])}, not {_wanted(wanted)}"
    bounds = [wanted.values[0], wanted.values[-1]] if isinstance(wanted.values, range) else None
    return Finding(message, _given(tree, subject.name, [wanted]), True, range=bounds)


def _bad_window(tree: Values, subject: Subject) -> Finding:
    message = f"8 not a multiple: {subject.name}: the rolling window is no multiple of its number of buckets"
    concerned = [each for each in COMMAND_PROPERTIES if each.field in ("window_ms", "buckets")]
    return Finding(message, _given(tree, subject.name, concerned), True)


def _stands(value: Any) -> str:
    """What stands where a value is refused."""
    if isinstance(value, bool):
        return str(value).lower()
    if isinstance(value, int):
        return str(value)
    if isinstance(value, str):
        return f"`{shown(value)}`"
    kinds = {float: "a number with a fraction", list: "a list", dict: "a table"}
    dates = dict.fromkeys((datetime.datetime, datetime.date, datetime.time), "a date or a time")
    return (kinds | dates)[type(value)]


def _wanted(wanted: Property) -> str:
    """What may stand there."""
    if wanted.values is bool:
        return "true or false"
    if isinstance(wanted.values, tuple):
        return "`THREAD` or `SEMAPHORE`"
    return f"a whole number from {wanted.values[0]} to {wanted.values[-1]}"


def _given(tree: Values, name: str, wanted: list[Property]) -> Path:
    """Where the first of the properties stands that the name itself gives, else the first that `default` gives."""
    paths = [path_of(each, key) for key in (name, "default") for each in wanted]
    return next(path for path in paths if at(tree, path) is not None)


def _of_names(tree: Values, names: list[str], further: list[str], subjects: list[Subject]) -> Iterator[Finding]:
    """The names that nothing looks up: in the tables of the file, and in those of `default`, the groups and the commands."""
    yield from _unknown(tree, (), ("service", "hystrix"))
    yield from _unknown(tree, ("hystrix",), ("command", "threadpool"))
    yield from _unknown(tree, ("hystrix", "command"), ("default", *names, *further))
    yield from _unknown(tree, ("hystrix", "threadpool"), ("default", *names))
    everybody = [Subject("default", PROPERTIES, {}), *subjects]
    for subject in everybody:
        for table in _tables(subject):
            yield from _unknown(tree, table, _children(subject, table))


def _unknown(tree: Values, table: Path, known: tuple[str, ...]) -> Iterator[Finding]:
    """The names of a table, if it is there, beside those that are looked up in it."""
    members = at(tree, table)
    where = f"`{'.'.join(table)}`" if table else "the file"
    for key in sorted(members if isinstance(members, dict) else (), key=str.encode):
        if key not in known:
            yield Finding(f"nothing looks up `{shown(key)}` in {where}", (*table, key), key=key, near=known)


def _paths(subject: Subject) -> list[Path]:
    return [path_of(each, subject.name) for each in subject.properties if each.of.startswith("hystrix")]


def _tables(subject: Subject) -> list[Path]:
    """The tables of a group or a command, in the order in which their names are told."""
    order = (
        *("", "execution", "execution.isolation", "execution.isolation.thread", "execution.isolation.semaphore"),
        *("execution.timeout", "fallback", "fallback.isolation", "fallback.isolation.semaphore", "circuitBreaker"),
        *("metrics", "metrics.rollingStats", "metrics.healthSnapshot", "requestCache"),
    )
    of_command = [("hystrix", "command", subject.name, *filter(None, each.split("."))) for each in order]
    is_group = subject.properties is PROPERTIES
    return of_command + ([("hystrix", "threadpool", subject.name)] if is_group else [])


def _children(subject: Subject, table: Path) -> tuple[str, ...]:
    """The names in a table that are looked up."""
    deep = len(table)
    return tuple(dict.fromkeys(path[deep] for path in _paths(subject) if path[:deep] == table))


def _doubts(tree: Values, subjects: list[Subject]) -> Iterator[Finding]:
    everybody = [*settings.group_of(tree, "default", []).subjects, *subjects]
    for subject in everybody:
        doubts = (OF_GROUPS, *DOUBTS) if subject.properties is PROPERTIES else DOUBTS
        values = _usable(subject)
        for said, fields, is_so in doubts:
            concerned = [next(each for each in PROPERTIES if each.field == field) for field in fields]
            own = [each for each in concerned if at(tree, path_of(each, subject.name)) is not None]
            if own and is_so(values):
                yield Finding(f"{subject.name}: {said}", path_of(own[0], subject.name))


def _usable(subject: Subject) -> Values:
    """The values in force; in the place of one that is refused one that is no cause for a doubt."""
    values = dict(subject.values)
    for each in subject.properties:
        if values[each.field] is not None and each.fault_of(values[each.field]) is not None:
            values[each.field] = -1
    return values


def nearest(key: str, names: tuple[str, ...]) -> list[str]:
    """Of the names those that are nearest to the key, where at most a third of its letters differ, or one."""
    distances = {name: distance(shown(key), name) for name in names if name != key}
    least = min(distances.values(), default=0)
    if not distances or least > max(1, len(shown(key)) // 3):
        return []
    return [name for name in distances if distances[name] == least]


def distance(a: str, b: str) -> int:
    """How many letters are put in, left out, exchanged for others or with their neighbours, each once at most."""
    rows = [list(range(len(b) + 1))]
    for i, x in enumerate(a, 1):
        row = [i]
        for j, y in enumerate(b, 1):
            best = min(rows[-1][j] + 1, row[-1] + 1, rows[-1][j - 1] + (x != y))
            if i > 1 and j > 1 and x == b[j - 2] and a[i - 2] == y:
                best = min(best, rows[-2][j - 2] + 1)
            row.append(best)
        rows.append(row)
    return rows[-1][-1]
