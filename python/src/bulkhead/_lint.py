"""What is amiss in settings, by the program: the library for C has no lint."""

from __future__ import annotations

import json
import os
import re
import shutil
import subprocess
from dataclasses import dataclass
from typing import Any, Optional, Union

from .errors import Error, Refused

# the program, where it is not found by the path that programs are looked for on
_PROGRAM = "BULKHEAD_PROGRAM"
# the exit statuses with which it has told what it found
_TOLD = (0, 1)
# how many seconds it may take: for whoever asks for it, and within `open`
_LIMIT, _LIMIT_OF_OPEN = 60, 5
# the file that a program reads its standard input by
_INPUT = "/dev/stdin"
# a value that is refused, with what it is not
_REFUSED_VALUE = re.compile(r"[67] [a-z ]+: \S+ \S+ is (.*), not ", re.DOTALL)
# how a warning of a name that nothing looks up begins
_UNKNOWN = "nothing looks up "
# so many names are warned of at most
_MOST_WARNED = 20


@dataclass(frozen=True)
class Finding:
    """Something amiss in a settings file.

    `severity` is "error" where the settings are refused for it, else "warning". `line` and `column` are its place, both
    from 1. `nearest` is the name that may be meant, where one is misspelt; `range` the least and the greatest value, where
    one is out of its range. Each is None where it does not apply.
    """

    severity: str
    line: int
    column: int
    message: str
    nearest: Optional[str] = None
    range: Optional[tuple[int, int]] = None


def lint(path: Union[str, os.PathLike[str]]) -> list[Finding]:
    """All that is amiss in a settings file, the errors first, and of these at first why it is refused. 1,000 at most.

    It is told by `bulkhead lint`: the program is that of the variable BULKHEAD_PROGRAM, or the one that is found as
    `bulkhead`. Raises an OSError where the file cannot be read, and an `Error` where there is no such program.
    """
    with open(path, "rb"):
        pass  # that it cannot be read is said as by `bulkhead.open`
    program = _program()
    if not program:
        raise Error(f"lint wants the program bulkhead, on the path of programs or in the variable {_PROGRAM}")
    return _findings(program, os.path.abspath(path), b"", _LIMIT)


def explain(refused: Refused, settings: bytes) -> None:
    """Has a refusal of settings say more: where they are amiss, and which value stands in the way."""
    found = next(iter(_found_in(settings)), None)
    if found is None or not _is_of(found, refused):
        return
    refused.args = (f"{_BEFORE}{found.message} (line {found.line})",)
    refused.line, refused.range, refused.value = found.line, found.range, _value_in(found.message)


def unknown_names(settings: bytes) -> list[str]:
    """What there is to warn of: each name that nothing looks up, at most 20. Nothing where the program cannot be asked."""
    unknown = [found for found in _found_in(settings) if found.message.startswith(_UNKNOWN)]
    told = [_spelled(found) for found in unknown[:_MOST_WARNED]]
    more = len(unknown) - len(told)
    return [*told, f"nothing looks up {more} names more"] if more else told


def _spelled(found: Finding) -> str:
    nearest = "" if found.nearest is None else f"; the nearest that is looked up is `{found.nearest}`"
    return f"line {found.line} of the settings: {found.message}{nearest}"


# what the text of a refusal begins with
_BEFORE = "settings refused: "


def _is_of(found: Finding, refused: Refused) -> bool:
    """Whether an error is the one for which settings are refused, and not that of another version of the program."""
    text = str(refused)
    return found.severity == "error" and text.startswith(_BEFORE) and found.message.startswith(text[len(_BEFORE) :])


def _value_in(message: str) -> Union[int, str, None]:
    """The value that an error is about: a number, a truth value, or a text."""
    told = _REFUSED_VALUE.match(message)
    value = "" if told is None else told[1]
    if value in ("true", "false"):
        return value == "true"
    if re.fullmatch(r"-?[0-9]+", value):
        return int(value)
    return value[1:-1] if value.startswith("`") else None


def _program() -> Optional[str]:
    return os.environ.get(_PROGRAM) or shutil.which("bulkhead")


def _found_in(settings: bytes) -> list[Finding]:
    """The findings in settings. None where the program is not there, or is none of this version."""
    program = _program()
    if not program:
        return []
    try:
        return _findings(program, _INPUT, settings, _LIMIT_OF_OPEN)
    except Error:
        return []


def _findings(program: str, path: str, given: bytes, limit: int) -> list[Finding]:
    """What the program finds in a file, which may be the standard input that it is given."""
    words = [program, "lint", "--json", path]
    try:
        told = subprocess.run(words, input=given, capture_output=True, timeout=limit, check=False)
    except (OSError, subprocess.SubprocessError) as error:
        raise Error(f"{program} cannot be asked: {error}") from error
    if told.returncode not in _TOLD:
        raise Error(f"{program} ended with status {told.returncode}: {told.stderr.decode(errors='replace').strip()}")
    try:
        return [_finding(said) for said in map(json.loads, told.stdout.splitlines()) if "message" in said.keys()]
    except (ValueError, TypeError, LookupError, AttributeError) as error:
        raise Error(f"{program} told what is no finding: {error!r}") from error


def _finding(said: dict[str, Any]) -> Finding:
    bounds, nearest = said["range"], said["nearest"]
    return Finding(
        severity=str(said["severity"]),
        line=int(said["line"]),
        column=int(said["column"]),
        message=str(said["message"]),
        nearest=None if nearest is None else str(nearest),
        range=None if bounds is None else (int(bounds[0]), int(bounds[1])),
    )
