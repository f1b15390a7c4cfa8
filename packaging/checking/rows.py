"""The table of a check: what was done where, in what time, and whether it was as it should be."""

import os
import time
from collections.abc import Callable
from dataclasses import dataclass

from .roots import FailedError, NoRootError


@dataclass(frozen=True)
class Row:
    """One thing that was looked at. `seconds` is how long it took; `why` says what was wrong, and is empty where all was right."""

    where: str
    what: str
    seconds: float
    limit: "float | None"
    why: str

    @property
    def is_right(self) -> bool:
        return not self.why and (self.limit is None or self.seconds <= self.limit)

    def shown(self) -> str:
        """The row as it is printed."""
        limit = "" if self.limit is None else f"{self.limit:.0f}"
        told = "" if self.is_right else f"   {self.why or 'it took too long'}"
        return f"{self.where:<12} {self.what:<58} {self.seconds:>7.1f} {limit:>5}  {'ok' if self.is_right else 'FAILED'}{told}"


HEAD = f"{'where':<12} {'what':<58} {'seconds':>7} {'limit':>5}"


class Table:
    """The rows so far, each printed as it comes."""

    def __init__(self) -> None:
        self.rows: list[Row] = []
        print(HEAD, flush=True)

    def add(self, row: Row) -> None:
        """Keeps and prints a row."""
        self.rows.append(row)
        print(row.shown(), flush=True)

    def look(self, where: str, what: str, does: Callable[[], object], limit: "float | None" = None) -> None:
        """Does something, and makes a row of it; what raises FailedError or NoRootError has failed."""
        began, why = time.monotonic(), ""
        try:
            does()
        except (FailedError, NoRootError) as error:
            why = str(error).replace("\n", "\n    ")
        self.add(Row(where, what, time.monotonic() - began, limit, why))

    def failed(self, where: str, what: str, why: str) -> None:
        """Makes a row of something that could not be done."""
        self.add(Row(where, what, 0.0, None, why))

    def told(self, where: str, said: str) -> None:
        """Makes rows of what a script printed: lines `row SECONDS LIMIT ok|failed WHAT`; further lines are why it failed."""
        why: list[str] = []
        for line in said.splitlines():
            words = line.split(" ", 4)
            if words[0] == "row" and len(words) == 5:
                limit = None if words[2] == "-" else float(words[2])
                because = "" if words[3] == "ok" else "\n    ".join(["it is not so", *why])
                self.add(Row(where, words[4], float(words[1]), limit, because))
                why = []
            else:
                why.append(line)

    def end(self) -> int:
        """Prints how many rows are right, and returns the status."""
        right = sum(row.is_right for row in self.rows)
        print(f"the machine: {os.cpu_count()} processors, load {os.getloadavg()[1]:.1f}", flush=True)
        print(f"{right} agree, {len(self.rows) - right} differ", flush=True)
        return 0 if right == len(self.rows) else 1


def same(found: str, wanted: str) -> None:
    """Raises FailedError where two texts differ."""
    if found != wanted:
        raise FailedError(f"it says {found!r}, and should say {wanted!r}")
