"""The number of the version, and the places where it stands."""

import re
from dataclasses import dataclass
from pathlib import Path

NUMBER = re.compile(r"[0-9]+\.[0-9]+\.[0-9]+")


class NoNumberError(Exception):
    """A file has no number of a version where one should stand."""


@dataclass(frozen=True)
class Place:
    """A place in a file where the number stands: behind `before`, and before `after`, which are patterns."""

    path: str
    before: str
    after: str

    @property
    def pattern(self) -> "re.Pattern[str]":
        return re.compile(f"(?P<before>{self.before})(?P<number>{NUMBER.pattern})(?P<after>{self.after})", re.M)

    def number(self, top: Path) -> str:
        """The number that stands there; raises NoNumberError."""
        found = self.pattern.search((top / self.path).read_text())
        if found is None:
            raise NoNumberError(f"{self.path} has no version")
        return found["number"]

    def write(self, top: Path, number: str) -> None:
        """Writes another number there; raises NoNumberError."""
        path = top / self.path
        text, count = self.pattern.subn(rf"\g<before>{number}\g<after>", path.read_text(), count=1)
        if count == 0:
            raise NoNumberError(f"{self.path} has no version")
        path.write_text(text)


PROGRAM = Place("crates/bh_arguments/src/commands.rt", r'^const VERSION: &str = "', r"\\n")
INTERFACE = re.compile(r"^#define BULKHEAD_VERSION (?P<number>[0-9]+)u$", re.M)
OTHERS = (
    Place("include/bulkhead.h", r'^#define BULKHEAD_RELEASE "', r'"$'),
    Place("python/src/bulkhead/__init__.py", r'^__version__ = "', r'"$'),
    Place("docs/bulkhead.1", r'^\.TH BULKHEAD 1 "" "bulkhead ', r'"'),
    Place("CHANGELOG.md", r"^## ", r"$"),
)


def number(top: Path) -> str:
    """The number of the version, which is the program's."""
    return PROGRAM.number(top)


def interface(top: Path) -> int:
    """The number of the interface for C, which is that of the shared object."""
    found = INTERFACE.search((top / "include/bulkhead.h").read_text())
    if found is None:
        raise NoNumberError("include/bulkhead.h has no version of the interface")
    return int(found["number"])


def standing(top: Path) -> dict[str, str]:
    """The number at each further place, by the file that it stands in."""
    return {place.path: place.number(top) for place in OTHERS}


def write(top: Path, number: str) -> None:
    """Writes a number to each place but CHANGELOG.md, whose head `Unreleased` becomes that of the number."""
    for place in (PROGRAM, *OTHERS[:-1]):
        place.write(top, number)
    path = top / OTHERS[-1].path
    path.write_text(re.sub(r"^## Unreleased$", f"## {number}", path.read_text(), count=1, flags=re.M))
