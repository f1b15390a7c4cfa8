"""The crates of the repository, as `crates.txt` and their files tell of them."""

import re
from dataclasses import dataclass
from functools import cached_property
from pathlib import Path

from making.rattle import Crate, sentence

TEST_MODULE = re.compile(r"#\[cfg\(test\)\]\n(?:pub )?mod ")
TEST = re.compile(r"^\s*#\[test\]$", re.M)
# Where a head names the page that the crate follows.
WIKI = re.compile(r" \(Hystrix wiki[^)]*\)")
# A sentence that may stand in a table whole.
MOST_WORDS = 25
# The parts of the standard library that may be listed in `crates.txt`, since proofs cite theirs.
STANDARD = ("core", "std_alloc", "std_heap")


@dataclass(frozen=True)
class Row:
    """A line of `crates.txt`: a crate and what it stands on."""

    name: str
    stands_on: tuple[str, ...]


def rows_of(text: str) -> list[Row]:
    rows = []
    for line in text.splitlines():
        words, _, below = line.partition("#")[0].partition(":")
        if words.strip():
            rows.append(Row(words.split()[0], tuple(below.split())))
    return rows


class Repository:
    """All crates, from below to above."""

    def __init__(self, top: Path) -> None:
        self.top = top
        self.rows = rows_of((top / "crates.txt").read_text())
        self.crates = {row.name: Crate(top / "crates" / row.name) for row in self.ordered()}

    def ordered(self) -> list[Row]:
        """The rows with each crate behind those that it stands on."""
        left, done, found = list(self.rows), set(), []
        own = {row.name for row in self.rows}
        while left:
            row = next(row for row in left if all(each in done for each in row.stands_on if each in own))
            left.remove(row)
            done.add(row.name)
            found.append(row)
        return found

    def row(self, name: str) -> Row:
        return next(row for row in self.rows if row.name == name)

    def own(self, name: str) -> list[str]:
        """The crates of the repository that a crate stands on."""
        return [each for each in self.row(name).stands_on if each in self.crates]

    def from_outside(self, name: str) -> list[str]:
        return [each for each in self.row(name).stands_on if each not in self.crates]

    def has_tests_alone(self, name: str) -> bool:
        root = self.crates[name].root
        return root is not None and TEST_MODULE.search(root.path.read_text()) is not None

    @cached_property
    def of_tests(self) -> list[str]:
        """The crates of tests, and those on which nothing but crates of tests stands."""
        found = {name for name in self.crates if self.has_tests_alone(name)}
        for name in self.crates:
            above = [each for each in self.crates if name in self.own(each)]
            if above and all(each in found or self.has_tests_alone(each) for each in above):
                found.add(name)
        return [name for name in self.crates if name in found]

    def test_count(self, name: str) -> int:
        return sum(len(TEST.findall(file.path.read_text())) for file in self.crates[name].files)

    def text_of(self, name: str) -> str:
        return "\n".join(file.path.read_text() for file in self.crates[name].files)

    def is_for(self, name: str) -> str:
        """What a crate is for: the first sentence of its root file, a long one as far as its colon."""
        root = self.crates[name].root
        whole = WIKI.sub("", sentence(root.head)).removesuffix(".") if root else ""
        return whole.split(": ")[0] if len(whole.split()) > MOST_WORDS else whole
