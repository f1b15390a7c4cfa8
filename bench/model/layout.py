"""Settings files in all the ways in which TOML lets one write them, with the place of each name."""

from __future__ import annotations

import json
import re
import tomllib
from random import Random
from typing import Iterator, Optional

from .lint import Place, shown_path
from .settings import Path

#: A key and the text of its value.
Entry = tuple[Path, str]

BARE = re.compile(r"[A-Za-z0-9_-]+", re.ASCII)

COMMENTS = ["# a comment", "# Größe, 日本 \U0001f600", "#", "# [hystrix.command.x]", "# \" ' = "]


class _Writer:
    """A text that is being written, and where each path, as it is shown, stands in it first."""

    def __init__(self, random: Random) -> None:
        self.random = random
        self.parts: list[str] = []
        self.places: dict[Path, Place] = {}
        self.line = self.column = 1
        self.feed = random.choice(["\n", "\n", "\r\n"])

    def put(self, text: str) -> None:
        """Adds a text."""
        self.parts.append(text)
        *lines, last = text.split("\n")
        self.line += len(lines)
        self.column = len(last) + (1 if lines else self.column)

    def end_line(self) -> None:
        """Ends the line, perhaps with a comment, and puts lines behind it that say nothing."""
        if self.random.random() < 0.1:
            self.put(self.random.choice([" ", "\t", ""]) + self.random.choice(COMMENTS))
        self.put(self.feed)
        while self.random.random() < 0.15:
            self.put(self.random.choice(["", " ", "\t", *COMMENTS]))
            self.put(self.feed)

    def space(self) -> None:
        """Perhaps some space."""
        self.put(self.random.choice(["", "", "", " ", "\t"]))

    def key(self, table: Path, path: Path) -> None:
        """A dotted key within a table: each of its names stands where it begins."""
        place = (self.line, self.column)
        for count in range(len(path)):
            self.places.setdefault(shown_path((*table, *path[: count + 1])), place)
        dot = self.random.choice([".", ".", ".", " . ", ". "])
        self.put(dot.join(map(self._quoted, path)))

    def _quoted(self, name: str) -> str:
        style = self.random.random()
        if BARE.fullmatch(name) and style < 0.8:
            return name
        if style < 0.9 and "'" not in name and name.isprintable():
            return f"'{name}'"
        return json.dumps(name, ensure_ascii=style < 0.95 and not any(ord(letter) > 0xFFFF for letter in name))

    def pair(self, table: Path, path: Path, value: str) -> None:
        """A key and its value."""
        self.key(table, path)
        self.put(self.random.choice(["=", " = ", " =", "\t=\t"]))
        self.put(value)

    def header(self, opening: str, table: Path, closing: str) -> None:
        """The line of a header."""
        self.space()
        self.put(opening)
        self.space()
        self.key((), table)
        self.space()
        self.put(closing)
        self.end_line()

    def inline(self, table: Path, path: Path, members: list[Entry]) -> None:
        """A key and a table of these members, in one line."""
        self.key(table, path)
        self.put(" = {")
        for number, (rest, value) in enumerate(members):
            self.put(", " if number else "")
            self.space()
            self.pair((*table, *path), rest, value)
        self.space()
        self.put("}")


def write(random: Random, entries: list[Entry]) -> tuple[str, dict[Path, Place]]:
    """The entries as a file, and the first place of each path, as it is shown, in it."""
    for _ in range(20):
        writer = _Writer(random)
        _write(random, writer, entries)
        text = "".join(writer.parts)
        if _is_sound(text):
            return text, writer.places
    writer = _Writer(random)
    for path, value in entries:
        writer.pair((), path, value)
        writer.end_line()
    return "".join(writer.parts), writer.places


def _is_sound(text: str) -> bool:
    try:
        tomllib.loads(text)
    except tomllib.TOMLDecodeError:
        return False
    return True


def _write(random: Random, writer: _Writer, entries: list[Entry]) -> None:
    """Some entries without a header, others under headers, and tables in a list, which nothing looks into."""
    headed: dict[Path, list[Entry]] = {(): []}
    deepest = random.choice([0, 1, 2, 3, 5])
    for path, value in entries:
        deep = min(random.randint(0, deepest), len(path) - 1)
        headed.setdefault(path[:deep], []).append((path[deep:], value))
    if random.random() < 0.3:
        writer.end_line()
    for table, own in headed.items():
        if table:
            writer.header("[", table, "]")
        _write_lines(random, writer, table, own)
    for _ in range(random.choice([0] * 9 + [2])):
        writer.header("[[", ("lists",), "]]")
        writer.pair(("lists",), ("hystrix",), "1")
        writer.end_line()


def _write_lines(random: Random, writer: _Writer, table: Path, entries: list[Entry]) -> None:
    """The entries of one table."""
    for lines in _lines(random, entries):
        writer.space()
        if len(lines) == 1 and random.random() < 0.9:
            writer.pair(table, *lines[0])
        else:
            deep = _shared(lines)
            writer.inline(table, lines[0][0][:deep], [(path[deep:], value) for path, value in lines])
        writer.end_line()


def _lines(random: Random, entries: list[Entry]) -> Iterator[list[Entry]]:
    """The entries one by one, or those that begin alike together; an entry of one name alone."""
    by_name: dict[Optional[str], list[Entry]] = {}
    for path, value in entries:
        by_name.setdefault(path[0], []).append((path, value))
    for alike in by_name.values():
        if random.random() < 0.15 and all(len(path) > 1 for path, _ in alike):
            yield alike
        else:
            yield from ([entry] for entry in alike)


def _shared(entries: list[Entry]) -> int:
    """How many names the paths begin with alike, so that each has one more."""
    paths = [path for path, _ in entries]
    most = min(map(len, paths)) - 1
    deep = 1
    while deep < most and len({path[deep] for path in paths}) == 1:
        deep += 1
    return min(deep, most)
