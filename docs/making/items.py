"""Bodies of functions and docstrings of variants, in files in the layout of `rt fmt`."""

import re
from functools import cache
from pathlib import Path

from making.rattle import FUNCTION, sentence


@cache
def bodies(path: Path) -> dict[str, str]:
    """The body of each function of a file by its name; of functions of one name the first."""
    found: dict[str, str] = {}
    lines = path.read_text().split("\n")
    for at, line in enumerate(lines):
        told = FUNCTION.match(line)
        if told:
            found.setdefault(told["name"], "\n".join(body_of(lines[at:], told["indent"])))
    return found


def body_of(lines: list[str], indent: str) -> list[str]:
    """The lines between the brace that opens a body and the one that closes it, at the indentation of the function."""
    end = lines.index(f"{indent}}}") if f"{indent}}}" in lines else len(lines)
    opened = next((at for at in range(end) if lines[at] == f"{indent}{{"), 0)
    return lines[opened + 1 : end]


@cache
def docs_of_variants(path: Path, enum: str) -> dict[str, str]:
    """The first sentence of the docstring of each variant of an enum; nothing of a variant that has none."""
    text = path.read_text()
    begin = re.search(rf"^pub enum {enum}\b.*\{{$", text, re.M)
    if begin is None:
        return {}
    found: dict[str, str] = {}
    docs: list[str] = []
    for line in text[begin.end() : text.index("\n}", begin.end())].split("\n"):
        if line.startswith("    ///"):
            docs.append(line.strip().removeprefix("///").strip())
        elif variant := re.match(r"    (\w+)", line):
            found[variant[1]] = sentence("\n".join(docs))
            docs = []
    return found
