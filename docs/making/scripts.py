"""The table of `bench/README.md`: what each script says of itself in its head, and how it is called."""

import re
from pathlib import Path

HEAD = re.compile(r"\A#!.*\n(?P<head>(?:#.*\n)+)")
# A line of the head that shows a call; what stands behind a gap says more of it.
CALL = re.compile(r"^#   (?P<call>bench/\S+(?: \S+)*)(?:\s{3,}.*)?$", re.M)


def scripts(top: Path) -> list[Path]:
    """The scripts that can be called: the others are read by these."""
    found = [path for path in sorted((top / "bench").glob("*")) if path.is_file() and HEAD.match(text_of(path))]
    return [path for path in found if calls(text_of(path))]


def text_of(path: Path) -> str:
    return path.read_text(errors="replace") if path.suffix in ("", ".sh") else ""


def head(text: str) -> str:
    found = HEAD.match(text)
    return found["head"] if found else ""


def calls(text: str) -> list[str]:
    return [found["call"] for found in CALL.finditer(head(text))]


def about(text: str) -> str:
    """The first paragraph of a head, as one line."""
    lines = [line.removeprefix("#").strip() for line in head(text).split("\n")]
    end = lines.index("") if "" in lines else len(lines)
    return " ".join(lines[:end])


def table(top: Path) -> str:
    rows = ["| Script | What it does |", "|-|-|"]
    for path in scripts(top):
        text = text_of(path)
        rows.append(f"| {', '.join(f'`{call}`' for call in calls(text))} | {about(text)} |")
    return "\n".join(rows)
