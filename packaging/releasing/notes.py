"""The note of a release, made of CHANGELOG."""

import re
from pathlib import Path

HEAD = re.compile(r"^## (?P<name>.+)$", re.M)


class NoSectionError(Exception):
    """CHANGELOG has no part for the version."""


def sections(text: str) -> dict[str, str]:
    """The parts of CHANGELOG, newest first, each by its head."""
    heads = list(HEAD.finditer(text))
    ends = [it.start() for it in heads[1:]] + [len(text)]
    return {it["name"]: text[it.end() : end].strip() for it, end in zip(heads, ends)}


def note(text: str, version: str) -> str:
    """The note of a version: what has changed with it, and before it what no version has yet; raises NoSectionError."""
    found = sections(text)
    if version not in found:
        raise NoSectionError(f"CHANGELOG.md has no part {version}")
    parts = [f"# bulkhead {version}", found[version]]
    if found.get("Unreleased"):
        parts = [parts[0], f"## Since {version} was counted", found["Unreleased"], f"## {version}", found[version]]
    return "\n\n".join(parts) + "\n"


def made(top: Path, version: str) -> dict[str, bytes]:
    """The note as a file, by its name; raises NoSectionError."""
    return {"RELEASE-NOTE.md": note((top / "CHANGELOG.md").read_text(), version).encode()}
