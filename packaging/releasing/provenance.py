"""Of what a release was made: the commit, what the gate said of it, the toolchain and the sums of what the toolchain gave."""

import hashlib
import json
from pathlib import Path
from typing import Any

from . import symbols, tools
from .building import Built, Proved

# What `./test` writes when the gate has passed or failed.
GATE = "out/gate.json"
NOT_RUN = "the gate was not run on this text"


def sum_of(path: Path) -> str:
    """The sum of a file."""
    return hashlib.sha256(path.read_bytes()).hexdigest()


def commit(top: Path) -> str:
    """The commit that is checked out; raises ToolError."""
    return tools.run(["git", "rev-parse", "HEAD"], folder=top).strip()


def changed(top: Path) -> list[str]:
    """The files that differ from the commit; raises ToolError."""
    return [line[3:] for line in tools.run(["git", "status", "--porcelain"], folder=top).splitlines()]


def gate(top: Path) -> str:
    """The last line that the gate said of this commit, or that there is none."""
    path = top / GATE
    if not path.is_file():
        return NOT_RUN
    told = json.loads(path.read_text())
    return str(told["last"]) if told["commit"] == commit(top) else NOT_RUN


def stands_on(path: Path) -> str:
    """The C library that an object wants."""
    asked = symbols.asked(path)
    return "nothing: it is static" if asked.is_static else f"glibc {symbols.shown(asked.glibc)}"


def told(top: Path, of: Proved, built: Built, version: str, epoch: int) -> dict[str, Any]:
    """All that is said of a release."""
    return {
        "version": version,
        "commit": commit(top),
        "changed": changed(top),
        "gate": gate(top),
        "toolchain": tools.run(["rt", "version"]).strip(),
        "compiler": tools.run(["cc", "--version"]).splitlines()[0],
        "linker": tools.run(["ld", "--version"]).splitlines()[0],
        "epoch": epoch,
        "given": {path.name: sum_of(path) for path in (of.program, of.library)},
        "stands_on": {path.name: stands_on(path) for path in (built.program, built.shared)},
    }


def made(facts: dict[str, Any]) -> dict[str, bytes]:
    """What is said, as a file by its name."""
    return {"PROVENANCE.json": (json.dumps(facts, indent=2, sort_keys=True) + "\n").encode()}
