"""Where each thing lies beneath a prefix, for the archive and for the packages."""

import gzip
from collections.abc import Callable
from dataclasses import dataclass
from pathlib import Path

from . import completions, versions
from .building import Built
from .entries import FILE_MODE, PROGRAM_MODE, Entry, taken

# Of the examples those that want a toolchain or a JDK stay with the sources.
NOT_PACKED = frozenset({"own", "java"})


@dataclass(frozen=True)
class Things:
    """What a release has: the text it is made of, what was built of it, its version and its time in seconds."""

    top: Path
    built: Built
    version: str
    interface: int
    epoch: int


def things(top: Path, built: Built, epoch: int) -> Things:
    """The things of the text as it stands."""
    return Things(top, built, versions.number(top), versions.interface(top), epoch)


def program(of: Things) -> list[Entry]:
    """The program."""
    return [Entry("bin/bulkhead", of.built.program.read_bytes(), PROGRAM_MODE)]


def manual(of: Things, is_compressed: bool) -> list[Entry]:
    """The man page."""
    page = (of.top / "docs/bulkhead.1").read_bytes()
    if is_compressed:
        return [Entry("share/man/man1/bulkhead.1.gz", gzip.compress(page, 9, mtime=0))]
    return [Entry("share/man/man1/bulkhead.1", page)]


def completed(of: Things) -> list[Entry]:
    """The completions, where each shell looks for them."""
    found = completions.grammar(of.built.program)
    places: dict[str, Callable[[list[completions.Command]], str]] = {
        "share/bash-completion/completions/bulkhead": completions.bash,
        "share/zsh/vendor-completions/_bulkhead": completions.zsh,
        "share/fish/vendor_completions.d/bulkhead.fish": completions.fish,
    }
    return [Entry(path, made(found).encode()) for path, made in places.items()]


def shared(of: Things, folder: str) -> list[Entry]:
    """The shared object that programs run with."""
    return [Entry(f"{folder}/libbulkhead.so.{of.interface}", of.built.shared.read_bytes(), FILE_MODE)]


def development(of: Things, folder: str, pkg_config: str) -> list[Entry]:
    """What a program is compiled with; `pkg_config` is the text for pkg-config."""
    return [
        Entry("include/bulkhead.h", (of.top / "include/bulkhead.h").read_bytes()),
        Entry(f"{folder}/libbulkhead.a", of.built.archive.read_bytes()),
        Entry(f"{folder}/libbulkhead.so", link=f"libbulkhead.so.{of.interface}"),
        Entry(f"{folder}/pkgconfig/bulkhead.pc", pkg_config.encode()),
    ]


def examples(of: Things, folder: str) -> list[Entry]:
    """The examples, with those of the library for C and of the Python package beside them."""
    root = of.top / "examples"
    found = [
        taken(f"{folder}/{path.relative_to(root)}", path)
        for path in root.rglob("*")
        if path.is_file() and path.relative_to(root).parts[0] not in NOT_PACKED and "__pycache__" not in path.parts
    ]
    sources = [of.top / "bindings/c/example.c", of.top / "bindings/c/slow.c", *(of.top / "python/examples").glob("*.py")]
    return found + [taken(f"{folder}/{path.name}", path) for path in sources]


def pkg_config(of: Things, template: Path, **values: str) -> str:
    """The text for pkg-config: a template without its remarks, with each `@NAME@` set."""
    lines = [line for line in template.read_text().splitlines() if not line.startswith("#")]
    text = "\n".join(lines) + "\n"
    for name, value in {"VERSION": of.version, **values}.items():
        text = text.replace(f"@{name}@", value)
    return text
