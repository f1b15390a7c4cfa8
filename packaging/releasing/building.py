"""What is packed, built of what the toolchain proved: the program, the library for C and the wheel."""

import shutil
from dataclasses import dataclass
from pathlib import Path

from . import tools, versions


@dataclass(frozen=True)
class Proved:
    """What the toolchain made: the program, as an object or linked, and the static library for C."""

    program: Path
    library: Path


@dataclass(frozen=True)
class Built:
    """What is packed. `relinkable` is the object that the program is linked of, or None where it came linked."""

    program: Path
    relinkable: "Path | None"
    archive: Path
    shared: Path


def proved(top: Path) -> Proved:
    """Has the toolchain build both of the text as it stands, unless nothing has changed; raises ToolError."""
    tools.run(["rt", "run", "--", "--version"], folder=top / "crates/bulkhead")
    tools.run(["rt", "lib"], folder=top / "crates/bh_c")
    return Proved(top / "crates/bulkhead/out/bulkhead.o", top / "crates/bh_c/out/libbh_c.a")


def runtime() -> list[Path]:
    """The toolchain's own code in C, which a program stands on; raises ToolError where the toolchain is not there."""
    command = shutil.which("rt")
    if command is None:
        raise tools.ToolError("rt, the command of the toolchain, is not on the path")
    folder = Path(command).resolve().parent.parent / "c"
    return [folder / "libos_c.a", folder / "liblibc_c.a"]


def linked(program: Path, to: Path) -> "tuple[Path, Path | None]":
    """The program that stands on nothing, and the object that it was linked of; one that came linked is taken as it is."""
    made = to / "bulkhead"
    if program.suffix != ".o":
        shutil.copyfile(program, made)
        tools.run(["strip", made])
        made.chmod(0o755)
        return made, None
    whole = to / "bulkhead.o"
    tools.run(["ld", "-r", "-o", whole, program, *runtime()])
    tools.run(["strip", "--strip-debug", whole])
    tools.run(["cc", "-static-pie", "-Wl,-z,relro,-z,now", "-Wl,--gc-sections", "-o", made, whole])
    tools.run(["strip", made])
    return made, whole


def library(top: Path, static: Path, to: Path) -> tuple[Path, Path]:
    """The archive that links alone and the shared object, without what only a debugger reads."""
    tools.run([top / "bindings/build.sh", static])
    object_name = f"libbulkhead.so.{versions.interface(top)}"
    archive, shared = to / "libbulkhead.a", to / object_name
    shutil.copyfile(top / "bindings/out/libbulkhead.a", archive)
    shutil.copyfile(top / "bindings/out" / object_name, shared)
    tools.run(["strip", "--strip-debug", "--enable-deterministic-archives", archive])
    tools.run(["strip", "--strip-unneeded", shared])
    return archive, shared


def built(top: Path, of: Proved, to: Path) -> Built:
    """Builds all of it into a folder; raises ToolError."""
    program, relinkable = linked(of.program, to)
    archive, shared = library(top, of.library, to)
    return Built(program, relinkable, archive, shared)
