"""What is looked at of the files of a release themselves, with nothing unpacked that is run."""

import hashlib
import json
import shutil
import tempfile
from collections.abc import Callable
from pathlib import Path

from .roots import FailedError, ran
from .rows import Table, same
from .systems import Release

UNIT = "lib/systemd/system/bulkhead.service"
# The exposure that `systemd-analyze security` calls fine is below 5, in tenths.
EXPOSURE = 20
SYNTAX = {
    "share/bash-completion/completions/bulkhead": ("bash", "-n"),
    "share/zsh/vendor-completions/_bulkhead": ("zsh", "-n"),
    "share/fish/vendor_completions.d/bulkhead.fish": ("fish", "--no-execute"),
}
COMPLETED = r"""
source "$1"
COMP_WORDS=(bulkhead sha) COMP_CWORD=1
_bulkhead; echo "${COMPREPLY[*]}"
COMP_WORDS=(bulkhead share --sock) COMP_CWORD=2
_bulkhead; echo "${COMPREPLY[*]}"
"""


def provenance(folder: Path) -> "dict[str, object]":
    """What a release says of itself; raises FailedError."""
    try:
        facts = json.loads((folder / "PROVENANCE.json").read_text())
    except (OSError, ValueError) as error:
        raise FailedError(f"PROVENANCE.json cannot be read: {error}") from error
    if not isinstance(facts, dict):
        raise FailedError("PROVENANCE.json is no object")
    return facts


def epoch(folder: Path) -> int:
    """The time of all files of a release, in seconds; raises FailedError."""
    return int(str(provenance(folder)["epoch"]))


def sums(folder: Path) -> None:
    """Compares each file with its sum; raises FailedError."""
    lines = [line.split("  ", 1) for line in (folder / "SHA256SUMS").read_text().splitlines()]
    told = {name: sum_of for sum_of, name in lines}
    there = {path.name: hashlib.sha256(path.read_bytes()).hexdigest() for path in folder.iterdir() if path.name != "SHA256SUMS"}
    if told != there:
        raise FailedError(f"these differ: {', '.join(sorted(dict(told.items() ^ there.items())))}")


def alike(folder: Path, other: Path) -> None:
    """Compares each file with that of another release; raises FailedError."""
    names = {path.name for path in folder.iterdir()} | {path.name for path in other.iterdir()}
    differ = [
        name
        for name in sorted(names)
        if not ((folder / name).is_file() and (other / name).is_file() and (folder / name).read_bytes() == (other / name).read_bytes())
    ]
    if differ:
        raise FailedError(f"these differ: {', '.join(differ)}")


def lint(release: Release) -> None:
    """Has lintian look at the packages; raises FailedError where it finds an error."""
    packages = sorted(release.folder.glob("*.deb"))
    ran(["lintian", "--fail-on", "error", "--allow-root", *packages])


def exposure(release: Release) -> None:
    """Has systemd say how much the unit may do; raises FailedError where that is too much."""
    with tempfile.TemporaryDirectory() as room:
        ran(["dpkg-deb", "-x", release.one("bulkhead_*_amd64.deb"), room])
        ran(["systemd-analyze", "security", "--offline=yes", f"--threshold={EXPOSURE}", Path(room) / UNIT])


def completions(release: Release) -> None:
    """Has each shell read its completion, and bash complete two words; raises FailedError."""
    with tempfile.TemporaryDirectory() as room:
        ran(["tar", "-C", room, "-xf", release.archive])
        at = Path(room) / release.unpacked
        for name, words in SYNTAX.items():
            if shutil.which(words[0]) is None:
                raise FailedError(f"{words[0]} is not there")
            ran([*words, at / name])
        bash = at / "share/bash-completion/completions/bulkhead"
        same(ran(["bash", "-c", COMPLETED, "bash", bash]), "share\n--socket\n")


def whole(table: Table, release: Release, again: Callable[[], Path]) -> None:
    """All that is looked at of the files."""
    table.look("the files", "each has its sum", lambda: sums(release.folder))
    table.look("the files", "made once more they are the same, byte for byte", lambda: alike(release.folder, again()))
    table.look("the packages", "lintian finds no error", lambda: lint(release))
    table.look("the unit", "what it may do is little (systemd-analyze security)", lambda: exposure(release))
    table.look("completions", "bash, zsh and fish read theirs", lambda: completions(release))
