"""Fresh systems of Debian, each a folder in which there is neither compiler nor toolchain."""

import os
import shutil
import subprocess
import tempfile
from collections.abc import Iterator, Sequence
from contextlib import contextmanager
from dataclasses import dataclass
from pathlib import Path

MIRROR = "http://deb.debian.org/debian"
# The systems, by their names, the oldest first.
SYSTEMS = {"bullseye": "Debian 11", "bookworm": "Debian 12", "trixie": "Debian 13"}
# What each has beside the least that Debian is: what a newcomer has who starts a unit, or makes a venv.
INCLUDED = "systemd,systemd-sysv,dbus,python3-venv"
OLDEST = "bullseye"


class NoRootError(Exception):
    """A system could not be made; the text says why."""


class FailedError(Exception):
    """A command did not do what it should; the text has what it said."""


@dataclass(frozen=True)
class Root:
    """A system that is gone when the check is over."""

    name: str
    path: Path

    def put(self, name: str, content: bytes, mode: int = 0o644) -> None:
        """Writes a file."""
        to = self.path / name.lstrip("/")
        to.parent.mkdir(parents=True, exist_ok=True)
        to.write_bytes(content)
        to.chmod(mode)

    def run(self, script: str) -> str:
        """Runs a script of the shell there, with no network, and returns its output; raises FailedError."""
        inner = f"mount -t proc proc /proc; cd /srv/check; {script}"
        outer = 'ip link set lo up; exec chroot "$0" /bin/sh -ec "$1"'
        return ran(["unshare", "--net", "--mount", "--pid", "--fork", "sh", "-c", outer, self.path, inner])

    def boot(self, script: str, seconds: int = 300) -> str:
        """Starts the whole system with no network, runs a script of bash as a unit of it, and returns its output."""
        self.put("/srv/check/check.sh", script.encode(), 0o755)
        self.put("/etc/systemd/system/check.service", UNIT.encode())
        wants = self.path / "etc/systemd/system/multi-user.target.wants"
        wants.mkdir(parents=True, exist_ok=True)
        (wants / "check.service").symlink_to("../check.service")
        words = ["systemd-nspawn", "-q", "-D", self.path, "--boot", "--register=no", "--keep-unit", "--private-network"]
        try:
            ran(words, seconds, may_fail=True)
        finally:
            found = self.path / "srv/check/said"
            said = found.read_text(errors="replace") if found.is_file() else ""
        if not said.endswith("checked\n"):
            raise FailedError(f"the system came to its end before the check did:\n{said}")
        return said[: -len("checked\n")]


UNIT = """[Unit]
After=basic.target dbus.service
[Service]
Type=oneshot
ExecStart=/bin/sh -c '/bin/bash /srv/check/check.sh >/srv/check/said 2>&1; echo checked >>/srv/check/said; systemctl poweroff --no-block'
"""


def ran(words: Sequence[object], seconds: int = 300, may_fail: bool = False) -> str:
    """What a command prints on both streams; raises FailedError, also where it lasts longer than it may."""
    try:
        done = subprocess.run(
            [str(word) for word in words],
            stdin=subprocess.DEVNULL,
            stdout=subprocess.PIPE,
            stderr=subprocess.STDOUT,
            timeout=seconds,
            env={**os.environ, "LC_ALL": "C", "DEBIAN_FRONTEND": "noninteractive"},
        )
    except subprocess.TimeoutExpired as error:
        raise FailedError(f"{words[0]} takes longer than {seconds} seconds") from error
    text = done.stdout.decode(errors="replace")
    if done.returncode and not may_fail:
        raise FailedError(f"{words[0]} ended with status {done.returncode}:\n{text}")
    return text


def base(folder: Path, name: str) -> Path:
    """The system that fresh ones are copies of; it is made where it is not there. Raises NoRootError."""
    at = folder / name
    if not at.is_dir():
        made = folder / f".{name}"
        shutil.rmtree(made, ignore_errors=True)
        try:
            ran(["debootstrap", "--variant=minbase", f"--include={INCLUDED}", name, made, MIRROR], seconds=1800)
        except (FailedError, OSError) as error:
            raise NoRootError(f"{SYSTEMS.get(name, name)} cannot be had: {error}") from error
        made.rename(at)
    return at


def headers(folder: Path) -> Path:
    """The oldest system with the headers of its C library, for which a program is compiled; raises NoRootError."""
    at = folder / f"{OLDEST}-dev"
    if not at.is_dir():
        made = folder / f".{OLDEST}-dev"
        shutil.rmtree(made, ignore_errors=True)
        shutil.copytree(base(folder, OLDEST), made, symlinks=True)
        try:
            ran(["chroot", made, "apt-get", "install", "-y", "--no-install-recommends", "libc6-dev"], seconds=900)
        except FailedError as error:
            raise NoRootError(f"the headers of {SYSTEMS[OLDEST]} cannot be had: {error}") from error
        made.rename(at)
    return at


@contextmanager
def fresh(folder: Path, name: str) -> Iterator[Root]:
    """A fresh system, which is thrown away: what is written lies above the system that is kept."""
    lower = base(folder, name)
    with tempfile.TemporaryDirectory(prefix=f"bulkhead-{name}-") as room:
        merged, upper, work = (Path(room) / part for part in ("merged", "upper", "work"))
        for path in (merged, upper, work):
            path.mkdir(mode=0o755)
        ran(["mount", "-t", "overlay", "overlay", "-o", f"lowerdir={lower},upperdir={upper},workdir={work}", merged])
        try:
            yield Root(name, merged)
        finally:
            ran(["umount", "--recursive", "--lazy", merged])
