"""What is done in a fresh system with the archive, the wheel, the packages and the image of a release."""

import socket
import subprocess
import tarfile
import tempfile
import time
from contextlib import contextmanager
from collections.abc import Iterator
from dataclasses import dataclass
from pathlib import Path

from .roots import FailedError, Root, fresh, ran
from .rows import Table, same

SECONDS_OF_ARCHIVE = 60.0
SECONDS_OF_IMAGE = 60.0
USER = 65532


@dataclass(frozen=True)
class Release:
    """The files of a release, and the program in C that was compiled elsewhere."""

    top: Path
    folder: Path
    compiled: Path

    def one(self, pattern: str) -> Path:
        """The one file whose name is as the pattern says; raises FailedError."""
        found = sorted(self.folder.glob(pattern))
        if len(found) != 1:
            raise FailedError(f"{len(found)} files are named as {pattern}")
        return found[0]

    @property
    def archive(self) -> Path:
        return self.one("bulkhead-*-linux-*.tar.gz")

    @property
    def unpacked(self) -> str:
        return self.archive.name[: -len(".tar.gz")]


def compiled(release: Release, headers: Path) -> None:
    """Compiles an example in C over the shared object, for the oldest system; raises FailedError."""
    with tempfile.TemporaryDirectory() as room:
        ran(["tar", "-C", room, "-xf", release.archive])
        at = Path(room) / release.unpacked
        libraries = headers / "usr/lib/x86_64-linux-gnu"
        words = ["cc", "-O2", f"--sysroot={headers}", f"-B{libraries}", "-nodefaultlibs", "-I", at / "include"]
        words += ["-o", release.compiled, at / "share/bulkhead/examples/example.c", "-L", at / "lib", "-lbulkhead"]
        # Its script of the linker names links that lead out of it, so what the script names is named here.
        ran([*words, libraries / "libc.so.6", libraries / "libc_nonshared.a", "-lgcc"])


def archive(table: Table, release: Release, root: Root, name: str) -> None:
    """What is done with the archive: it is unpacked, and the example of the README answered."""
    at = f"/opt/{release.unpacked}"
    examples = f"{at}/share/bulkhead/examples/full-pool"
    root.put("/srv/check/archive.tar.gz", release.archive.read_bytes())
    root.put("/srv/check/compiled", release.compiled.read_bytes(), 0o755)
    script = f"tar -C /opt -xf archive.tar.gz; {at}/bin/bulkhead run {examples}/settings.toml <{examples}/script.jsonl"
    wanted = (release.top / "examples/full-pool/replies.jsonl").read_text()
    what = "the archive: from the file to the README's answers"
    table.look(name, what, lambda: same(root.run(script), wanted), SECONDS_OF_ARCHIVE)
    over = f"LD_LIBRARY_PATH={at}/lib ./compiled"
    table.look(name, "a program in C that was compiled elsewhere, over the archive", lambda: root.run(over))


def wheel(table: Table, release: Release, root: Root, name: str) -> None:
    """The tutorial of the Python package, in a venv that knows no network, beside the program of the archive."""
    made = release.one("bulkhead-*.whl")
    root.put(f"/srv/check/{made.name}", made.read_bytes())
    ran(["cp", "-r", release.top / "python/tests", root.path / "root/tests"])
    root.put("/srv/check/README.md", (release.top / "python/README.md").read_bytes())
    install = f"python3 -m venv trial; trial/bin/pip install -q --no-index {made.name}; trial/bin/python -m bulkhead"
    table.look(name, "the wheel is installed in a venv with no network", lambda: root.run(install), 20.0)
    program = f"BULKHEAD_PROGRAM=/opt/{release.unpacked}/bin/bulkhead"
    tutorial = f"cd tests; {program} ../trial/bin/python -B -m unittest test_tutorial"
    table.look(name, "the tutorial, as it is written", lambda: root.run(tutorial))


def before(release: Release, to: Path) -> None:
    """The package as a version before might have had it: with another number, and other settings; raises FailedError."""
    with tempfile.TemporaryDirectory() as room:
        at = Path(room) / "before"
        ran(["dpkg-deb", "-R", release.one("bulkhead_*_amd64.deb"), at])
        control = at / "DEBIAN/control"
        lines = [f"{line}~before" if line.startswith("Version: ") else line for line in control.read_text().splitlines()]
        control.write_text("\n".join(lines) + "\n")
        settings = at / "etc/bulkhead/settings.toml"
        settings.write_text("# As it was before.\n" + settings.read_text())
        ran(["dpkg-deb", "--root-owner-group", "--build", at, to])


def booted(table: Table, release: Release, root: Root, name: str) -> None:
    """What an administrator does in a system that is booted: install, start, reload, upgrade, remove."""
    for path in release.folder.glob("*.deb"):
        root.put(f"/srv/check/packages/{path.name}", path.read_bytes())
    made = release.one("bulkhead-*.whl")
    root.put(f"/srv/check/wheel/{made.name}", made.read_bytes())
    root.put("/srv/check/compiled", release.compiled.read_bytes(), 0o755)
    (root.path / "root/before").mkdir()
    before(release, root.path / "root/before/bulkhead.deb")
    script = (Path(__file__).parent / "booted.sh").read_text()
    try:
        table.told(name, root.boot(script))
    except FailedError as error:
        table.failed(name, "the system is booted, and all is done in it", str(error))


def system(table: Table, release: Release, folder: Path, name: str, title: str) -> None:
    """All that is done in a system of Debian, each part in a fresh one."""
    with fresh(folder, name) as root:
        archive(table, release, root, title)
        wheel(table, release, root, title)
    with fresh(folder, name) as root:
        booted(table, release, root, title)


@contextmanager
def started(root: Path) -> Iterator[Path]:
    """The image's program under its own command, as its own user, on a root that nobody may write; gives its socket."""
    run = root / "run/bulkhead"
    ran(["mount", "--bind", "-o", "ro", root, root])
    ran(["mount", "-t", "tmpfs", "-o", f"mode=0700,uid={USER},gid={USER}", "tmpfs", run])
    words = ["chroot", f"--userspec={USER}:{USER}", root, "/bulkhead", "share", "/etc/bulkhead/settings.toml"]
    words += ["--socket", "/run/bulkhead/share.sock", "--forever", "--explain"]
    service = subprocess.Popen([str(word) for word in words], stdin=subprocess.DEVNULL)
    try:
        until = time.monotonic() + 20
        while not (run / "share.sock").is_socket():
            if service.poll() is not None or time.monotonic() > until:
                raise FailedError("the image's program does not start")
            time.sleep(0.02)
        yield run / "share.sock"
    finally:
        service.kill()
        service.wait()
        ran(["umount", run])
        ran(["umount", root])


def answered(path: Path, line: str) -> str:
    """What the service at a socket answers a line; raises FailedError."""
    try:
        with socket.socket(socket.AF_UNIX) as connection:
            connection.settimeout(10)
            connection.connect(str(path))
            connection.sendall(line.encode() + b"\n")
            return connection.makefile().readline().strip()
    except OSError as error:
        raise FailedError(f"the service does not answer: {error}") from error


def unpacked(image: Path, to: Path) -> Path:
    """The files of an image, by a program that knows of nothing but images; raises FailedError."""
    layout = to / "layout"
    with tarfile.open(image) as packed:
        packed.extractall(layout)
    tag = image.name.split("-")[1]
    ran(["umoci", "unpack", "--image", f"{layout}:{tag}", to / "bundle"])
    return to / "bundle/rootfs"


def decides(image: Path, room: Path) -> None:
    """Starts the service of the image, and asks it for a decision and for its groups."""
    root = unpacked(image, room)
    with started(root) as path:
        same(answered(path, '{"op":"submit","group":"catalog","arg":"item 7"}'), '{"reply":"inline","ticket":1}')
        if '"payment"' not in answered(path, '{"op":"groups"}'):
            raise FailedError("the service does not tell its groups")


def image(table: Table, release: Release) -> None:
    """What is done with the image, in a root that has its files alone."""
    with tempfile.TemporaryDirectory() as room:
        what = "from the file to the first decision, read-only and not as root"
        table.look("the image", what, lambda: decides(release.one("bulkhead-*-oci-*.tar"), Path(room)), SECONDS_OF_IMAGE)
