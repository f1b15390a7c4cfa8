"""The packages of Debian: the program with its unit, the shared object, and what programs are compiled with."""

import gzip
import hashlib
import os
import shutil
import tempfile
from collections.abc import Sequence
from dataclasses import dataclass
from datetime import datetime, timezone
from email.utils import format_datetime
from pathlib import Path

from . import layout, symbols, tools
from .entries import PROGRAM_MODE, Entry, below, with_folders

TRIPLET = "x86_64-linux-gnu"
MAINTAINER = "The bulkhead authors <maintainers@users.noreply.bulkhead.example>"


@dataclass(frozen=True)
class Package:
    """A package: the fields of its control file, its files, and what else `DEBIAN/` has, by name."""

    name: str
    fields: dict[str, str]
    files: Sequence[Entry]
    scripts: dict[str, str]


def source(of: layout.Things, name: str) -> str:
    """A file that is kept for the packages."""
    return (of.top / "packaging/debian" / name).read_text()


def documented(of: layout.Things, package: str, *more: str) -> list[Entry]:
    """The licence, what has changed, and which findings of lintian are meant, where such are named."""
    moment = format_datetime(datetime.fromtimestamp(of.epoch, timezone.utc))
    changes = f"{package} ({of.version}) stable; urgency=medium\n\n  * See NEWS.md.\n\n -- {MAINTAINER}  {moment}\n"
    folder = f"usr/share/doc/{package}"
    news = (of.top / "CHANGELOG.md").read_bytes()
    found = [
        Entry(f"{folder}/copyright", source(of, "copyright").encode()),
        Entry(f"{folder}/changelog.gz", gzip.compress(changes.encode(), 9, mtime=0)),
        Entry(f"{folder}/NEWS.md.gz", gzip.compress(news, 9, mtime=0)),
    ]
    return found + [Entry(f"usr/share/lintian/overrides/{package}", source(of, name).encode()) for name in more]


def depends(path: Path) -> str:
    """The package of the C library that an object wants; empty where it stands on none."""
    asked = symbols.asked(path)
    return "" if asked.is_static else f"libc6 (>= {symbols.shown(asked.glibc)})"


def program(of: layout.Things) -> Package:
    """The program, the unit that shares a service, and its settings."""
    installed = [*layout.program(of), *layout.manual(of, is_compressed=True), *layout.completed(of)]
    files = [
        *below("usr", installed),
        Entry("etc/bulkhead/settings.toml", source(of, "settings.toml").encode()),
        Entry("lib/systemd/system/bulkhead.service", source(of, "bulkhead.service").encode()),
        Entry("usr/lib/sysusers.d/bulkhead.conf", source(of, "bulkhead.sysusers").encode()),
        *documented(of, "bulkhead", "bulkhead.lintian-overrides"),
    ]
    fields = {
        "Section": "admin",
        "Depends": depends(of.built.program),
        "Description": "command service with groups that cannot take from one another\n"
        " Calls of dependencies become commands of groups, in the manner of Netflix\n"
        " Hystrix. Each group has slots, workers, circuit breakers and timeouts of its\n"
        " own, and that no group disturbs another is proved of the code.\n"
        " .\n"
        " The unit bulkhead.service shares one service among processes of the machine.",
    }
    scripts = {name: source(of, f"bulkhead.{name}") for name in ("postinst", "prerm", "postrm")}
    return Package("bulkhead", fields, files, {**scripts, "conffiles": "/etc/bulkhead/settings.toml\n"})


def runtime(of: layout.Things) -> Package:
    """The shared object that programs run with."""
    name = f"libbulkhead{of.interface}"
    wanted = depends(of.built.shared)
    fields = {
        "Section": "libs",
        "Multi-Arch": "same",
        "Depends": wanted,
        "Description": "commands in groups that cannot take from one another (shared object)\n"
        " A service of groups that is handed steps and gives replies, for programs in C\n"
        " and in all that can call C. This package has the shared object.",
    }
    scripts = {"shlibs": f"libbulkhead {of.interface} {name} (>= {of.version})\n", "triggers": "activate-noawait ldconfig\n"}
    files = [*below("usr", layout.shared(of, f"lib/{TRIPLET}")), *documented(of, name)]
    return Package(name, fields, files, scripts)


def development(of: layout.Things) -> Package:
    """What programs are compiled with."""
    text = layout.pkg_config(of, of.top / "packaging/debian/libbulkhead-dev.pc", TRIPLET=TRIPLET)
    installed = [
        *layout.development(of, f"lib/{TRIPLET}", text),
        *layout.examples(of, "share/doc/libbulkhead-dev/examples"),
    ]
    fields = {
        "Section": "libdevel",
        "Multi-Arch": "same",
        "Depends": f"libbulkhead{of.interface} (= {of.version})",
        "Description": "commands in groups that cannot take from one another (development)\n"
        " A service of groups that is handed steps and gives replies, for programs in C\n"
        " and in all that can call C. This package has the header, the archive and\n"
        " examples.",
    }
    files = [*below("usr", installed), *documented(of, "libbulkhead-dev")]
    return Package("libbulkhead-dev", fields, files, {})


def control(of: layout.Things, package: Package) -> str:
    """The control file of a package."""
    kilobytes = sum(-(-len(it.content or b"") // 1024) or 1 for it in with_folders(package.files))
    fields = {
        "Package": package.name,
        "Source": "bulkhead" if package.name != "bulkhead" else "",
        "Version": of.version,
        "Architecture": "amd64",
        "Maintainer": MAINTAINER,
        "Installed-Size": str(kilobytes),
        "Priority": "optional",
        **package.fields,
    }
    return "".join(f"{name}: {value}\n" for name, value in fields.items() if value)


def sums(files: Sequence[Entry]) -> str:
    """The sums of the files, by which it is seen whether one was changed."""
    plain = sorted((it.path, it.content) for it in files if it.content is not None and not it.path.startswith("etc/"))
    return "".join(f"{hashlib.md5(content).hexdigest()}  {path}\n" for path, content in plain)


def pack(of: layout.Things, package: Package) -> bytes:
    """The package as a file; raises ToolError."""
    parts = {"control": control(of, package), "md5sums": sums(package.files), **package.scripts}
    inner = [
        Entry(f"DEBIAN/{name}", text.encode(), PROGRAM_MODE if text.startswith("#!") else 0o644)
        for name, text in parts.items()
    ]
    room = Path(tempfile.mkdtemp())
    try:
        room.chmod(0o755)
        root = room / "root"
        for each in with_folders([folder_root(), *package.files, *inner]):
            each.write(root)
        to = room / "made.deb"
        words = ["dpkg-deb", "--root-owner-group", "-Zxz", "-z2", "--build", root, to]
        tools.run(words, environment={**os.environ, "SOURCE_DATE_EPOCH": str(of.epoch), "DPKG_DEB_THREADS_MAX": "1"})
        return to.read_bytes()
    finally:
        shutil.rmtree(room)


def folder_root() -> Entry:
    """The folder that has all others."""
    return Entry(".", mode=PROGRAM_MODE)


def made(of: layout.Things) -> dict[str, bytes]:
    """The packages, by their names."""
    packages = [program(of), runtime(of), development(of)]
    return {f"{it.name}_{of.version}_amd64.deb": pack(of, it) for it in packages}
