"""The archive that is unpacked anywhere."""

from . import layout
from .entries import Entry, below, tar_gz, taken

NOTICE = """bulkhead {version}

The files here are under the Apache License, Version 2.0 (LICENSE).

bin/bulkhead is linked with the GNU C Library, which is under the GNU Lesser General Public License, version 2.1 or later.
lib/bulkhead/bulkhead.o is what it is linked of. With another C library:

    cc -static-pie -o bulkhead lib/bulkhead/bulkhead.o
"""


def name(of: layout.Things) -> str:
    """The name of the folder that the archive has."""
    return f"bulkhead-{of.version}-linux-x86_64"


def entries(of: layout.Things) -> list[Entry]:
    """What the folder has."""
    text = layout.pkg_config(of, of.top / "bindings/bulkhead.pc")
    found = [
        *layout.program(of),
        *layout.manual(of, is_compressed=False),
        *layout.completed(of),
        *layout.shared(of, "lib"),
        *layout.development(of, "lib", text),
        *layout.examples(of, "share/bulkhead/examples"),
        taken("lib/bulkhead/supervised.sh", of.top / "examples/serve/supervised.sh"),
        taken("LICENSE", of.top / "LICENSE"),
        taken("CHANGELOG.md", of.top / "CHANGELOG.md"),
    ]
    if of.built.relinkable is not None:
        found.append(Entry("lib/bulkhead/bulkhead.o", of.built.relinkable.read_bytes()))
        found.append(Entry("NOTICE", NOTICE.format(version=of.version).encode()))
    return found


def made(of: layout.Things) -> dict[str, bytes]:
    """The archive, by its name."""
    return {f"{name(of)}.tar.gz": tar_gz(below(name(of), entries(of)), of.epoch)}
