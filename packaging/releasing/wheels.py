"""The wheel, with the tag that its shared object keeps to, and the sdist."""

import io
import os
import tarfile
from pathlib import Path

from . import layout, symbols, tools
from .entries import PROGRAM_MODE, Entry, tar_gz


def again(sdist: Path, epoch: int) -> bytes:
    """The sdist anew, with one owner and one time, so that it is the same each time."""
    found = []
    with tarfile.open(sdist) as archive:
        for member in archive:
            content = archive.extractfile(member)
            if content is not None:
                mode = PROGRAM_MODE if member.mode & 0o100 else 0o644
                found.append(Entry(member.name, io.BytesIO(content.read()).getvalue(), mode))
    return tar_gz(found, epoch)


def made(of: layout.Things) -> dict[str, bytes]:
    """The wheel and the sdist, by their names; raises NotPortableError and ToolError."""
    platform = symbols.manylinux(symbols.asked(of.built.shared))
    environment = {
        **os.environ,
        "BULKHEAD_LIBRARY": str(of.built.shared),
        "BULKHEAD_PLATFORM": platform,
        "SOURCE_DATE_EPOCH": str(of.epoch),
    }
    tools.run([of.top / "python/build-wheel"], environment=environment)
    out = of.top / "python/out"
    wheel = out / f"bulkhead-{of.version}-py3-none-{platform}.whl"
    sdist = out / f"bulkhead-{of.version}.tar.gz"
    return {wheel.name: wheel.read_bytes(), sdist.name: again(sdist, of.epoch)}
