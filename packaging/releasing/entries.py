"""Files to be packed, and archives of them that are the same each time."""

import gzip
import io
import tarfile
from collections.abc import Iterable
from dataclasses import dataclass, field
from pathlib import Path

FILE_MODE = 0o644
PROGRAM_MODE = 0o755


@dataclass(frozen=True)
class Entry:
    """A file, a link or a folder of an archive.

    `content` are the bytes of a file; `link` is where a symbolic link leads. One that has neither is a folder. `owner` is the
    number of the user and of the group.
    """

    path: str
    content: "bytes | None" = field(default=None, repr=False)
    mode: int = FILE_MODE
    link: "str | None" = None
    owner: int = 0

    def member(self, epoch: int) -> tarfile.TarInfo:
        """The head of the entry in a tar; `epoch` is its time, in seconds."""
        member = tarfile.TarInfo(self.path)
        member.mtime, member.mode = epoch, self.mode
        member.uid = member.gid = self.owner
        if self.link is not None:
            member.type, member.linkname, member.mode = tarfile.SYMTYPE, self.link, 0o777
        elif self.content is None:
            member.type = tarfile.DIRTYPE
        else:
            member.size = len(self.content)
        return member

    def write(self, root: Path) -> None:
        """Writes the entry below a folder, with its mode; its owner is whoever writes."""
        path = root / self.path
        path.parent.mkdir(parents=True, exist_ok=True)
        if self.link is not None:
            path.symlink_to(self.link)
        elif self.content is None:
            path.mkdir(exist_ok=True)
            path.chmod(self.mode)
        else:
            path.write_bytes(self.content)
            path.chmod(self.mode)


def folder(path: str, mode: int = PROGRAM_MODE, owner: int = 0) -> Entry:
    """An empty folder."""
    return Entry(path, mode=mode, owner=owner)


def taken(path: str, source: Path) -> Entry:
    """A file as it stands on the disk; it is a program where its owner may run it."""
    mode = PROGRAM_MODE if source.stat().st_mode & 0o100 else FILE_MODE
    return Entry(path, source.read_bytes(), mode)


def below(prefix: str, entries: Iterable[Entry]) -> list[Entry]:
    """The entries within a folder."""
    return [Entry(f"{prefix}/{it.path}", it.content, it.mode, it.link, it.owner) for it in entries]


def with_folders(entries: Iterable[Entry]) -> list[Entry]:
    """The entries in the order of their paths, with each folder above them that is not among them."""
    found = {it.path: it for it in entries}
    for path in list(found):
        for above in list(Path(path).parents)[:-1]:
            found.setdefault(str(above), folder(str(above)))
    return [found[path] for path in sorted(found)]


def tar(entries: Iterable[Entry], epoch: int) -> bytes:
    """A tar of the entries and the folders above them, all of one time; `epoch` is in seconds."""
    packed = io.BytesIO()
    with tarfile.open(fileobj=packed, mode="w", format=tarfile.USTAR_FORMAT) as archive:
        for each in with_folders(entries):
            archive.addfile(each.member(epoch), io.BytesIO(each.content or b""))
    return packed.getvalue()


def tar_gz(entries: Iterable[Entry], epoch: int) -> bytes:
    """The same, compressed."""
    return gzip.compress(tar(entries, epoch), compresslevel=9, mtime=epoch)
