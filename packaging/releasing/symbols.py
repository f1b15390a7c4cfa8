"""What a program or a shared object asks of the C library, as its dynamic symbols tell."""

import re
from dataclasses import dataclass
from pathlib import Path

from . import tools

Number = tuple[int, ...]

# An undefined symbol of `objdump -T`, with the version that it is asked for by.
ASKED = re.compile(r"\*UND\*\s+\S+\s+\(?(?P<family>[A-Z]+)_(?P<number>[0-9.]+)\)?\s+(?P<name>\S+)$", re.M)
NEEDED = re.compile(r"^ +NEEDED +(?P<name>\S+)$", re.M)
SONAME = re.compile(r"^ +SONAME +(?P<name>\S+)$", re.M)
# What a tag promises on x86-64: the C library is no older, and no library beside these is wanted (PEP 600 and its profiles).
TAGS: tuple[Number, ...] = ((2, 5), (2, 12), (2, 17), (2, 24), (2, 26), (2, 27), (2, 28), (2, 31), (2, 34), (2, 35), (2, 38), (2, 39))
ALLOWED = frozenset(
    {"libc.so.6", "libm.so.6", "libdl.so.2", "librt.so.1", "libpthread.so.0", "libgcc_s.so.1", "ld-linux-x86-64.so.2"}
)
# The oldest tag that is given. There are older ones, which the tools of today know no more.
OLDEST_TAG: Number = (2, 17)


class NotPortableError(Exception):
    """A shared object asks for what no tag promises."""


@dataclass(frozen=True)
class Asked:
    """What an object asks for: libraries by name, and the newest version of each family of symbols."""

    libraries: tuple[str, ...]
    newest: dict[str, Number]

    @property
    def is_static(self) -> bool:
        return not self.libraries

    @property
    def glibc(self) -> Number:
        """The oldest version of the C library that has all; that of the first one for x86-64 where no symbol says more."""
        return self.newest.get("GLIBC", (2, 2, 5))


def parsed(number: str) -> Number:
    """A version as numbers."""
    return tuple(int(part) for part in number.split("."))


def shown(number: Number) -> str:
    """A version as it is written."""
    return ".".join(str(part) for part in number)


def read(symbols: str, heads: str) -> Asked:
    """What `objdump -T` and `objdump -p` say of an object."""
    newest: dict[str, Number] = {}
    for asked in ASKED.finditer(symbols):
        number = parsed(asked["number"])
        newest[asked["family"]] = max(number, newest.get(asked["family"], number))
    return Asked(tuple(it["name"] for it in NEEDED.finditer(heads)), newest)


def asked(path: Path) -> Asked:
    """What an object asks for; raises ToolError where it is none."""
    heads = tools.run(["objdump", "-p", path])
    is_dynamic = re.search(r"^Dynamic Section:", heads, re.M) is not None
    return read(tools.run(["objdump", "-T", path]) if is_dynamic else "", heads)


def manylinux(found: Asked) -> str:
    """The oldest tag of a wheel that promises what an object asks for; raises NotPortableError."""
    strange = sorted(set(found.libraries) - ALLOWED)
    others = sorted(set(found.newest) - {"GLIBC"})
    if strange or others:
        raise NotPortableError(f"no tag promises {', '.join([*strange, *others])}")
    wanted = max(found.glibc, OLDEST_TAG)
    tag = next((it for it in TAGS if it >= wanted), None)
    if tag is None:
        raise NotPortableError(f"no tag promises GLIBC_{shown(wanted)}")
    return "manylinux_" + "_".join(str(part) for part in tag) + "_x86_64"
