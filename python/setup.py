"""What pyproject.toml cannot say: the wheel has a shared object, which no version of Python is bound to.

Where `src/bulkhead` has no shared object, as in an sdist, BULKHEAD_LIBRARY names the one that the wheel gets. BULKHEAD_PLATFORM is
the tag of its platform, if it is not this machine's.
"""

import os
import shutil
from pathlib import Path

from setuptools import setup
from setuptools.command.build_py import build_py
from setuptools.dist import Distribution
from wheel.bdist_wheel import bdist_wheel

OBJECT = "libbulkhead.so"
MISSING = (
    "bulkhead: the sources have no shared object. BULKHEAD_LIBRARY has to name one of the same version, such as"
    " /usr/lib/x86_64-linux-gnu/libbulkhead.so.4 of Debian's package libbulkhead4, or lib/libbulkhead.so.4 of the archive"
)


class WithObject(build_py):
    """Builds the package with the shared object in it, or ends with what is missing."""

    def run(self) -> None:
        super().run()
        to = Path(self.build_lib) / "bulkhead" / OBJECT
        named = os.environ.get("BULKHEAD_LIBRARY")
        if to.is_file():
            return
        if named is None or not Path(named).is_file():
            raise SystemExit(MISSING)
        shutil.copyfile(named, to)


class PlatformWheel(bdist_wheel):
    """A wheel for any Python 3 of this machine's platform."""

    def finalize_options(self) -> None:
        super().finalize_options()
        self.root_is_pure = False

    def get_tag(self) -> tuple[str, str, str]:
        _, _, platform = super().get_tag()
        return "py3", "none", os.environ.get("BULKHEAD_PLATFORM", platform)


class WithLibrary(Distribution):
    """A distribution that is no pure one."""

    def has_ext_modules(self) -> bool:
        return True


setup(cmdclass={"bdist_wheel": PlatformWheel, "build_py": WithObject}, distclass=WithLibrary)
