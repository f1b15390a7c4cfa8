"""One version for the program, the package and the man page."""

from __future__ import annotations

import importlib.metadata
import re
import subprocess
import unittest
from pathlib import Path

import bulkhead
from support import PROGRAM, needs_program

TOP = Path(__file__).parents[2]
VERSION = r"[0-9]+\.[0-9]+\.[0-9]+"


def first(pattern: str, path: str) -> str:
    """What a pattern's group is at its first place in a file of the repository."""
    found = re.search(pattern, (TOP / path).read_text(), re.MULTILINE)
    assert found is not None, path
    return found[1]


class Version(unittest.TestCase):
    def test_the_package_has_the_version_of_the_program_in_its_text(self) -> None:
        said = first(rf'^const VERSION: &str = "({VERSION})\\n', "crates/bh_arguments/src/commands.rt")
        self.assertEqual(bulkhead.__version__, said)

    def test_the_man_page_and_the_changelog_have_it_too(self) -> None:
        self.assertEqual(bulkhead.__version__, first(rf'"bulkhead ({VERSION})"', "docs/bulkhead.1"))
        self.assertEqual(bulkhead.__version__, first(rf"^## ({VERSION})$", "CHANGELOG.md"))

    def test_the_wheel_has_no_version_of_its_own(self) -> None:
        project = (TOP / "python/pyproject.toml").read_text()
        self.assertIsNone(re.search(rf'^version = "{VERSION}"', project, re.MULTILINE))
        self.assertIn('version = {attr = "bulkhead.__version__"}', project)

    @needs_program
    def test_the_program_says_it(self) -> None:
        told = subprocess.run([PROGRAM, "--version"], capture_output=True, text=True, check=True).stdout
        self.assertEqual(told.splitlines()[0], f"bulkhead {bulkhead.__version__}")

    def test_an_installed_package_says_it(self) -> None:
        try:
            installed = importlib.metadata.version("bulkhead")
        except importlib.metadata.PackageNotFoundError:
            self.skipTest("the package is not installed here")
        self.assertEqual(bulkhead.__version__, installed)
