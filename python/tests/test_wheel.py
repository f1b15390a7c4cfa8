"""The wheel: made by one command, and installed where there is neither a network nor a compiler."""

from __future__ import annotations

import importlib.util
import os
import shutil
import subprocess
import sys
import unittest
from pathlib import Path

import bulkhead
from support import SETTINGS, Case

TOP = Path(__file__).parents[1]
OBJECT = TOP / "../bindings/out/libbulkhead.so"
WANTED = "import build, setuptools, wheel"


def has_backend() -> bool:
    """Whether one of the two Pythons that the command looks at has Debian's packages."""
    pythons = [python for python in ("python3", "/usr/bin/python3") if shutil.which(python)]
    return any(subprocess.run([python, "-c", WANTED], capture_output=True).returncode == 0 for python in pythons)


class Wheel(Case):
    @unittest.skipUnless(OBJECT.exists(), "the shared object is not built")
    @unittest.skipUnless(importlib.util.find_spec("ensurepip"), "python3-venv is not there")
    @unittest.skipUnless(has_backend(), "python3-build, python3-setuptools or python3-wheel is not there")
    def test_a_wheel_installs_into_a_fresh_environment_and_carries_its_library(self) -> None:
        made = self.run_words(str(TOP / "build-wheel"))
        wheel = Path(made.splitlines()[-1])
        self.assertTrue(wheel.match("bulkhead-*-py3-none-linux_*.whl"), made)
        folder = self.folder()
        self.run_words(sys.executable, "-m", "venv", str(folder))
        python = str(folder / "bin/python")
        self.run_words(python, "-m", "pip", "install", "--no-index", "--quiet", str(wheel))
        told = self.run_words(python, "-m", "bulkhead").splitlines()
        self.assertEqual(told[0], f"bulkhead {bulkhead.__version__}, interface 4")
        self.assertTrue(Path(told[1]).is_relative_to(folder), told)
        program = f"import bulkhead; print(bulkhead.open(text={SETTINGS!r}).command('pool')(lambda: 7)())"
        self.assertEqual(self.run_words(python, "-c", program), "7\n")
        page = self.run_words(python, "-c", "from bulkhead.page._endpoints import path; print(path().resolve())").strip()
        self.assertTrue(Path(page).is_relative_to(folder) and Path(page).stat().st_size > 10_000, page)

    def run_words(self, *words: str) -> str:
        """What a command writes, which finds no compiler and none of this test's variables."""
        folder = self.folder()
        (folder / "python3").symlink_to(sys.executable)
        for name in ("bash", "cat", "cp", "dirname", "mktemp", "rm"):
            (folder / name).symlink_to(shutil.which(name) or name)
        environment = {"PATH": str(folder), "HOME": os.environ.get("HOME", "/"), "no_proxy": "*"}
        ended = subprocess.run(words, capture_output=True, text=True, env=environment, check=False)
        self.assertEqual((ended.returncode, ended.stderr), (0, ""))
        return ended.stdout
