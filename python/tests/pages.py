"""Pages whose Python blocks are run as they are written."""

from __future__ import annotations

import contextlib
import io
import re
import unittest
from collections.abc import Callable
from pathlib import Path


class Page:
    """A page and its blocks, each with its kind: `toml`, `python`, or none where it is what the block above it prints."""

    def __init__(self, path: Path) -> None:
        self.path = path
        across = re.DOTALL | re.MULTILINE
        self.blocks: list[tuple[str, str]] = re.findall(r"^```(\w*)\n(.*?)^```$", path.read_text(), across)

    def settings(self) -> str:
        """The first block of settings."""
        return next(block for kind, block in self.blocks if kind == "toml")

    def run(
        self, case: unittest.TestCase, take_other: Callable[[str], None] = lambda block: None
    ) -> tuple[dict[str, object], int]:
        """Runs each Python block, which has to print what stands below it, and hands on what is neither. Returns the names
        that the blocks left, and how many of them printed something."""
        names: dict[str, object] = {"__name__": "page"}
        printed, compared = "", 0
        for kind, block in self.blocks:
            if kind == "python":
                case.assertEqual(printed, "", "a block that prints has what it prints below it")
                out = io.StringIO()
                with contextlib.redirect_stdout(out):
                    exec(compile(block, str(self.path), "exec"), names)
                printed = out.getvalue()
            elif not kind and printed:
                case.assertEqual(printed, block)
                printed, compared = "", compared + 1
            else:
                take_other(block)
        return names, compared
