"""The tutorial of README.md, run as it is written: each Python block, and what it prints."""

from __future__ import annotations

import os
import subprocess
from pathlib import Path

from pages import Page
from support import PROGRAM, Case, needs_program

README = Path(__file__).parents[1] / "README.md"


class Tutorial(Case):
    @needs_program
    def test_each_block_prints_what_stands_below_it(self) -> None:
        page, replays = Page(README), 0
        self.addCleanup(os.chdir, Path.cwd())
        os.chdir(self.folder())
        Path("settings.toml").write_text(page.settings())

        def replay(block: str) -> None:
            nonlocal replays
            if "cmp" in block:
                script = block.replace("bulkhead run", f"{PROGRAM} run")
                told = subprocess.run(["bash", "-c", script], capture_output=True, text=True, check=False)
                self.assertEqual((told.stdout, told.stderr), ("the same replies\n", ""))
                replays += 1

        _, compared = page.run(self, replay)
        self.assertGreater(compared, 8)
        self.assertEqual(replays, 2)
