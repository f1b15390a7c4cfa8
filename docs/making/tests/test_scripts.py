"""What scripts say of themselves in their heads."""

import tempfile
import unittest
from pathlib import Path

from making.scripts import table

CALLED = """#!/bin/bash
# Rings a bell, and fails
# where none is heard.
#
#   bench/ring.sh [-n TIMES] [BELL]     BELL is made where none is given
#   bench/ring.sh -l
#
# More of it.
set -eu
#   bench/ring.sh behind the head
"""
READ = "#!/bin/bash\n# Read by others.\nring=1\n"


class ScriptTests(unittest.TestCase):
    def setUp(self) -> None:
        room = tempfile.TemporaryDirectory()
        self.addCleanup(room.cleanup)
        self.top = Path(room.name)
        (self.top / "bench").mkdir()
        (self.top / "bench/ring.sh").write_text(CALLED)
        (self.top / "bench/words.sh").write_text(READ)
        (self.top / "bench/bell.py").write_text("#!/usr/bin/env python3\n#   bench/bell.py\n")

    def test_a_script_is_told_by_its_calls_and_the_first_paragraph_of_its_head(self) -> None:
        row = "| `bench/ring.sh [-n TIMES] [BELL]`, `bench/ring.sh -l` | Rings a bell, and fails where none is heard. |"
        self.assertEqual(table(self.top).split("\n")[2:], [row])


if __name__ == "__main__":
    unittest.main()
