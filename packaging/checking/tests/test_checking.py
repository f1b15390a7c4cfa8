"""How a check counts what it saw, and what it says of files that differ."""

from __future__ import annotations

import contextlib
import hashlib
import io
import tempfile
import unittest
from pathlib import Path

from checking import files
from checking.roots import FailedError
from checking.rows import Table, same


class Rows(unittest.TestCase):
    def table(self, *told: str) -> tuple[Table, int, str]:
        """A table of what a script printed, its status, and what it printed itself."""
        with contextlib.redirect_stdout(io.StringIO()) as printed:
            table = Table()
            table.told("here", "\n".join(told))
            status = table.end()
        return table, status, printed.getvalue()

    def test_what_is_right_agrees(self) -> None:
        _, status, printed = self.table("row 3.50 60 ok the first decision", "row 0.10 - ok an upgrade")
        self.assertEqual(status, 0)
        self.assertTrue(printed.endswith("2 agree, 0 differ\n"))

    def test_what_takes_too_long_differs(self) -> None:
        table, status, printed = self.table("row 61.00 60 ok the first decision")
        self.assertEqual((status, table.rows[0].is_right), (1, False))
        self.assertIn("it took too long", printed)

    def test_lines_before_a_row_that_failed_say_why(self) -> None:
        table, status, _ = self.table("no such group", "row 1.00 - failed an upgrade", "row 1.00 - ok a removal")
        self.assertEqual(status, 1)
        self.assertEqual([row.why for row in table.rows], ["it is not so\n    no such group", ""])

    def test_a_look_that_raises_has_failed(self) -> None:
        with contextlib.redirect_stdout(io.StringIO()):
            table = Table()
            table.look("here", "two texts", lambda: same("a", "b"))
            table.look("here", "two texts", lambda: same("a", "a"))
        self.assertEqual([row.is_right for row in table.rows], [False, True])
        self.assertEqual(table.rows[0].why, "it says 'a', and should say 'b'")


class Files(unittest.TestCase):
    def setUp(self) -> None:
        room = tempfile.TemporaryDirectory()
        self.addCleanup(room.cleanup)
        self.one, self.other = Path(room.name) / "one", Path(room.name) / "other"
        for folder in (self.one, self.other):
            folder.mkdir()
            (folder / "a").write_bytes(b"a")
            (folder / "SHA256SUMS").write_text(f"{hashlib.sha256(b'a').hexdigest()}  a\n")

    def test_files_that_are_whole_and_alike(self) -> None:
        files.sums(self.one)
        files.alike(self.one, self.other)

    def test_a_file_that_was_changed_is_named(self) -> None:
        (self.one / "a").write_bytes(b"b")
        with self.assertRaisesRegex(FailedError, "these differ: a$"):
            files.sums(self.one)
        with self.assertRaisesRegex(FailedError, "these differ: a$"):
            files.alike(self.one, self.other)

    def test_a_file_that_only_one_has_is_named(self) -> None:
        (self.other / "b").write_bytes(b"b")
        with self.assertRaisesRegex(FailedError, "these differ: b$"):
            files.sums(self.other)
        with self.assertRaisesRegex(FailedError, "these differ: b$"):
            files.alike(self.one, self.other)

    def test_a_release_without_its_origin_is_told(self) -> None:
        with self.assertRaisesRegex(FailedError, "PROVENANCE.json cannot be read"):
            files.epoch(self.one)


if __name__ == "__main__":
    unittest.main()
