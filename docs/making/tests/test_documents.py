"""What a check of the documents finds, in a repository of one crate."""

import tempfile
import unittest
from pathlib import Path

from making import documents
from making.crates import rows_of
from making.rattle import sentence
from making.regions import region


class DocumentTests(unittest.TestCase):
    def setUp(self) -> None:
        room = tempfile.TemporaryDirectory()
        self.addCleanup(room.cleanup)
        self.top = Path(room.name)
        self.source = self.top / "crates/slots/src/lib.rt"
        self.source.parent.mkdir(parents=True)
        (self.top / "docs").mkdir()
        (self.top / "crates.txt").write_text("slots: arrayvec core # a comment\n")
        self.source.write_text("//! Slots.\n\n/// How many.\npub fn count() -> u64\n    ensures { result ≡ 1 }\n{ 1 }\n")
        (self.top / "README.md").write_text(f"# Slots\n\nOf [it](docs/proved/slots.md#count):\n\n{region('trusted', '')}")
        documents.write(self.top)

    def test_what_was_made_agrees_with_itself(self) -> None:
        self.assertEqual(documents.faults_of_made(self.top), [])
        self.assertIn("ensures { result ≡ 1 }", (self.top / "docs/proved/slots.md").read_text())
        self.assertIn("`arrayvec`", (self.top / "README.md").read_text())

    def test_another_clause_differs(self) -> None:
        self.source.write_text(self.source.read_text().replace("≡ 1", "≡ 2"))
        self.assertEqual(documents.faults_of_made(self.top), ["docs/proved/slots.md is not what docs/make writes"])

    def test_what_is_by_hand_stays(self) -> None:
        page = self.top / "docs/proved/slots.md"
        page.write_text(page.read_text().replace("# What is proved of `slots`\n", "# What is proved of `slots`\n\nBy hand.\n"))
        documents.write(self.top)
        self.assertIn("\n\nBy hand.\n", page.read_text())

    def test_a_docstring_without_a_sentence_is_told(self) -> None:
        self.source.write_text(self.source.read_text().replace("/// How many.\n", ""))
        self.assertIn("no docstring says a sentence of slots: count", documents.faults_of_made(self.top))

    def test_links_that_lead_nowhere_are_told(self) -> None:
        readme = self.top / "README.md"
        self.assertEqual(documents.faults_of_links(self.top, readme), [])
        readme.write_text("[a](none.md) [b](docs/proved/slots.md#counts) [c](https://example.org/none)\n")
        self.assertEqual(
            documents.faults_of_links(self.top, readme),
            ["README.md: nothing is at none.md", "README.md: no heading is at docs/proved/slots.md#counts"],
        )

    def test_a_page_of_no_crate_is_told(self) -> None:
        (self.top / "docs/proved/gone.md").write_text("# Gone\n")
        self.assertEqual(documents.faults_of_made(self.top), ["docs/proved/gone.md is of no crate"])


class RowTests(unittest.TestCase):
    def test_rows_have_names_and_what_they_stand_on(self) -> None:
        rows = rows_of("# all\na may_wait=2: b c # why\n\nb:\n")
        self.assertEqual([(row.name, row.stands_on) for row in rows], [("a", ("b", "c")), ("b", ())])

    def test_a_head_is_told_by_its_first_sentence(self) -> None:
        self.assertEqual(sentence("Lines: cut and read.\nMore."), "Lines: cut and read.")


if __name__ == "__main__":
    unittest.main()
