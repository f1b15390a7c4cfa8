"""What the parts of a release are made of, by examples whose answers are written here."""

from __future__ import annotations

import io
import tarfile
import unittest
from pathlib import Path

from releasing import completions, notes, symbols, versions
from releasing.entries import Entry, below, folder, tar, tar_gz

TOP = Path(__file__).resolve().parents[3]
PROGRAM = """Runs commands

Usage: bulkhead <COMMAND>

Commands:
  check    Prints what is in force
  share
          Decides for clients
  help     Print this message

Options:
  -h, --help     Print help
"""
SHARE = """Decides for clients

Usage: bulkhead share [OPTIONS] <FILE>

Arguments:
  <FILE>  The settings file: it's TOML

Options:
      --explain       Says more
      --socket <PATH>
          The socket [default: none]
  -h, --help          Print help

To a port any user of this machine may connect.
"""
OBJECT = """
0000000000000000      DF *UND*\t0000000000000000 (GLIBC_2.2.5) free
0000000000000000      DF *UND*\t0000000000000000 (GLIBC_2.14) memcpy
0000000000000000      DF *UND*\t0000000000000000  GLIBC_2.9 strange
0000000000000000  w   D  *UND*\t0000000000000000  Base        __gmon_start__
0000000000001000 g    DF .text\t0000000000000010 bulkhead_open
"""
HEADS = """
Dynamic Section:
  NEEDED               libc.so.6
  SONAME               libbulkhead.so.4
"""


class Symbols(unittest.TestCase):
    def test_the_newest_version_is_by_number_and_not_by_letters(self) -> None:
        self.assertEqual(symbols.read(OBJECT, HEADS), symbols.Asked(("libc.so.6",), {"GLIBC": (2, 14)}))

    def test_a_tag_is_the_oldest_that_promises_enough(self) -> None:
        def tag(*number: int) -> str:
            return symbols.manylinux(symbols.Asked(("libc.so.6",), {"GLIBC": number}))

        self.assertEqual(tag(2, 14), "manylinux_2_17_x86_64")
        self.assertEqual(tag(2, 17), "manylinux_2_17_x86_64")
        self.assertEqual(tag(2, 18), "manylinux_2_24_x86_64")
        self.assertEqual(tag(2, 34), "manylinux_2_34_x86_64")

    def test_what_no_tag_promises_is_refused_by_name(self) -> None:
        refused = {
            "GLIBC_2.40": symbols.Asked(("libc.so.6",), {"GLIBC": (2, 40)}),
            "libssl.so.3": symbols.Asked(("libc.so.6", "libssl.so.3"), {"GLIBC": (2, 17)}),
            "GLIBCXX": symbols.Asked(("libc.so.6",), {"GLIBC": (2, 17), "GLIBCXX": (3, 4)}),
        }
        for name, asked in refused.items():
            with self.assertRaisesRegex(symbols.NotPortableError, name):
                symbols.manylinux(asked)

    def test_what_wants_no_library_is_static(self) -> None:
        self.assertTrue(symbols.read("", "").is_static)
        self.assertFalse(symbols.read(OBJECT, HEADS).is_static)


class Archives(unittest.TestCase):
    ENTRIES = (
        Entry("bin/run", b"#!/bin/sh\n", 0o755),
        Entry("lib/a.so", link="a.so.4"),
        folder("run", 0o700, owner=7),
    )

    def members(self) -> dict[str, tarfile.TarInfo]:
        with tarfile.open(fileobj=io.BytesIO(tar(self.ENTRIES, 1000))) as archive:
            return {member.name: member for member in archive}

    def test_folders_above_are_there_before_what_they_have(self) -> None:
        self.assertEqual(list(self.members()), ["bin", "bin/run", "lib", "lib/a.so", "run"])

    def test_modes_owners_links_and_times(self) -> None:
        members = self.members()
        self.assertEqual([members[name].mode for name in ("bin", "bin/run", "run")], [0o755, 0o755, 0o700])
        self.assertEqual([members[name].uid for name in ("bin", "run")], [0, 7])
        self.assertEqual(members["lib/a.so"].linkname, "a.so.4")
        self.assertEqual({member.mtime for member in members.values()}, {1000})

    def test_the_order_in_which_entries_come_is_not_seen(self) -> None:
        self.assertEqual(tar_gz(self.ENTRIES, 1000), tar_gz(reversed(self.ENTRIES), 1000))

    def test_entries_within_a_folder(self) -> None:
        self.assertEqual([it.path for it in below("usr", self.ENTRIES)], ["usr/bin/run", "usr/lib/a.so", "usr/run"])


class Completions(unittest.TestCase):
    share = completions.command("share", "Decides for clients", SHARE)

    def test_commands_with_what_they_are_for_beside_them_or_below(self) -> None:
        found = [(it.name, it.about) for it in completions.commands(PROGRAM)]
        wanted = [("check", "Prints what is in force"), ("share", "Decides for clients"), ("help", "Print this message")]
        self.assertEqual(found, wanted)

    def test_options_with_what_they_take(self) -> None:
        found = [(it.name, it.value, it.about) for it in self.share.options]
        wanted = [("explain", None, "Says more"), ("socket", "PATH", "The socket [default: none]"), ("help", None, "Print help")]
        self.assertEqual(found, wanted)
        self.assertEqual(self.share.arguments, ("FILE",))

    def test_texts_cannot_end_what_quotes_them(self) -> None:
        option = completions.Option("a", None, "it's [so]: \\")
        found = [completions.Command("do", "it's", (option,))]
        self.assertIn("'--a[it'\\''s \\[so\\]\\: \\\\]'", completions.zsh(found))
        self.assertIn("-d 'it\\'s [so]: \\\\'", completions.fish(found))

    def test_each_shell_is_told_of_paths(self) -> None:
        self.assertIn("--socket) mapfile", completions.bash([self.share]))
        self.assertIn(":path:_files'", completions.zsh([self.share]))
        self.assertIn("-l socket -r -F", completions.fish([self.share]))


class Notes(unittest.TestCase):
    TEXT = "# Changelog\n\nWho reads it.\n\n## Unreleased\n\n- New.\n\n## 1.0.0\n\n- First.\n\n## 0.9.0\n\n- Old.\n"

    def test_what_no_version_has_yet_is_told_apart(self) -> None:
        wanted = "# bulkhead 1.0.0\n\n## Since 1.0.0 was counted\n\n- New.\n\n## 1.0.0\n\n- First.\n"
        self.assertEqual(notes.note(self.TEXT, "1.0.0"), wanted)

    def test_a_version_with_nothing_after_it(self) -> None:
        text = self.TEXT.replace("## Unreleased\n\n- New.\n\n", "")
        self.assertEqual(notes.note(text, "1.0.0"), "# bulkhead 1.0.0\n\n- First.\n")

    def test_a_version_that_is_not_there_is_refused(self) -> None:
        with self.assertRaisesRegex(notes.NoSectionError, "2.0.0"):
            notes.note(self.TEXT, "2.0.0")


class Versions(unittest.TestCase):
    def test_all_places_have_the_number_of_the_program(self) -> None:
        wanted = versions.number(TOP)
        self.assertEqual(versions.standing(TOP), dict.fromkeys(versions.standing(TOP), wanted))

    def test_a_file_that_has_none_is_named(self) -> None:
        with self.assertRaisesRegex(versions.NoNumberError, "LICENSE"):
            versions.Place("LICENSE", "^version ", "$").number(TOP)


if __name__ == "__main__":
    unittest.main()
