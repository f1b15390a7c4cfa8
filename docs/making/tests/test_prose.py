"""What is counted of prose, and what a made part is."""

import unittest

from making.prose import by_hand_count, paragraphs, sentences, too_long
from making.regions import by_hand, filled, region

LONG = "Long " + " ".join(["word"] * 40) + "."


class ProseTests(unittest.TestCase):
    def test_a_sentence_of_41_words_is_too_long(self) -> None:
        self.assertEqual([each.words for each in too_long(f"Short. {LONG}\n")], [41])
        self.assertEqual(too_long(" ".join(["word"] * 40) + ".\n"), [])

    def test_a_paragraph_of_121_words_is_too_long(self) -> None:
        self.assertEqual([each.what for each in too_long(" ".join(["A word stays."] * 41))], ["paragraph"])

    def test_code_tables_headings_and_made_parts_are_not_counted(self) -> None:
        for text in (f"```\n{LONG}\n```\n", f"| {LONG} |\n", f"# {LONG}\n", region("x", LONG), f"`{LONG}`\n"):
            self.assertEqual(too_long(text), [], text)

    def test_an_item_of_a_list_is_a_paragraph(self) -> None:
        self.assertEqual(paragraphs("- one\n  more\n- two\n\nthree\n"), ["one more", "two", "three"])

    def test_a_sentence_may_begin_with_code(self) -> None:
        self.assertEqual(len(sentences("It ends here. `run` begins. Of 1.5 there is one.")), 3)


class RegionTests(unittest.TestCase):
    def test_a_made_part_is_replaced_and_nothing_else(self) -> None:
        page = f"before\n{region('a', 'old')}between\n{region('b', 'old')}after\n"
        told = filled(page, {"a": "new"})
        self.assertEqual(told, f"before\n{region('a', 'new')}between\n{region('b', 'old')}after\n")
        self.assertEqual(filled(told, {"a": "new"}), told)

    def test_what_is_by_hand_is_what_stands_outside(self) -> None:
        self.assertEqual(by_hand(f"one two\n{region('a', 'three')}four\n"), "one two\nfour\n")
        self.assertEqual(by_hand_count(f"one two\n{region('a', 'three')}four\n"), 3)


if __name__ == "__main__":
    unittest.main()
