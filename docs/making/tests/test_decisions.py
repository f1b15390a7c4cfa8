"""The records of DECISIONS, and the names of headings."""

import unittest

from making.anchors import anchors
from making.decisions import faults_of_records, records, themes_table

PAGE = """# Decisions

### 2. A lock `for` all

It is one. *Else:* two (of them). (Threads, 2026-11-30)

### 1. Moments

They are handed in. (Rules, 2026-11-29)
"""


class DecisionTests(unittest.TestCase):
    def test_records_have_number_theme_and_date(self) -> None:
        told = [(each.number, each.theme, each.date, each.text) for each in records(PAGE)]
        first = (2, "Threads", "2026-11-30", "It is one. *Else:* two (of them).")
        self.assertEqual(told, [first, (1, "Rules", "2026-11-29", "They are handed in.")])
        self.assertEqual(faults_of_records(PAGE), [])

    def test_the_index_links_to_the_records(self) -> None:
        self.assertIn("| Threads | [2](#2-a-lock-for-all) |\n| Rules | [1](#1-moments) |", themes_table(PAGE))
        self.assertIn("2-a-lock-for-all", anchors(PAGE))

    def test_what_is_amiss_is_told(self) -> None:
        self.assertEqual(faults_of_records(PAGE.replace("### 1.", "### 3.")), ["the numbers of the records do not fall"])
        self.assertEqual(faults_of_records(PAGE.replace("11-29", "12-01")), ["a record stands above a newer one"])
        self.assertEqual(faults_of_records(PAGE.replace("They are", "They are " * 100)), ["record 1 is longer than six lines"])
        self.assertEqual(len(faults_of_records(PAGE.replace("(Rules, 2026-11-29)", ""))), 1)

    def test_a_heading_that_comes_again_has_a_number(self) -> None:
        self.assertEqual(anchors("# One\n```\n# no\n```\n## One\n"), {"one", "one-1"})


if __name__ == "__main__":
    unittest.main()
