"""tools/plain_words.py counts slow words in the prose of a page, and compares them with the page's bound."""

from __future__ import annotations

import unittest
from pathlib import Path
from unittest import mock

import plain_words
from plain_words import count, too_many

TOP = Path(__file__).resolve().parents[2]


class PlainWords(unittest.TestCase):
    def test_forms(self) -> None:
        found = count("Where a key stands alone, it is told. It answers where it stood, and says so.\n")
        self.assertEqual(found, {"where": 2, "stand": 2, "alone": 1, "told": 1, "answer": 1, "says so": 1})

    def test_whole_words(self) -> None:
        self.assertEqual(count("elsewhere, standard, understand, besides, unwanted, retold\n"), {})

    def test_code_and_links_do_not_count(self) -> None:
        text = "`where` [a page](alone.md#behind)\n\n    where x stands\n\n```c\n/* told */\n```\n\n~~~\nbehind\n~~~\n"
        self.assertEqual(count(text), {})
        self.assertEqual(count(text + "where\n"), {"where": 1})

    def test_bounds(self) -> None:
        with mock.patch.object(plain_words, "MOST", {"a.md": 2}):
            self.assertEqual(too_many("a.md", "where, and alone"), [])
            self.assertEqual(too_many("a.md", "where, where, and alone"),
                             ["a.md: 3 slow words, and 2 are the most: 2 'where' (if, when; or the place by its name), 1 'alone' (only)"])
            self.assertEqual(too_many("b.md", "behind it"), ["b.md: 1 slow words, and 0 are the most: 1 'behind' (after)"])

    def test_bounds_of_pages(self) -> None:
        self.assertEqual(plain_words.bounds([("a.md", "where and `where`, alone"), ("b.md", "none")]), '    "a.md": 2,\n')

    def test_each_bound_is_of_a_page(self) -> None:
        self.assertEqual([page for page in plain_words.MOST if not (TOP / page).is_file()], [])


if __name__ == "__main__":
    unittest.main()
