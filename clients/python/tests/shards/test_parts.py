"""Parts have all of what is split, in order, and none is too large."""

from __future__ import annotations

import unittest

from bpfhost.parts import in_parts


class Parts(unittest.TestCase):
    def test_sizes(self) -> None:
        words = ["aa", "bbb", "", "c", "dddddddd", "ee", "fff"]
        self.assertEqual(list(in_parts(words, len, 5)), [["aa", "bbb", ""], ["c"], ["dddddddd"], ["ee", "fff"]])

    def test_numbers(self) -> None:
        self.assertEqual(list(in_parts("abcde", len, 100, 2)), [["a", "b"], ["c", "d"], ["e"]])
        self.assertEqual(list(in_parts("", len, 100, 2)), [])
