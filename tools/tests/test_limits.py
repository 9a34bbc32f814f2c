"""Limits that several crates use are one constant each, and the texts of the verifier's log cite them."""

from __future__ import annotations

import re
import unittest
from pathlib import Path

from generating.crates import Crates

CRATES = Path(__file__).resolve().parents[2] / "crates"
OWNERS = {
    "CONTEXT_WORDS": "tagged_model/src/value.rt",
    "FARTHEST_OFFSET": "tagged_model/src/value.rt",
    "GIVEN_WORDS": "words/src/context.rt",
    "LENGTHS_END": "transfer/src/calls.rt",
    "STACK_SIZE": "words/src/stack.rt",
}
IN_LOGS = ("FARTHEST_OFFSET", "LENGTHS_END", "STACK_SIZE")


def numbers_in(text: str) -> set[int]:
    """The numbers in a source, those in its texts too."""
    return {int(found.replace("_", ""), 0) for found in re.findall(r"(?<!\w)(?:0x[\da-f_]+|[1-9][\d_]*)", text)}


class Limits(unittest.TestCase):
    def test_one_constant(self) -> None:
        crates = Crates(CRATES)
        for name, path in OWNERS.items():
            with self.subTest(name):
                self.assertEqual([file for file, found in crates.constants.items() if name in found], [path])

    def test_logs_cite_them(self) -> None:
        crates = Crates(CRATES)
        limits = {crates.number(OWNERS[name], name): name for name in IN_LOGS}
        sources = sorted(CRATES.glob("log_*/src/**/*.rt"))
        self.assertTrue(sources)
        for source in sources:
            with self.subTest(source.name):
                self.assertEqual([limits[number] for number in numbers_in(source.read_text()) if number in limits], [])

    def test_numbers(self) -> None:
        self.assertEqual(numbers_in('const END: u64 = 0x2000_0000; text.push_str("-512 to -1"); r10 [0; 8]'), {0x2000_0000, 512, 1, 8})
