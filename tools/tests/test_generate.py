"""tools/generate writes what the crates and texts.toml say between its marks, and reports what differs."""

from __future__ import annotations

import tempfile
import unittest
from pathlib import Path

import generate
from generating.crates import Crates, SourceError
from generating.places import HEADER, PLACES, Place
from generating.shared import Shared, shared_of

TOP = Path(__file__).resolve().parents[2]
MARKED = "before\n  # errors: written by tools/generate\n  old\n  # end of errors\nafter\n"


class Generate(unittest.TestCase):
    shared: Shared

    @classmethod
    def setUpClass(cls) -> None:
        cls.shared = shared_of(TOP)

    def crates(self, **files: str) -> Crates:
        """Crates, each of one file."""
        folder = tempfile.TemporaryDirectory()
        self.addCleanup(folder.cleanup)
        for name, text in files.items():
            (Path(folder.name) / name / "src").mkdir(parents=True)
            (Path(folder.name) / name / "src/lib.rt").write_text(text)
        return Crates(Path(folder.name))

    def test_numbers_of_constants(self) -> None:
        crates = self.crates(one="pub const FIRST: usize = 4_000;\nconst ALL: u32 = 2 * FIRST as u32 + SECOND;\n", two="pub(crate) const SECOND: u32 = -1;\n")
        self.assertEqual(crates.number("one/src/lib.rt", "ALL"), 7999)
        self.assertEqual(crates.number("two/src/lib.rt", "FIRST + 1"), 4001)
        for wrong in ("MISSING", "FIRST / 2", "FIRST +"):
            with self.assertRaises(SourceError):
                crates.number("one/src/lib.rt", wrong)

    def test_a_constant_of_two_files_is_that_of_the_file(self) -> None:
        crates = self.crates(one="const MOST: u32 = 1;\n", two="const MOST: u32 = 2;\n", three="const OTHER: u32 = 3;\n")
        self.assertEqual(crates.number("two/src/lib.rt", "MOST"), 2)
        with self.assertRaises(SourceError):
            crates.number("three/src/lib.rt", "MOST")

    def test_what_the_field_has(self) -> None:
        """Numbers of bpf(2), errno(3) and docs/VERIFIER.md, written by hand."""
        self.assertEqual({each.name: each.number for each in self.shared.errors}["ENOSPC"], 28)
        self.assertEqual([each.number for each in self.shared.commands], [0, 1, 2, 3, 4, 5, 10, 256])
        self.assertEqual({each.number: each.text for each in self.shared.reasons}[30], "the pointer may be null")
        self.assertEqual([each.number for each in self.shared.codec], list(range(101, 109)))
        self.assertEqual(self.shared.limit("TEST_RUN_HEAD").number, 48)

    def test_a_part_is_written_between_its_marks(self) -> None:
        place = Place("numbers.py", "errors", lambda shared: ["new", "", "lines"])
        self.assertEqual(place.written(MARKED, self.shared), MARKED.replace("  old\n", "  new\n\n  lines\n"))
        self.assertIsNone(place.written(MARKED.replace("end of", "end"), self.shared))
        self.assertIsNone(place.written(MARKED + MARKED, self.shared))

    def test_every_place_is_as_it_is_written(self) -> None:
        texts, missing = generate.written(TOP, self.shared)
        self.assertEqual(missing, [])
        self.assertEqual(texts, {place.file: (TOP / place.file).read_text() for place in PLACES})

    def test_numbers_of_the_header_outside_the_marks(self) -> None:
        header = (TOP / HEADER).read_text()
        self.assertEqual(generate.by_hand(header), [])
        self.assertEqual(len(generate.by_hand(f"{header}\n#define BPFHOST_OTHER 3\nenum x {{ BPFHOST_MORE = -4 }};\n")), 2)
