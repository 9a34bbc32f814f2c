"""tools/plain_names.py counts slow words in names, and `place` in crates/, and compares both with the bounds of a folder."""

from __future__ import annotations

import unittest
from pathlib import Path
from unittest import mock

import plain_names
from plain_names import bounds, places, slow_words, too_many

TOP = Path(__file__).resolve().parents[2]


class PlainNames(unittest.TestCase):
    def test_words_of_names(self) -> None:
        text = "fn told_of(x: IsToldAlone) { ANSWERS; foretold; answering1(\"told\") } // told\n"
        self.assertEqual(slow_words("a/b.rt", text), {"told": 2, "answer": 2})

    def test_languages(self) -> None:
        self.assertEqual(slow_words("a.py", '"""told"""\nis_behind = "told"  # told\n'), {"behind": 1})
        self.assertEqual(slow_words("run", "#!/usr/bin/env python3\ntold = 1\n"), {"told": 1})
        self.assertEqual(slow_words("a.antt", "-- told\ntold-refused : x\n"), {"told": 1})
        self.assertEqual(slow_words("stdout", "told\n"), {})

    def test_names_of_the_toolchain(self) -> None:
        self.assertEqual(slow_words("a.antt", "use Rattle.a.proofs.b.c.Answers as answers\nAnswers : x\n"), {"answer": 2})

    def test_places(self) -> None:
        self.assertEqual(places("crates/a/src/b.rt", "place of a place, free_place, places, Place\n"), {"place": 2})
        self.assertEqual(places("tools/a.py", "place\n"), {})

    def test_places_of_all_crates(self) -> None:
        self.assertLessEqual(sum(plain_names.MOST_PLACES.values()), 250)

    def test_bounds(self) -> None:
        files = [("crates/a/src/b.rt", "told(place);"), ("crates/a/proofs/c.antt", "x : behind\n"), ("crates/a/page.md", "`told_place`")]
        self.assertEqual(bounds(files), 'MOST_IN_NAMES:\n    "crates/a": 1,\n    "crates/a/proofs": 1,\nMOST_PLACES:\n    "crates/a": 1,\n')
        with mock.patch.multiple(plain_names, MOST_IN_NAMES={"crates/a": 1}, MOST_PLACES={}):
            self.assertEqual([line.partition(",")[0] for line in too_many(files)],
                             ["crates/a/proofs: 1 slow words in names", "crates/a: 1 times 'place'"])

    def test_each_bound_is_of_a_folder(self) -> None:
        listed = [*plain_names.MOST_IN_NAMES, *plain_names.MOST_PLACES]
        self.assertEqual([name for name in listed if not (TOP / name).is_dir()], [])


if __name__ == "__main__":
    unittest.main()
