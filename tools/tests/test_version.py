"""tools/version finds another number, and replaces it unless that has to be done by hand."""

from __future__ import annotations

import tempfile
import unittest
from pathlib import Path
from unittest import mock

import version


class Version(unittest.TestCase):
    def setUp(self) -> None:
        folder = tempfile.TemporaryDirectory()
        self.addCleanup(folder.cleanup)
        self.top = Path(folder.name)
        places = [version.Place("code.h", r"^MAJOR (\S+)$", "{0}"), version.Place("code.h", r'^ALL "(.*)"$'),
                  version.Place("changes", r"^## (\S+)", is_by_hand=True)]
        for name, value in (("TOP", self.top), ("PLACES", places)):
            patch = mock.patch.object(version, name, value)
            patch.start()
            self.addCleanup(patch.stop)
        (self.top / "VERSION").write_text("1.2.3\n")
        (self.top / "changes").write_text("## 1.2.3\n")
        (self.top / "debian").mkdir()
        (self.top / "debian/changelog").write_text("")
        (self.top / "code.h").write_text('MAJOR 1\nALL "1.2.3"\n')

    def test_same(self) -> None:
        self.assertEqual(version.wrong_places("1.2.3"), [])

    def test_others(self) -> None:
        (self.top / "code.h").write_text('MAJOR 2\nALLES "1.2.3"\n')
        self.assertEqual(version.wrong_places("1.2.3"), ["code.h has 2 in place of 1", "code.h has no version in place of 1.2.3"])

    def test_set(self) -> None:
        self.assertEqual(version.main(["--set", "2.0.10"]), 1)
        self.assertEqual((self.top / "code.h").read_text(), 'MAJOR 2\nALL "2.0.10"\n')
        self.assertEqual(version.wrong_places("2.0.10"), ["changes has 1.2.3 in place of 2.0.10"])

    def test_no_version(self) -> None:
        for number in ("2.0", "2.0.0-rc1", "02.0.0", ""):
            with self.subTest(number):
                self.assertEqual(version.main(["--set", number]), 2)
        self.assertEqual((self.top / "VERSION").read_text(), "1.2.3\n")

    def test_dates(self) -> None:
        entries = [(f"1.{number}.0", f"bpfhost (1.{number}.0) unstable\n\n  * A change.\n\n -- A <a@b>  {day}\n\n") for number, day in
                   ((3, "Sun, 29 Nov 2026 00:00:00 +0000"), (2, "Sun, 29 Nov 2026 00:00:00 +0000"), (1, "Sat, 28 Nov 2026 23:59:59 +0000"))]
        texts = [text for _, text in entries]
        self.assertEqual(version.wrong_dates("".join(texts[1:])), [])
        self.assertEqual(version.wrong_dates("".join(texts)), ["debian/changelog dates 1.3.0 no later than 1.2.0"])
        self.assertEqual(version.wrong_dates("".join(texts[::-1])), [
            "debian/changelog dates 1.1.0 no later than 1.2.0", "debian/changelog dates 1.2.0 no later than 1.3.0"])
