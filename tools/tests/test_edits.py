"""The edits of the crates: how many there are, that they change code, and that each old text is still in its file once."""

from __future__ import annotations

import unittest
from pathlib import Path

CRATES = Path(__file__).resolve().parents[2] / "crates"
# Tried by the gate, at 10 to 90 seconds of processor time each, and a proof of the crate for the first.
IN_GATE = sorted(CRATES.glob("*/must-fail/*.edit"))
MOST_IN_GATE = 60
# Tried before a release, by tools/try-edits.
BEFORE_RELEASES = sorted(CRATES.glob("*/edits/*.edit"))
MOST_BEFORE_RELEASES = 120
# How a line of a contract or of a proof begins.
NO_CODE = ("requires", "ensures", "ghost", "prove!", "#[tactic", "///", "//")


def misfit(edit: str, crate: Path) -> str | None:
    """Why the edit cannot be applied to the crate, or None. Its changes are made one after another, as rt makes them."""
    texts: dict[str, str] = {}
    file, old, changes = "", "", 0
    for line in edit.splitlines():
        word, _, rest = line.partition(":")
        if word == "file":
            file = rest.strip()
            texts.setdefault(file, (crate / file).read_text() if (crate / file).is_file() else "")
        elif word == "old":
            old = rest.removeprefix(" ")
        elif word == "new":
            found = texts[file].count(old)
            if found != 1:
                return f"{file} has {old.strip()!r} {found} times"
            texts[file] = texts[file].replace(old, rest.removeprefix(" "))
            changes += 1
    return None if changes else "it changes nothing"


def no_code(edit: str) -> str | None:
    """The first line that is no change of code, since it names a file outside src/ or a line of a contract or a proof; or None."""
    for line in edit.splitlines():
        word, _, rest = line.partition(":")
        if word == "file" and not rest.strip().startswith("src/"):
            return line
        if word in ("old", "new") and rest.strip().startswith(NO_CODE):
            return line
    return None


class Edits(unittest.TestCase):
    def test_few_enough(self) -> None:
        self.assertLessEqual(len(IN_GATE), MOST_IN_GATE)
        self.assertLessEqual(len(BEFORE_RELEASES), MOST_BEFORE_RELEASES)

    def test_names_are_used_once(self) -> None:
        in_gate = {(edit.parents[1].name, edit.name) for edit in IN_GATE}
        for edit in BEFORE_RELEASES:
            self.assertNotIn((edit.parents[1].name, edit.name), in_gate)

    def test_all_fit_and_change_code(self) -> None:
        self.assertTrue(IN_GATE and BEFORE_RELEASES)
        for edit in (*IN_GATE, *BEFORE_RELEASES):
            with self.subTest(edit=str(edit.relative_to(CRATES))):
                self.assertIsNone(misfit(edit.read_text(), edit.parents[1]))
                self.assertIsNone(no_code(edit.read_text()))

    def test_misfits(self) -> None:
        crate = CRATES / "words"
        first = next(iter((crate / "src/lib.rt").read_text().splitlines()))
        self.assertIsNone(misfit(f"file: src/lib.rt\nold: {first}\nnew: //! Another.\n", crate))
        self.assertIsNotNone(misfit("file: src/lib.rt\nold: no such text\nnew: another\n", crate))
        self.assertIsNotNone(misfit("file: src/none.rt\nold: a\nnew: b\n", crate))
        self.assertIsNotNone(misfit("file: src/lib.rt\n", crate))

    def test_changes_of_no_code(self) -> None:
        self.assertIsNone(no_code("file: src/lib.rt\nold:     a + b\nnew:     a - b\n"))
        self.assertIsNotNone(no_code("file: specs/Words.antt\nold: a\nnew: b\n"))
        self.assertIsNotNone(no_code("file: src/lib.rt\nold:     ensures { a }\nnew:     ensures { b }\n"))
