"""tools/plain_comments.py finds docstrings and comments, and compares their slow words with the folder's bound."""

from __future__ import annotations

import unittest
from pathlib import Path
from unittest import mock

import plain_comments
from plain_comments import by_folder, folder, prose, too_many

TOP = Path(__file__).resolve().parents[2]


class PlainComments(unittest.TestCase):
    def test_python(self) -> None:
        text = '"""One."""\n\ndef f() -> str:\n    """Two.\n\n    Three.\n    """\n    return "behind"  # four\n'
        self.assertEqual(prose("a/b.py", text).split(), ["One.", "Two.", "Three.", "#", "four"])
        script = "#!/usr/bin/env python3\n" + text
        self.assertEqual(prose("tools/b", script), prose("tools/b.py", script))

    def test_other_languages(self) -> None:
        self.assertEqual(prose("a.c", "int a; /* one\n    * two */\nint b; // three\n"), "/* one\n* two */\n// three")
        self.assertEqual(prose("a.rt", "/// one\nlet told = 1;\n"), "/// one")
        self.assertEqual(prose("a.antt", "-- one\nfirst-last : x\n"), "-- one")
        self.assertEqual(prose("run", "#!/usr/bin/env bash\n# one\necho $#\n"), "# one")
        self.assertEqual(prose("output", "# where\n"), "")

    def test_folders(self) -> None:
        names = ("VERSION", "tools/pages", "crates/words/src/stack.rt", "clients/python/bpfhost/shards/gateway/frames.py")
        self.assertEqual([folder(name) for name in names], [".", "tools", "crates/words", "clients/python/bpfhost/shards"])

    def test_proofs_are_folders_of_their_own(self) -> None:
        names = ("crates/a/proofs/B.antt", "crates/a/proofs/b/c/D.antt", "crates/a/specs/inside/B.antt", "crates/a/specs/inside.antt")
        self.assertEqual([folder(name) for name in names], ["crates/a/proofs", "crates/a/proofs", "crates/a/specs/inside", "crates/a"])

    def test_words_of_proofs(self) -> None:
        text = "-- where it stays\nx : y\n-- it is there, farther on\nz : y\n"
        found = by_folder([("crates/a/proofs/B.antt", text), ("crates/a/specs/B.antt", text)])
        self.assertEqual(found["crates/a"], {"where": 1})
        self.assertEqual(found["crates/a/proofs"], {"where": 1, "stays": 1, "is there": 1, "farther": 1})
        with mock.patch.object(plain_comments, "MOST", {"crates/a": 1, "crates/a/proofs": 3}):
            wrong = too_many([("crates/a/proofs/B.antt", text), ("crates/a/specs/B.antt", text)])
            self.assertEqual([line.partition(":")[0] for line in wrong], ["crates/a/proofs"])
            self.assertIn("1 'stays' (is not changed, is still)", wrong[0])

    def test_bounds(self) -> None:
        files = [("a/b.c", "/* where */"), ("a/c.py", '"""Alone."""\nwhere = 1\n'), ("d/e.rt", "let x = 1; // plain\n")]
        self.assertEqual(plain_comments.bounds(files), '    "a": 2,\n')
        self.assertEqual([plain_comments.rounded(total) for total in (9, 10, 11, 20, 21)], [9, 10, 20, 20, 30])
        with mock.patch.object(plain_comments, "MOST", {"a": 2}):
            self.assertEqual(too_many(files), [])
        with mock.patch.object(plain_comments, "MOST", {"a": 1}):
            self.assertEqual([line.partition(":")[0] for line in too_many(files)], ["a"])

    def test_each_bound_is_of_a_folder(self) -> None:
        self.assertEqual([name for name in plain_comments.MOST if not (TOP / name).is_dir()], [])


if __name__ == "__main__":
    unittest.main()
