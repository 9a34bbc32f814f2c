"""Each crate of clients/rust is packaged with the project's licence, and a package has no links."""

from __future__ import annotations

import unittest
from pathlib import Path

TOP = Path(__file__).resolve().parent.parent.parent


class Licences(unittest.TestCase):
    def test_each_is_the_project_s(self) -> None:
        licence = (TOP / "LICENSE").read_bytes()
        for crate in ("clients/rust", "clients/rust/bpfhost-sys"):
            self.assertEqual((TOP / crate / "LICENSE").read_bytes(), licence, crate)
            self.assertFalse((TOP / crate / "LICENSE").is_symlink(), crate)


if __name__ == "__main__":
    unittest.main()
