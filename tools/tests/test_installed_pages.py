"""Links of installed pages: one that leads to what is not installed becomes text, and one that leads nowhere is found."""

from __future__ import annotations

import tempfile
import unittest
from pathlib import Path

from tools.installed_pages import dead_links, main, settled


class InstalledPages(unittest.TestCase):
    def setUp(self) -> None:
        scratch = tempfile.TemporaryDirectory()
        self.addCleanup(scratch.cleanup)
        self.folder = Path(scratch.name)
        self.page = self.write("docs/A.md", "# A\n\n## Two words\n")

    def write(self, name: str, text: str) -> Path:
        path = self.folder / name
        path.parent.mkdir(parents=True, exist_ok=True)
        path.write_text(text)
        return path

    def test_what_is_there_stays_a_link(self) -> None:
        for text in ("[A](A.md)", "[two](A.md#two-words)", "[far](https://example.org/x.md)", "[here](#two-words)", "![picture](../none.svg)"):
            self.assertEqual(settled(self.folder, self.write("docs/B.md", text)), text)

    def test_what_is_not_there_becomes_text(self) -> None:
        for text, wanted in {
            "see [the code](../crates/one/src/lib.rt).": "see the code (`crates/one/src/lib.rt` of the sources).",
            "[`crates/one`](../crates/one)": "`crates/one`",
            "[it](../bench/README.md#two)": "it (`bench/README.md` of the sources)",
        }.items():
            self.assertEqual(settled(self.folder, self.write("docs/B.md", text)), wanted)

    def test_dead_links(self) -> None:
        for text, wrong in {
            "[a](A.md#two-words) [b](https://example.org)": 0,
            "[a](C.md)": 1,
            "[a](A.md#three)": 1,
            "![a](a.svg)": 1,
            "```text\n[a](C.md)\n```\n": 0,
        }.items():
            self.assertEqual(len(dead_links(self.write("docs/B.md", text))), wrong, text)

    def test_command(self) -> None:
        self.write("one.dist-info/METADATA", "[a](docs/C.md)")
        self.assertEqual(main(["--write", str(self.folder)]), 0)
        self.assertEqual((self.folder / "one.dist-info/METADATA").read_text(), "a (`one.dist-info/docs/C.md` of the sources)")
        self.assertEqual(main(["--check", str(self.folder)]), 0)
