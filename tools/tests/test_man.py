"""tools/man makes pages that man(1) accepts without a warning, with each function of the header that a caller needs."""

from __future__ import annotations

import re
import shutil
import subprocess
import tempfile
import unittest
from pathlib import Path

import man
from man_pages import header, roff

TOP = Path(__file__).resolve().parents[2]
HEADER = (TOP / "clients/c/include/bpfhost.h").read_text()


class Man(unittest.TestCase):
    def test_pages(self) -> None:
        if not shutil.which("man"):
            self.skipTest("man is missing")
        pages = man.pages()
        self.assertEqual(sorted(pages), ["bpfhost-py.1", "bpfhost-shards.1", "bpfhost.1", "libbpfhost.3", "verifier_log.1"])
        with tempfile.TemporaryDirectory() as folder:
            for name, text in pages.items():
                (Path(folder) / name).write_text(text)
                call = ["man", "--warnings", "-l", f"{folder}/{name}"]
                ended = subprocess.run(call, capture_output=True, text=True, env={"PATH": "/usr/bin:/bin", "MANWIDTH": "100", "LC_ALL": "C.UTF-8"})
                self.assertEqual((ended.returncode, ended.stderr), (0, ""), name)
                self.assertGreater(len(ended.stdout.splitlines()), 50, name)

    def test_statuses_are_all_told(self) -> None:
        page = man.pages()["bpfhost.1"]
        told = re.findall(r"(?m)^\.TP\n\\fB(\d)\\fR$", page)
        self.assertEqual(sorted(set(told)), ["0", "1", "2", "3", "4"])

    def test_each_function(self) -> None:
        functions = set(re.findall(r"(?m)^static inline .*?\b(bpfhost_\w+)\(", HEADER))
        self.assertLessEqual(header.PARTS, functions)
        # What a caller sees is not a part of another function.
        used = "".join((TOP / name).read_text() for name in ("docs/EMBEDDING.md", "examples/embed/example.c", "examples/packet_path/packet_path.c"))
        self.assertEqual(header.PARTS & set(re.findall(r"\w+", used)), set())
        shown = header.libbpfhost(HEADER, roff.Release("1.2.3", "2026-01-01"))
        self.assertEqual({name for name in functions if f" {name}(" in shown or f"*{name}(" in shown}, functions - header.PARTS)

    def test_each_number(self) -> None:
        shown = header.libbpfhost(HEADER, roff.Release("1.2.3", "2026-01-01"))
        numbers = set(re.findall(r"\b(BPFHOST_\w+) =? ?\(?-?\d", HEADER))
        self.assertEqual({name for name in numbers if f"\\fB{name}\\fR, " not in shown}, set())

    def test_text(self) -> None:
        for text, roffed in (
            ("a `--word` and *more*", r"a \fB\-\-word\fR and \fImore\fR"),
            (".begins with a point", r"\&.begins with a point"),
            ("a \\ and `\\n`", r"a \e and \fB\en\fR"),
            ("[a `link`](PAGE.md#place), **bold**", r"a \fBlink\fR, \fBbold\fR"),
            ("2 * 3 * 4", "2 * 3 * 4"),
        ):
            with self.subTest(text):
                self.assertEqual(roff.inline(text), roffed)

    def test_no_line_is_a_request(self) -> None:
        for text in ("word " * 15 + "'quoted .dotted " * 20, "x" * 79 + " .dot"):
            self.assertFalse([line for line in roff.inline(text).splitlines() if line.startswith((".", "'"))])
        self.assertIn("\n\\&.dot\n", roff.example(".dot\n"))

    def test_blocks(self) -> None:
        section = roff.section_of("# One\n\nfirst\n\n## Two\n\n| a | b |\n|---|---|\n| `x \\| y` | z |\n\nSee:\n\n![a picture](b.svg)\n", "Two")
        blocks = list(roff.blocks_of(section))
        self.assertEqual([block.kind for block in blocks], ["table", "paragraph"])
        self.assertEqual(blocks[0].rows(), [["a", "b"], ["`x | y`", "z"]])
        self.assertEqual(blocks[1].text, "See.")
        with self.assertRaises(ValueError):
            roff.section_of("# One\n", "Three")
