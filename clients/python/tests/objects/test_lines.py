"""Lines of the source, by .BTF.ext."""

from __future__ import annotations

import struct
import unittest

from bpfhost.objects import ObjectError, ObjectProgram, SourceLine
from bpfhost.objects.btf_ext import CoreRelocation, LineInfo, read_btf_ext
from bpfhost.objects.byte_reader import ByteReader
from tests.objects.common import SOURCES, ClangTest


class Compiled(ClangTest):
    def test_lines_of_each_function(self) -> None:
        first, second = self.source("lines.c").programs
        # As llvm-objdump -l shows them, less the function's first slot.
        self.assertEqual([(each.slot, each.line) for each in first.lines], [(0, 10)])
        self.assertEqual([each.line for each in second.lines if each.slot == 0], [14])
        self.assertEqual([second.line_of(slot).line for slot in range(5)], [14, 14, 6, 6, 15])  # type: ignore[union-attr]
        line = first.lines[0]
        self.assertEqual((line.file, line.text), (str(SOURCES / "lines.c"), "return skb->mark;"))
        self.assertEqual(line.column, 5)

    def test_inlined_code_is_where_it_stands(self) -> None:
        second = self.source("lines.c").programs[1]
        line = second.line_of(2)
        assert line is not None
        self.assertEqual((line.line, line.text), (6, "return *null + number;"))


class LineOf(unittest.TestCase):
    def test_last_line_at_or_before(self) -> None:
        lines = tuple(SourceLine(slot, "f.c", number, 1, "") for slot, number in ((2, 10), (3, 20), (7, 30)))
        program = ObjectProgram("socket", "f", bytes(80), (), lines)
        found = [line.line if (line := program.line_of(slot)) else None for slot in range(9)]
        self.assertEqual(found, [None, None, 10, 20, 20, 20, 20, 30, 30])


class Built(unittest.TestCase):
    """Sections by their bytes."""

    STRINGS = ByteReader(b"\0socket\0f.c\0  return 1;\0", "strings")

    def section(self, lines: bytes, core: bytes | None = None) -> bytes:
        header = 24 if core is None else 32
        words = [header, 0, 0, 0, len(lines)] + ([] if core is None else [len(lines), len(core)])
        return struct.pack(f"<HBB{len(words)}I", 0xEB9F, 1, 0, *words) + lines + (core or b"")

    def rows(self, size: int, *rows: tuple[int, ...], count: int | None = None, name: int = 1) -> bytes:
        data = b"".join(struct.pack(f"<{len(row)}I", *row).ljust(size, b"\0") for row in rows)
        return struct.pack("<III", size, name, len(rows) if count is None else count) + data

    def told(self, section: bytes) -> str:
        with self.assertRaises(ObjectError) as caught:
            read_btf_ext(section, self.STRINGS)
        return str(caught.exception)

    def test_lines(self) -> None:
        # Rows may be longer than the known fields, and in any order; of two for one instruction the last counts.
        rows = self.rows(20, (16, 8, 12, 7 << 10 | 3), (0, 8, 12, 6 << 10 | 1), (16, 8, 12, 9 << 10 | 4))
        found = read_btf_ext(self.section(rows), self.STRINGS)
        expected = (LineInfo(0, "f.c", 6, 1, "return 1;"), LineInfo(16, "f.c", 9, 4, "return 1;"))
        self.assertEqual(found.lines, {"socket": expected})
        self.assertEqual(found.relocated, {})

    def test_core_relocations(self) -> None:
        found = read_btf_ext(self.section(b"", self.rows(16, (24, 1, 0, 0), (8, 1, 0, 2))), self.STRINGS)
        expected = (CoreRelocation(8, 1, "", 2), CoreRelocation(24, 1, "", 0))
        self.assertEqual((found.lines, found.relocated), ({}, {"socket": expected}))

    def test_nothing(self) -> None:
        found = read_btf_ext(self.section(b"", b""), self.STRINGS)
        self.assertEqual((found.lines, found.relocated), ({}, {}))

    def test_damage(self) -> None:
        row = (0, 8, 12, 1 << 10)
        lines = "the lines of section .BTF.ext"
        self.assertEqual(self.told(self.section(self.rows(12, row[:3]))), f"{lines} have rows of 12 bytes, and one has at least 16")
        self.assertEqual(
            self.told(self.section(self.rows(16, row, count=2))), f"{lines} has 28 bytes, and 32 bytes are to be read at offset 12"
        )
        self.assertIn("bytes are to be read at offset 12", self.told(self.section(self.rows(16, row, count=2**32 - 1))))
        self.assertIn("strings has 24 bytes, and 1 bytes", self.told(self.section(self.rows(16, row, name=99))))
        self.assertIn("strings has 24 bytes", self.told(self.section(self.rows(16, (0, 8, 99, 1)))))
        self.assertEqual(self.told(b"\x9f\xeb\1"), "section .BTF.ext has 3 bytes, and 8 bytes are to be read at offset 0")

    def test_every_cut(self) -> None:
        section = self.section(self.rows(16, (0, 8, 12, 1 << 10)), self.rows(16, (24, 1, 0, 0)))
        for size in range(len(section)):
            self.assertTrue(self.told(section[:size]))

    def test_long_lines_are_cut(self) -> None:
        strings = ByteReader(b"\0socket\0f.c\0" + b"x" * 3000 + b"\0", "strings")
        found = read_btf_ext(self.section(self.rows(16, (0, 8, 12, 1 << 10))), strings)
        self.assertEqual(found.lines["socket"][0].text, "x" * 1024)
