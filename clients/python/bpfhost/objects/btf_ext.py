"""The .BTF.ext section: the line of the source for each instruction, and the instructions with CO-RE relocations.

Source: the kernel's Documentation/bpf/btf.rst, section 4.2.
"""

from __future__ import annotations

from dataclasses import dataclass

from bpfhost.objects.btf import read_head
from bpfhost.objects.byte_reader import ByteReader
from bpfhost.objects.errors import ObjectError

_NAME = "section .BTF.ext"


@dataclass(frozen=True)
class LineInfo:
    """A line of the source, by the offset in bytes of its first instruction in the section."""

    offset: int
    file: str
    line: int
    column: int
    text: str


@dataclass(frozen=True)
class CoreRelocation:
    """A CO-RE relocation, by the offset in bytes of its instruction in the section: a type, and the indices of members that lead to a field.

    `kind` is a number of enum bpf_core_relo_kind.
    """

    offset: int
    type: int
    access: str
    kind: int


@dataclass(frozen=True)
class BtfExt:
    """Lines and CO-RE relocations, by the names of sections, in the order of the offsets."""

    lines: dict[str, tuple[LineInfo, ...]]
    relocated: dict[str, tuple[CoreRelocation, ...]]


NOTHING = BtfExt({}, {})


def read_btf_ext(section: bytes, strings: ByteReader) -> BtfExt:
    """Reads a .BTF.ext section, with the strings of .BTF. Raises ObjectError if a range is wrong."""
    whole = ByteReader(section, _NAME)
    header_size = read_head(whole)
    # The header may end after the offsets and sizes of functions and lines; CO-RE was added later.
    lines_at, lines_size = whole.words(16, 2)
    rows = _rows(whole.part(header_size + lines_at, lines_size, f"the lines of {_NAME}"), strings, 4)
    lines = {name: _in_order(of_section, strings) for name, of_section in rows.items()}
    return BtfExt(lines, _relocated(whole, header_size, strings))


def _relocated(whole: ByteReader, header_size: int, strings: ByteReader) -> dict[str, tuple[CoreRelocation, ...]]:
    if header_size < 32:
        return {}
    at, size = whole.words(24, 2)
    rows = _rows(whole.part(header_size + at, size, f"the CO-RE relocations of {_NAME}"), strings, 4)
    return {name: tuple(_relocation(row, strings) for row in sorted(of_section)) for name, of_section in rows.items()}


def _relocation(row: tuple[int, ...], strings: ByteReader) -> CoreRelocation:
    offset, type_id, access_at, kind = row
    return CoreRelocation(offset, type_id, strings.string(access_at), kind)


def _in_order(rows: list[tuple[int, ...]], strings: ByteReader) -> tuple[LineInfo, ...]:
    """The lines in the order of their instructions, one for each: the last one given for it."""
    by_offset = {row[0]: row for row in rows}
    return tuple(_line(by_offset[offset], strings) for offset in sorted(by_offset))


def _line(row: tuple[int, ...], strings: ByteReader) -> LineInfo:
    offset, file_at, text_at, place = row
    return LineInfo(offset, strings.string(file_at), place >> 10, place & 0x3FF, strings.cut_string(text_at).strip())


def _rows(reader: ByteReader, strings: ByteReader, width: int) -> dict[str, list[tuple[int, ...]]]:
    """The first `width` words of each row, by the section's name. A part without bytes has no rows."""
    rows: dict[str, list[tuple[int, ...]]] = {}
    if not reader.data:
        return rows
    row_size = reader.words(0, 1)[0]
    if row_size < 4 * width:
        raise ObjectError(f"{reader.name} have rows of {row_size} bytes, and one has at least {4 * width}")
    at = 4
    while at < len(reader.data):
        name_at, count = reader.words(at, 2)
        reader.check(at + 8, count * row_size)
        of_section = rows.setdefault(strings.string(name_at), [])
        of_section.extend(reader.words(at + 8 + number * row_size, width) for number in range(count))
        at += 8 + count * row_size
    return rows
