"""BTF by its records, valid or not: kinds that the installed clang does not write, and damage.

Source: the kernel's Documentation/bpf/btf.rst.
"""

from __future__ import annotations

import struct
from dataclasses import dataclass, field

SIGNED, CHAR, BOOL = 1, 2, 4


@dataclass
class BtfBuilder:
    """Types are numbered from 1; 0 is void."""

    records: bytearray = field(default_factory=bytearray)
    strings: bytearray = field(default_factory=lambda: bytearray(1))
    count: int = 0

    def name(self, name: str) -> int:
        """The offset of a string that is added."""
        at = len(self.strings)
        self.strings += name.encode() + b"\0"
        return at if name else 0

    def record(self, kind: int, name: str, size: int, *words: int, count: int = 0, flag: bool = False) -> int:
        """The number of a new type: `size` is a size or another type, and the words follow the header."""
        info = int(flag) << 31 | kind << 24 | count
        self.records += struct.pack(f"<{3 + len(words)}I", self.name(name), info, size, *words)
        self.count += 1
        return self.count

    def integer(self, name: str, size: int, encoding: int = 0, bits: int | None = None, offset: int = 0) -> int:
        """An integer."""
        return self.record(1, name, size, encoding << 24 | offset << 16 | (8 * size if bits is None else bits))

    def array(self, element: int, count: int) -> int:
        """An array."""
        return self.record(3, "", 0, element, 0, count)

    def composite(self, name: str, size: int, *members: tuple[str, int, int], kind: int = 4, flag: bool = False) -> int:
        """A struct: each member's name, type, and offset in bits."""
        words = [word for member, type_id, at in members for word in (self.name(member), type_id, at)]
        return self.record(kind, name, size, *words, count=len(members), flag=flag)

    def enumeration(self, name: str, size: int, *values: tuple[str, int], flag: bool = False) -> int:
        """An enumeration of up to four bytes."""
        words = [word for each, value in values for word in (self.name(each), value & 0xFFFFFFFF)]
        return self.record(6, name, size, *words, count=len(values), flag=flag)

    def enum64(self, name: str, *values: tuple[str, int], flag: bool = False) -> int:
        """An enumeration of eight bytes."""
        words = [word for each, value in values for word in (self.name(each), value & 0xFFFFFFFF, value >> 32 & 0xFFFFFFFF)]
        return self.record(19, name, 8, *words, count=len(values), flag=flag)

    def to_bytes(self) -> bytes:
        """The section."""
        head = struct.pack("<HBBIIIII", 0xEB9F, 1, 0, 24, 0, len(self.records), len(self.records), len(self.strings))
        return head + bytes(self.records) + bytes(self.strings)
