"""ELF objects by their parts, valid or not: those that no compiler writes.

Source: System V Application Binary Interface, chapter 4.
"""

from __future__ import annotations

import struct
from dataclasses import dataclass, field

PROGBITS, SYMTAB, STRTAB, RELA, NOBITS, REL = 1, 2, 3, 4, 8, 9
WRITE, ALLOC, EXECINSTR, COMPRESSED = 1, 2, 4, 0x800
NOTYPE, OBJECT, FUNC, SECTION = 0, 1, 2, 3
UNDEF, ABS, COMMON = 0, 0xFFF1, 0xFFF2
BPF, X86_64 = 247, 62
RELOCATABLE = 1


@dataclass
class Strings:
    """A table of strings."""

    data: bytearray = field(default_factory=lambda: bytearray(1))

    def add(self, name: str) -> int:
        """The offset of a string that is added."""
        at = len(self.data)
        self.data += name.encode() + b"\0"
        return at if name else 0


@dataclass
class Part:
    """A section by its fields."""

    name: str
    data: bytes = b""
    kind: int = PROGBITS
    flags: int = 0
    link: int = 0
    info: int = 0
    entry_size: int = 0
    size: int | None = None


@dataclass
class ElfBuilder:
    """An object: sections are numbered from 1, symbols from 1 too."""

    machine: int = BPF
    kind: int = RELOCATABLE
    parts: list[Part] = field(default_factory=list)
    symbols: bytearray = field(default_factory=lambda: bytearray(24))
    names: Strings = field(default_factory=Strings)

    def section(self, name: str, data: bytes = b"", flags: int = ALLOC, kind: int = PROGBITS, size: int | None = None) -> int:
        """A section's number."""
        self.parts.append(Part(name, data, kind, flags, size=size))
        return len(self.parts)

    def program(self, name: str, slots: str) -> int:
        """A section of instructions, by their hexadecimal digits."""
        return self.section(name, bytes.fromhex(slots), ALLOC | EXECINSTR)

    def symbol(self, name: str, section: int, value: int = 0, size: int = 0, kind: int = FUNC, bind: int = 1) -> int:
        """A symbol's number."""
        self.symbols += struct.pack("<IBBHQQ", self.names.add(name), bind << 4 | kind, 0, section, value, size)
        return len(self.symbols) // 24 - 1

    def relocations(self, section: int, *entries: tuple[int, int, int], kind: int = REL) -> None:
        """The relocations of a section: offset, number of the relocation, symbol."""
        size = {REL: 16, RELA: 24}[kind]
        data = b"".join(struct.pack("<QQ", at, symbol << 32 | number).ljust(size, b"\0") for at, number, symbol in entries)
        name = f".rel{self.parts[section - 1].name}"
        self.parts.append(Part(name, data, kind, info=section, entry_size=size))

    def to_bytes(self) -> bytes:
        """The file."""
        count = len(self.parts)
        symbols = Part(".symtab", bytes(self.symbols), SYMTAB, link=count + 2, info=1, entry_size=24)
        section_names = Strings()
        parts = [*self.parts, symbols, Part(".strtab", bytes(self.names.data), STRTAB), Part(".shstrtab", kind=STRTAB)]
        name_offsets = [section_names.add(part.name) for part in parts]
        parts[-1].data = bytes(section_names.data)
        content, headers = bytearray(64), bytearray(64)
        for part, name in zip(parts, name_offsets):
            content += bytes(-len(content) % 8)
            size = len(part.data) if part.size is None else part.size
            fields = (name, part.kind, part.flags, 0, len(content), size, part.link, part.info, 8, part.entry_size)
            headers += struct.pack("<IIQQQQIIQQ", *fields)
            content += part.data
        content += bytes(-len(content) % 8)
        ident = b"\x7fELF\x02\x01\x01".ljust(16, b"\0")
        head = (self.kind, self.machine, 1, 0, 0, len(content), 0, 64, 0, 0, 64, len(parts) + 1, len(parts))
        content[:64] = ident + struct.pack("<HHIQQQIHHHHHH", *head)
        return bytes(content + headers)
