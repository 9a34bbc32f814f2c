"""An ELF object of machine BPF as plain records, read by pyelftools.

pyelftools trusts the file. So what could mislead it is checked first: the ranges of tables, and the offsets of names. An error that it
still raises is reported as a damaged part of the file.

Source: System V Application Binary Interface, chapter 4; the kernel's Documentation/bpf/llvm_reloc.rst.
"""

import io
import os
from collections.abc import Callable
from dataclasses import dataclass
from functools import cached_property
from typing import Any

from bpfhost.objects.byte_reader import LONGEST_NAME, printable
from bpfhost.objects.errors import ObjectError
from bpfhost.optional import optional_module

# A larger file, or one with more sections, is not read: no compiler writes such an object.
LARGEST_FILE = 8 * 1024 * 1024
MOST_SECTIONS = 4096

# Flags of sections, and the sizes in bytes of entries of tables.
_ALLOCATED, _EXECUTABLE, _COMPRESSED = 2, 4, 0x800
_SECTION_HEADER, _SYMBOL = 64, 24


@dataclass(frozen=True)
class Section:
    """A section by its header; `kind` is the type's name in the ABI, as SHT_PROGBITS. Sizes and offsets are in bytes."""

    index: int
    name: str
    kind: str
    flags: int
    offset: int
    size: int
    link: int
    info: int

    @property
    def executable(self) -> bool:
        """Whether it has instructions."""
        return bool(self.flags & _EXECUTABLE)

    @property
    def allocated(self) -> bool:
        """Whether it is loaded, and not only for tools."""
        return bool(self.flags & _ALLOCATED)


@dataclass(frozen=True)
class Symbol:
    """A symbol. `section` is None if it has none; then `place` says why: SHN_UNDEF, SHN_ABS, SHN_COMMON.

    `value` is an offset in bytes from the start of the section, and `kind` the type's name in the ABI, as STT_FUNC.
    """

    name: str
    kind: str
    value: int
    size: int
    section: int | None
    place: str


@dataclass(frozen=True)
class Relocation:
    """An entry of a relocation section: the offset in bytes, the relocation's type, the symbol."""

    offset: int
    kind: int
    symbol: Symbol


@dataclass(frozen=True)
class ElfObject:
    """A file's bytes, sections and symbols."""

    content: bytes
    sections: tuple[Section, ...]
    symbols: tuple[Symbol, ...]
    reader: Any

    def data(self, section: Section) -> bytes:
        """The section's bytes; zeros if the file has none for it (SHT_NOBITS)."""
        if section.kind == "SHT_NOBITS":
            if section.size > LARGEST_FILE:
                raise ObjectError(f"section {section.name} has {section.size:,} bytes, and at most {LARGEST_FILE:,} are read")
            return bytes(section.size)
        if section.flags & _COMPRESSED:
            raise ObjectError(f"section {section.name} is compressed")
        return self.content[section.offset : section.offset + section.size]

    def section(self, name: str) -> Section | None:
        """The first section of this name."""
        return next((section for section in self.sections if section.name == name), None)

    def symbols_of(self, section: Section) -> list[Symbol]:
        """The functions and variables of a section, in order of their offsets."""
        return self._defined.get(section.index, [])

    def owner_of(self, section: Section, offset: int) -> str:
        """The name of the function or variable at an offset, or else the offset itself."""
        inside = (symbol for symbol in self.symbols_of(section) if symbol.value <= offset < symbol.value + symbol.size)
        owner = next(inside, None)
        return owner.name if owner else f"at offset {offset}"

    def relocations_of(self, section: Section) -> list[Relocation]:
        """The relocations of a section, in their order in the file."""
        return [entry for table in self._tables.get(section.index, ()) for entry in self._relocations(table)]

    @cached_property
    def _defined(self) -> dict[int, list[Symbol]]:
        by_section: dict[int, list[Symbol]] = {}
        for symbol in sorted(self.symbols, key=_order):
            if symbol.section is not None and symbol.kind in ("STT_FUNC", "STT_OBJECT"):
                by_section.setdefault(symbol.section, []).append(symbol)
        return by_section

    @cached_property
    def _tables(self) -> dict[int, list[Section]]:
        by_target: dict[int, list[Section]] = {}
        for section in self.sections:
            if section.kind in ("SHT_REL", "SHT_RELA"):
                by_target.setdefault(section.info, []).append(section)
        return by_target

    def _relocations(self, table: Section) -> list[Relocation]:
        if table.kind == "SHT_RELA":
            raise ObjectError(f"section {table.name} has relocations with addends, which clang does not write for BPF")
        entries = _told(f"section {table.name}", lambda: list(self.reader.get_section(table.index).iter_relocations()))
        return [self._relocation(table, entry) for entry in entries]

    def _relocation(self, table: Section, entry: Any) -> Relocation:
        number = entry["r_info_sym"]
        if number >= len(self.symbols):
            raise ObjectError(f"a relocation of section {table.name} names symbol {number} of {len(self.symbols)}")
        return Relocation(entry["r_offset"], entry["r_info_type"], self.symbols[number])


def _order(symbol: Symbol) -> tuple[int, str]:
    return symbol.value, symbol.name


def read_elf(path: str | os.PathLike[str]) -> ElfObject:
    """Reads an object file. Raises ObjectError if it is not one, is damaged, or is for another machine."""
    content = _content(path)
    reader = _reader(content)
    _check_header(reader)
    sections = _sections(content, reader)
    return ElfObject(content, sections, _symbols(content, reader, sections), reader)


def _content(path: str | os.PathLike[str]) -> bytes:
    try:
        with open(path, "rb") as file:
            content = file.read(LARGEST_FILE + 1)
    except OSError as error:
        raise ObjectError(f"the file cannot be read: {error.strerror}") from error
    except ValueError as error:
        raise ObjectError(f"the path is wrong: {error}") from error
    if len(content) > LARGEST_FILE:
        raise ObjectError(f"the file has more than {LARGEST_FILE:,} bytes")
    return content


def _told(part: str, read: Callable[[], Any]) -> Any:
    """Reads with pyelftools. A wrong offset can make it raise any exception, so all are caught."""
    try:
        return read()
    except Exception as error:
        raise ObjectError(f"{part} is damaged or cut off") from error


def _reader(content: bytes) -> Any:
    elf_file = optional_module("elftools.elf.elffile").ELFFile
    if content[:4] != b"\x7fELF":
        raise ObjectError("the file is not an ELF object")
    return _told("the ELF header", lambda: elf_file(io.BytesIO(content)))


def _check_header(reader: Any) -> None:
    if not reader.little_endian:
        raise ObjectError("the object is big-endian, and the host has little-endian programs only (-target bpfel)")
    if reader.elfclass != 64:
        raise ObjectError(f"the object is an ELF file of {reader.elfclass} bits, and one of BPF has 64")
    machine, kind = reader["e_machine"], reader["e_type"]
    if machine != "EM_BPF":
        raise ObjectError(f"the object is of machine {machine}, not of BPF (clang -target bpf)")
    if kind != "ET_REL":
        raise ObjectError(f"the file is of type {kind}, not a relocatable object (clang -c)")


def _check_range(content: bytes, part: str, offset: int, size: int) -> None:
    if offset + size > len(content):
        raise ObjectError(f"{part} ends at byte {offset + size:,}, and the file has {len(content):,}")


def _sections(content: bytes, reader: Any) -> tuple[Section, ...]:
    if reader["e_shoff"] == 0:
        raise ObjectError("the object has no sections")
    count = _told("the table of sections", reader.num_sections)
    if count > MOST_SECTIONS:
        raise ObjectError(f"the object has {count:,} sections, and at most {MOST_SECTIONS:,} are read")
    if reader["e_shentsize"] != _SECTION_HEADER:
        raise ObjectError(f"a section's header has {reader['e_shentsize']} bytes, and not {_SECTION_HEADER}")
    _check_range(content, "the table of sections", reader["e_shoff"], count * _SECTION_HEADER)
    names = _told("the table of section names", lambda: reader.get_section(reader.get_shstrndx()))
    _check_names(content, "the table of section names", names["sh_offset"], names["sh_size"])
    return tuple(_section(content, reader, index, names["sh_size"]) for index in range(count))


def _check_names(content: bytes, part: str, offset: int, size: int) -> None:
    """Checks that a string table is inside the file, ends with a zero byte, and has no string that is too long."""
    _check_range(content, part, offset, size)
    table = content[offset : offset + size]
    if not table.endswith(b"\0"):
        raise ObjectError(f"{part} is damaged: its last string has no end")
    if max(map(len, table.split(b"\0"))) > LONGEST_NAME:
        raise ObjectError(f"{part} has a name of more than {LONGEST_NAME:,} bytes")


def _section(content: bytes, reader: Any, index: int, size_of_names: int) -> Section:
    at = reader["e_shoff"] + index * _SECTION_HEADER
    if int.from_bytes(content[at : at + 4], "little") >= size_of_names:
        raise ObjectError(f"the name of section {index} lies outside the table of names")
    read = _told(f"section {index}", lambda: reader.get_section(index))
    header = read.header
    section = Section(
        index=index,
        name=printable(read.name),
        kind=str(header["sh_type"]),
        flags=header["sh_flags"],
        offset=header["sh_offset"],
        size=header["sh_size"],
        link=header["sh_link"],
        info=header["sh_info"],
    )
    if section.kind != "SHT_NOBITS":
        _check_range(content, f"section {section.name}", section.offset, section.size)
    return section


def _symbols(content: bytes, reader: Any, sections: tuple[Section, ...]) -> tuple[Symbol, ...]:
    table = next((section for section in sections if section.kind == "SHT_SYMTAB"), None)
    if table is None:
        raise ObjectError("the object has no table of symbols: it is stripped")
    index = table.index
    read = _told(f"section {table.name}", lambda: reader.get_section(index))
    if read["sh_entsize"] != _SYMBOL or table.link >= len(sections):
        raise ObjectError(f"section {table.name} is damaged")
    names = sections[table.link]
    if names.kind != "SHT_STRTAB":
        raise ObjectError(f"section {table.name} has its names in section {names.name}, which is no table of strings")
    _check_names(content, f"section {names.name}", names.offset, names.size)
    return tuple(_symbol(content, read, number, names, sections) for number in range(read.num_symbols()))


def _symbol(content: bytes, table: Any, number: int, names: Section, sections: tuple[Section, ...]) -> Symbol:
    at = table["sh_offset"] + number * _SYMBOL
    if int.from_bytes(content[at : at + 4], "little") >= names.size:
        raise ObjectError(f"the name of symbol {number} lies outside section {names.name}")
    read = _told(f"symbol {number}", lambda: table.get_symbol(number))
    where = read["st_shndx"]
    if isinstance(where, int) and where >= len(sections):
        raise ObjectError(f"symbol {printable(read.name) or number} is in section {where}, and there are {len(sections)}")
    kind = str(read["st_info"]["type"])
    section = where if isinstance(where, int) else None
    return Symbol(
        name=sections[section].name if kind == "STT_SECTION" and section is not None else printable(read.name),
        kind=kind,
        value=read["st_value"],
        size=read["st_size"],
        section=section,
        place="" if section is not None else str(where),
    )
