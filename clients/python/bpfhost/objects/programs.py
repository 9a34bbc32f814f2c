"""Programs: the functions of executable sections, and the functions that they call.

Source: libbpf's bpf_object__add_programs for which functions are programs. A function in .text is not a program of its own; it is read if a
program calls it.
"""

from __future__ import annotations

from bisect import bisect_left, bisect_right
from collections.abc import Callable, Sequence
from dataclasses import dataclass, replace
from itertools import accumulate
from typing import TypeVar

from bpfhost.numbers import SLOT_SIZE
from bpfhost.objects.btf import Btf
from bpfhost.objects.btf_ext import BtfExt, CoreRelocation, LineInfo
from bpfhost.objects.core import relocate
from bpfhost.objects.definitions import DefinedMap
from bpfhost.objects.elf import ElfObject, Relocation, Section, Symbol
from bpfhost.objects.errors import ObjectError
from bpfhost.objects.instructions import check_instructions
from bpfhost.objects.limits import MOST_PROGRAMS, check_slots
from bpfhost.objects.model import CallSlot, ObjectProgram, SourceLine
from bpfhost.objects.place import Place
from bpfhost.objects.relocations import Callee, Linker

SUBPROGRAMS = ".text"

_Row = TypeVar("_Row")


def read_programs(
    elf: ElfObject, maps: Sequence[DefinedMap], types: tuple[Btf | None, BtfExt], is_lowered: bool = True
) -> tuple[tuple[ObjectProgram, ...], tuple[ObjectProgram, ...]]:
    """All programs, in the order of the sections and of the functions in them, and the functions that they call.

    Raises ObjectError if the host does not take one; a call between functions, or a legacy load, is one such reason if `is_lowered` is false.
    """
    sections = [section for section in elf.sections if _has_programs(section)]
    if not sections:
        raise ObjectError(_nothing(elf))
    reader = _Reader(elf, Linker(elf, maps), types, is_lowered)
    named = [(section, function) for section in sections for function in reader.section(section).functions]
    if len(named) > MOST_PROGRAMS:
        raise ObjectError(f"the object has {len(named):,} functions with a section, and at most {MOST_PROGRAMS} are read")
    programs = tuple(reader.function(section, function) for section, function in named)
    return programs, reader.called()


def line_of_use(elf: ElfObject, btf_ext: BtfExt, name: str) -> SourceLine | None:
    """The first line of a program that names a symbol, as of a map; None if none does, or if there are no lines."""
    for section in elf.sections:
        relocations = elf.relocations_of(section) if section.executable else ()
        offsets = [relocation.offset for relocation in relocations if relocation.symbol.name == name]
        lines = [line for line in btf_ext.lines.get(section.name, ()) if offsets and line.line and line.offset <= min(offsets)]
        if lines:
            return _source_line(lines[-1], 0)
    return None


class _Reader:
    """Reads functions, and those that they call, each once."""

    def __init__(self, elf: ElfObject, linker: Linker, types: tuple[Btf | None, BtfExt], is_lowered: bool) -> None:
        self._elf = elf
        self._linker = linker
        self._btf, self._btf_ext = types
        self._is_lowered = is_lowered
        self._sections: dict[int, _Section] = {}
        # The called functions in the order in which they were found, by section and first byte.
        self._callees: dict[tuple[int, int], Callee] = {}

    def section(self, section: Section) -> _Section:
        """What the object has for a section with functions."""
        if section.index not in self._sections:
            self._sections[section.index] = _Section.of(self._elf, section, self._btf, self._btf_ext)
        return self._sections[section.index]

    def function(self, section: Section, function: Symbol) -> ObjectProgram:
        """A function, with the numbers of the functions that it calls."""
        place, program, callees = self.section(section).program(function, self._linker, self._is_lowered)
        calls = tuple(CallSlot(slot, self._number(place, callees[slot])) for slot in sorted(callees))
        return replace(program, calls=calls)

    def called(self) -> tuple[ObjectProgram, ...]:
        """All functions that are called by what was read, and by one another."""
        found: list[ObjectProgram] = []
        while len(found) < len(self._callees):
            callee = list(self._callees.values())[len(found)]
            found.append(self.function(callee.section, callee.function))
        return tuple(found)

    def _number(self, place: Place, callee: Callee) -> int:
        if not self._is_lowered:
            called = f"calls function {callee.function.name} in section {callee.section.name}"
            raise place.refused(callee.slot, f"{called}, and calls between functions are not supported")
        key = callee.section.index, callee.function.value
        self._callees.setdefault(key, callee)
        if len(self._callees) > MOST_PROGRAMS:
            raise place.refused(callee.slot, f"calls one function more than the {MOST_PROGRAMS} that are read")
        return list(self._callees).index(key)


def _has_programs(section: Section) -> bool:
    return section.executable and section.kind == "SHT_PROGBITS" and section.size > 0 and section.name != SUBPROGRAMS


def _nothing(elf: ElfObject) -> str:
    text = elf.section(SUBPROGRAMS)
    functions = _functions(elf, text) if text else ()
    if not functions:
        return "it has no program: no section has instructions"
    own = 'a program is in one of its own, as by __attribute__((section("socket")))'
    return f"it has no program: function {functions[0].name} is in section {SUBPROGRAMS}, and {own}"


def _functions(elf: ElfObject, section: Section) -> tuple[Symbol, ...]:
    return tuple(symbol for symbol in elf.symbols_of(section) if symbol.kind == "STT_FUNC")


@dataclass(frozen=True)
class _Section:
    """A section of programs. Lines, relocations and CO-RE relocations are in the order of their offsets."""

    section: Section
    functions: tuple[Symbol, ...]
    code: bytes
    relocations: Sequence[Relocation]
    lines: Sequence[LineInfo]
    core: Sequence[CoreRelocation]
    btf: Btf | None

    @classmethod
    def of(cls, elf: ElfObject, section: Section, btf: Btf | None, btf_ext: BtfExt) -> _Section:
        """What an object has for a section."""
        functions = _functions(elf, section)
        if not functions:
            raise ObjectError(f"section {section.name} has instructions, and no symbol of a function names them")
        relocations = sorted(elf.relocations_of(section), key=_relocated_byte)
        _check_owners(section, functions, relocations)
        core = btf_ext.relocated.get(section.name, ())
        return cls(section, functions, elf.data(section), relocations, btf_ext.lines.get(section.name, ()), core, btf)

    def program(self, function: Symbol, linker: Linker, is_lowered: bool) -> tuple[Place, ObjectProgram, dict[int, Callee]]:
        """The program of a function, with its place, and the functions that it calls, by the slots of the calls."""
        place = Place(self.section, function, self._lines(function))
        self._check_range(place)
        slots = bytearray(self.code[place.begin : place.end])
        for relocation in _between(self.core, place.begin, place.end, _core_byte):
            relocate(place, slots, self.btf, relocation)
        map_slots, callees = linker.link(place, slots, _between(self.relocations, place.begin, place.end, _relocated_byte))
        check_instructions(bytes(slots), place, is_lowered)
        return place, ObjectProgram(self.section.name, function.name, bytes(slots), map_slots, place.lines), callees

    def _check_range(self, place: Place) -> None:
        if place.begin % SLOT_SIZE or place.end > len(self.code):
            inside = f"the section has {len(self.code)}, in slots of {SLOT_SIZE}"
            raise ObjectError(f"{place} has the bytes from {place.begin} to {place.end}, and {inside}")
        check_slots(place.end - place.begin, str(place))

    def _lines(self, function: Symbol) -> tuple[SourceLine, ...]:
        """The lines of a function. Line 0 marks code that the compiler added; it gets the line before."""
        begin = function.value
        found = _between(self.lines, begin, begin + function.size, _first_byte)
        return tuple(_source_line(line, begin) for line in found if line.line)


def _check_owners(section: Section, functions: Sequence[Symbol], relocations: Sequence[Relocation]) -> None:
    """Checks that each relocation is in a function."""
    begins = [function.value for function in functions]
    ends: list[int] = list(accumulate([function.value + function.size for function in functions], _further))
    for relocation in relocations:
        before = bisect_right(begins, relocation.offset)
        if not before or relocation.offset >= ends[before - 1]:
            name = relocation.symbol.name or "without a name"
            raise ObjectError(f"a relocation for symbol {name} is at offset {relocation.offset} of section {section.name}, in no function")


def _further(end: int, other: int) -> int:
    return max(end, other)


def _between(rows: Sequence[_Row], begin: int, end: int, key: Callable[[_Row], int]) -> Sequence[_Row]:
    """The rows, in order, whose offsets are in a range."""
    return rows[bisect_left(rows, begin, key=key) : bisect_left(rows, end, key=key)]


def _relocated_byte(relocation: Relocation) -> int:
    return relocation.offset


def _first_byte(line: LineInfo) -> int:
    return line.offset


def _core_byte(relocation: CoreRelocation) -> int:
    return relocation.offset


def _source_line(line: LineInfo, begin: int) -> SourceLine:
    return SourceLine((line.offset - begin) // SLOT_SIZE, line.file, line.line, line.column, line.text)
