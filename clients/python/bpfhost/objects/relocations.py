"""Relocations of instructions: wide loads that name maps and variables, and calls of functions.

Source: the kernel's Documentation/bpf/llvm_reloc.rst; docs/INSTRUCTIONS.md for the wide loads.
"""

from __future__ import annotations

from collections.abc import Sequence
from dataclasses import dataclass

from bpfhost.numbers import SLOT_SIZE
from bpfhost.objects.definitions import MAP_SECTIONS, DefinedMap
from bpfhost.objects.elf import ElfObject, Relocation, Section, Symbol
from bpfhost.objects.instructions import calls_of, is_wide_load
from bpfhost.objects.model import MapSlot
from bpfhost.objects.place import Place

# The types of relocations, and the `src` fields of wide loads.
_WIDE_LOAD, _CALL = 1, 10
_KINDS = {0: "R_BPF_NONE", 2: "R_BPF_64_ABS64", 3: "R_BPF_64_ABS32", 4: "R_BPF_64_NODYLD32"}
_MAP, _MAP_VALUE = 1, 2

_NO_PLACE = {"SHN_COMMON": "is common (clang -fno-common)", "SHN_ABS": "is a number and in no section"}


@dataclass(frozen=True)
class Callee:
    """The function that a slot calls, with its section."""

    slot: int
    section: Section
    function: Symbol


@dataclass(frozen=True)
class Linker:
    """Applies the relocations of programs, with the maps of their object."""

    elf: ElfObject
    maps: Sequence[DefinedMap]

    def link(self, place: Place, slots: bytearray, relocations: Sequence[Relocation]) -> tuple[tuple[MapSlot, ...], dict[int, Callee]]:
        """Applies all relocations of a program to its slots; returns the wide loads that need a descriptor, and the called functions.

        Raises ObjectError if a relocation can't be applied.
        """
        found = [self._link(place, slots, relocation) for relocation in relocations]
        callees = {each.slot: each for each in found if isinstance(each, Callee)}
        for slot in calls_of(slots).keys() - callees.keys():
            callees[slot] = self._callee(place, slots, slot, place.section, place.begin + SLOT_SIZE * slot)
        return tuple(sorted((each for each in found if isinstance(each, MapSlot)), key=_slot)), callees

    def _link(self, place: Place, slots: bytearray, relocation: Relocation) -> MapSlot | Callee:
        slot, byte = divmod(relocation.offset - place.begin, SLOT_SIZE)
        name = relocation.symbol.name or "without a name"
        if byte:
            raise place.refused(slot, f"has a relocation for symbol {name} inside of an instruction")
        if relocation.kind == _CALL:
            return self._called(place, slots, slot, relocation.symbol)
        if relocation.kind != _WIDE_LOAD:
            kind = _KINDS.get(relocation.kind, f"of number {relocation.kind}")
            raise place.refused(slot, f"has a relocation {kind} for symbol {name}, which is for neither a wide load nor a call")
        if not is_wide_load(slots, slot):
            raise place.refused(slot, f"has a relocation for symbol {name}, and there is no wide load")
        return self._address(place, slots, slot, relocation.symbol)

    def _called(self, place: Place, slots: bytearray, slot: int, symbol: Symbol) -> Callee:
        """The target of a call with a relocation: its distance counts from the symbol."""
        if symbol.section is None:
            raise place.refused(slot, f"calls function {symbol.name}, which the object does not define")
        if slot not in calls_of(slots):
            raise place.refused(slot, f"has a relocation for symbol {symbol.name or 'without a name'}, and there is no call")
        return self._callee(place, slots, slot, self.elf.sections[symbol.section], symbol.value)

    def _callee(self, place: Place, slots: bytearray, slot: int, section: Section, base: int) -> Callee:
        """The function of a section that a call leads to; its distance counts from the slot after a byte of the section."""
        begin = base + SLOT_SIZE * (calls_of(slots)[slot] + 1)
        functions = (symbol for symbol in self.elf.symbols_of(section) if symbol.kind == "STT_FUNC")
        function = next((symbol for symbol in functions if symbol.value == begin), None)
        if function is None:
            raise place.refused(slot, f"calls byte {begin} of section {section.name}, at which no function begins")
        return Callee(slot, section, function)

    def _address(self, place: Place, slots: bytearray, slot: int, symbol: Symbol) -> MapSlot:
        """A wide load of an address: that of the symbol, plus the number in the load."""
        if symbol.section is None:
            why = _NO_PLACE.get(symbol.place, "is not defined in the object")
            raise place.refused(slot, f"loads the address of {symbol.name}, which {why}")
        section = self.elf.sections[symbol.section]
        offset = (symbol.value + _wide_number(slots, slot)) % (1 << 64)
        if section.name in MAP_SECTIONS:
            return self._map(place, slots, slot, section, offset, symbol)
        return self._variable(place, slots, slot, section, offset, symbol)

    def _map(self, place: Place, slots: bytearray, slot: int, section: Section, offset: int, symbol: Symbol) -> MapSlot:
        for index, each in enumerate(self.maps):
            if each.section == section.index and each.offset == offset:
                _fill(slots, slot, _MAP, 0)
                return MapSlot(slot, index)
        raise place.refused(slot, f"loads {_address_in(section, offset, symbol)}, at which no map begins")

    def _variable(self, place: Place, slots: bytearray, slot: int, section: Section, offset: int, symbol: Symbol) -> MapSlot:
        address = _address_in(section, offset, symbol)
        index = next((index for index, each in enumerate(self.maps) if each.section == section.index), None)
        if index is None:
            what = "a section of functions" if section.executable else "neither of maps nor .data, .rodata or .bss"
            raise place.refused(slot, f"loads {address}, which is {what}")
        if offset >= section.size:
            raise place.refused(slot, f"loads {address}, and the section has {section.size} bytes")
        _fill(slots, slot, _MAP_VALUE, offset)
        return MapSlot(slot, index)


def _slot(found: MapSlot) -> int:
    return found.slot


def _address_in(section: Section, offset: int, symbol: Symbol) -> str:
    signed = offset - (1 << 64) if offset >> 63 else offset
    name = f"the address of {symbol.name}" if symbol.kind != "STT_SECTION" and symbol.name else "an address"
    return f"{name}, at offset {signed} of section {section.name}"


def _wide_number(slots: bytes | bytearray, slot: int) -> int:
    """The number of a wide load: its low half is in the first slot, its high half in the second."""
    at = SLOT_SIZE * slot
    return int.from_bytes(slots[at + 4 : at + 8] + slots[at + 12 : at + 16], "little")


def _fill(slots: bytearray, slot: int, source: int, offset: int) -> None:
    """Makes a wide load one of a map or of a map's value: sets `src`, no descriptor yet, and the offset."""
    at = SLOT_SIZE * slot
    slots[at + 1] = slots[at + 1] & 0x0F | source << 4
    slots[at + 4 : at + 8] = bytes(4)
    slots[at + 12 : at + 16] = offset.to_bytes(4, "little")
