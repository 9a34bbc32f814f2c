"""Maps that an object defines: variables of section .maps, described by BTF, and of section maps, as `struct bpf_map_def`.

Source: libbpf's conventions: bpf_helpers.h (`__uint`, `__type`) and parse_btf_map_def of libbpf.c; for the struct
bpf_object__init_user_maps, which libbpf.c had before version 1.0.

The host runs one program at a time, so a per-CPU map is replaced by one with one value. A hash map takes all its memory when it is created,
so BPF_F_NO_PREALLOC, which asks for it as keys are added, has no effect. The host has no file system, so a pinned map is not shared by a
file. A notice is printed for each of these changes; with strict reading they are refused.
"""

from __future__ import annotations

import struct
from collections.abc import Callable, Iterator
from dataclasses import dataclass, field

from bpfhost.instead import of_map
from bpfhost.numbers import MOST_MAPS, MapType
from bpfhost.objects.btf import Array, Btf, Composite, Member, Pointer, Variable
from bpfhost.objects.elf import ElfObject, Section, Symbol
from bpfhost.objects.errors import ObjectError
from bpfhost.objects.layout import resolve, size_of
from bpfhost.objects.limits import check_map
from bpfhost.objects.model import ObjectMap, SourceLine

BTF_MAPS, LEGACY_MAPS = MAP_SECTIONS = (".maps", "maps")

# The map types of `enum bpf_map_type` in linux/bpf.h that programs ask for most often.
_MAP_TYPES = {
    0: "UNSPEC",
    3: "PROG_ARRAY",
    4: "PERF_EVENT_ARRAY",
    5: "PERCPU_HASH",
    6: "PERCPU_ARRAY",
    7: "STACK_TRACE",
    8: "CGROUP_ARRAY",
    9: "LRU_HASH",
    10: "LRU_PERCPU_HASH",
    11: "LPM_TRIE",
    12: "ARRAY_OF_MAPS",
    13: "HASH_OF_MAPS",
    14: "DEVMAP",
    15: "SOCKMAP",
    16: "CPUMAP",
    17: "XSKMAP",
    18: "SOCKHASH",
    22: "QUEUE",
    23: "STACK",
    24: "SK_STORAGE",
    27: "RINGBUF",
    30: "BLOOM_FILTER",
}


_BY_PROCESSOR = {5: MapType.HASH, 6: MapType.ARRAY}
_NO_PREALLOC = 1


@dataclass
class MapChanges:
    """The changes of an object's maps, in a sentence each; strict reading refuses each of them."""

    is_strict: bool
    told: list[str] = field(default_factory=list)
    # The line of the source that first uses a map, by the map's name.
    line_of: Callable[[str], SourceLine | None] = lambda _name: None

    def map_type(self, number: int, where: str, name: str) -> MapType:
        """The kind of a map, by its number in linux/bpf.h."""
        if number in _BY_PROCESSOR and not self.is_strict:
            kind = _BY_PROCESSOR[number]
            self.told.append(f"{where}: {_MAP_TYPES[number]} is taken as {kind.name}, since one processor runs all programs")
            return kind
        return self._map_type(number, where, name)

    def _map_type(self, number: int, where: str, name: str) -> MapType:
        try:
            return MapType(number)
        except ValueError:
            kind = f" ({_MAP_TYPES[number]})" if number in _MAP_TYPES else ""
            does, line = of_map(number), self.line_of(name)
            has = f"and the host has only HASH (1) and ARRAY (2){f' ({line})' if line else ''}{f'; {does}' if does else ''}"
            raise ObjectError(f"{where} has type {number}{kind}, {has}") from None

    def check_flags(self, number: int, where: str) -> None:
        """Drops BPF_F_NO_PREALLOC, and refuses other flags."""
        if number == _NO_PREALLOC and not self.is_strict:
            self.told.append(f"{where}: BPF_F_NO_PREALLOC is dropped, since a map takes all its memory when it is created")
        elif number:
            raise ObjectError(f"{where} has map_flags {number}, and the host has none")

    def check_pinning(self, number: int, where: str) -> None:
        """Drops pinning."""
        if number and self.is_strict:
            raise ObjectError(f"{where} has pinning {number}, and the host has none")
        if number:
            self.told.append(f"{where}: pinning is dropped, since the host has no files for maps")


@dataclass(frozen=True)
class DefinedMap:
    """A map with the place that relocations name: a section's number, and an offset in bytes."""

    section: int
    offset: int
    map: ObjectMap


def defined_maps(elf: ElfObject, btf: Btf | None, changes: MapChanges) -> list[DefinedMap]:
    """All maps that the object defines, in the order of each section. Raises ObjectError if the host has no such map."""
    found: list[DefinedMap] = []
    for section in elf.sections:
        if section.name == BTF_MAPS and section.size:
            found.extend(_by_btf(elf, btf, section, changes))
        elif section.name == LEGACY_MAPS and section.size:
            found.extend(_by_struct(elf, section, changes))
    return found


def _symbols(elf: ElfObject, section: Section) -> list[Symbol]:
    """The symbols of a section's maps."""
    found = elf.symbols_of(section)
    if not found:
        raise ObjectError(f"section {section.name} has bytes, and no symbol names a map there")
    if len(found) > MOST_MAPS:
        raise ObjectError(f"section {section.name} has {len(found):,} maps, and a tenant {MOST_MAPS} at most")
    for relocation in elf.relocations_of(section):
        where = f"map {elf.owner_of(section, relocation.offset)} in section {section.name}"
        raise ObjectError(f"{where} has the address of {relocation.symbol.name or 'something'}, and the host has no maps in maps")
    return found


# By BTF.

_OTHERS = ("numa_node", "map_extra")
_NUMBERS = ("type", "key_size", "value_size", "max_entries", "map_flags", "pinning", *_OTHERS)


def _by_btf(elf: ElfObject, btf: Btf | None, section: Section, changes: MapChanges) -> Iterator[DefinedMap]:
    if btf is None:
        raise ObjectError(f"section {section.name} has maps, and there is no section .BTF that describes them: compile with -g")
    variables = _variables(btf, section.name)
    for symbol in _symbols(elf, section):
        where = f"map {symbol.name} in section {section.name}"
        if symbol.name not in variables:
            raise ObjectError(f"{where} is not described by section .BTF")
        found = resolve(btf, variables[symbol.name].type)
        if not isinstance(found, Composite) or found.is_union:
            raise ObjectError(f"{where} is no struct")
        yield DefinedMap(section.index, symbol.value, _Attributes(btf, where).read(symbol.name, found, changes))


def _variables(btf: Btf, name: str) -> dict[str, Variable]:
    """The variables of a section by their names."""
    found = btf.section(name)
    types = [btf.type(placed.variable) for placed in found[1].variables] if found else []
    return {variable.name: variable for variable in types if isinstance(variable, Variable)}


class _Attributes:
    """The members of a map's struct; each sets one property."""

    def __init__(self, btf: Btf, where: str) -> None:
        self._btf = btf
        self._where = where
        self._numbers: dict[str, int] = {}
        self._types: dict[str, int] = {}

    def read(self, name: str, found: Composite, changes: MapChanges) -> ObjectMap:
        """The map that the members describe."""
        for member in found.members:
            self._add(member)
        changes.check_flags(self._numbers.get("map_flags", 0), self._where)
        changes.check_pinning(self._numbers.get("pinning", 0), self._where)
        self._refuse_others()
        if "type" not in self._numbers:
            raise ObjectError(f"{self._where} has no type")
        declared = ObjectMap(
            name=name,
            map_type=changes.map_type(self._numbers["type"], self._where, name),
            key_size=self._size("key"),
            value_size=self._size("value"),
            max_entries=self._numbers.get("max_entries", 0),
            key_type=self._types.get("key"),
            value_type=self._types.get("value"),
            initial=None,
        )
        return check_map(declared, self._where)

    def _refuse_others(self) -> None:
        """Properties that the host's maps do not have may be set, to 0."""
        for name in _OTHERS:
            if self._numbers.get(name):
                raise ObjectError(f"{self._where} has {name} {self._numbers[name]}, and the host has none")

    def _add(self, member: Member) -> None:
        if member.name in ("key", "value"):
            self._types[member.name] = self._target(member)
        elif member.name in _NUMBERS:
            self._numbers[member.name] = self._number(member)
        else:
            raise ObjectError(f"{self._where} has a member {member.name or 'without a name'}, which is not known")

    def _target(self, member: Member) -> int:
        """The type set by `__type`: the member is a pointer to it."""
        found = resolve(self._btf, member.type)
        if not isinstance(found, Pointer):
            raise ObjectError(f"{self._where} has a member {member.name} that is no pointer, which __type declares")
        return found.target

    def _number(self, member: Member) -> int:
        """The number set by `__uint`: the member is a pointer to an array of that length."""
        found = resolve(self._btf, self._target(member))
        if not isinstance(found, Array):
            raise ObjectError(f"{self._where} has a member {member.name} that is no pointer to an array, which __uint declares")
        return found.count

    def _size(self, what: str) -> int:
        told = self._numbers.get(f"{what}_size")
        if what not in self._types:
            if told is None:
                raise ObjectError(f"{self._where} has neither {what} nor {what}_size")
            return told
        size = self._of_type(what)
        if told not in (None, size):
            raise ObjectError(f"{self._where} has {what}_size {told}, and its {what} has {size} bytes")
        return size

    def _of_type(self, what: str) -> int:
        try:
            return size_of(self._btf, self._types[what])
        except ObjectError as error:
            raise ObjectError(f"{self._where}: its {what} has no size: {error}") from error


# By struct bpf_map_def.

_FIELDS = ("type", "key_size", "value_size", "max_entries", "map_flags")
_LEAST_FIELDS = 4


def _by_struct(elf: ElfObject, section: Section, changes: MapChanges) -> Iterator[DefinedMap]:
    data = elf.data(section)
    for symbol in _symbols(elf, section):
        where = f"map {symbol.name} in section {section.name}"
        if symbol.size < 4 * _LEAST_FIELDS:
            raise ObjectError(f"{where} has {symbol.size} bytes, and struct bpf_map_def has at least {4 * _LEAST_FIELDS}")
        if symbol.value + symbol.size > len(data):
            raise ObjectError(f"{where} ends at byte {symbol.value + symbol.size}, and the section has {len(data)}")
        definition = data[symbol.value : symbol.value + symbol.size]
        yield DefinedMap(section.index, symbol.value, _legacy(symbol.name, definition, where, changes))


def _legacy(name: str, definition: bytes, where: str, changes: MapChanges) -> ObjectMap:
    size = 4 * len(_FIELDS)
    if any(definition[size:]):
        raise ObjectError(f"{where} has fields after those of struct bpf_map_def that are not 0")
    kind, key_size, value_size, max_entries, flags = struct.unpack("<5I", definition[:size].ljust(size, b"\0"))
    changes.check_flags(flags, where)
    declared = ObjectMap(name, changes.map_type(kind, where, name), key_size, value_size, max_entries, None, None, None)
    return check_map(declared, where)
