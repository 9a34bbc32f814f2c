"""Sections of global variables: each is an array of one element, whose value has the section's bytes.

Source: bpf_object__init_global_data_maps of libbpf.c, and the names of sections there; the host loads addresses in the value of such a map
(docs/INSTRUCTIONS.md, "Wide loads").
"""

from __future__ import annotations

from dataclasses import replace

from bpfhost.numbers import LONGEST_VALUE, MOST_MAPS, MapType
from bpfhost.objects.btf import Btf, DataSection, Placed, Variable
from bpfhost.objects.definitions import DefinedMap
from bpfhost.objects.elf import ElfObject, Section
from bpfhost.objects.errors import ObjectError
from bpfhost.objects.layout import size_of
from bpfhost.objects.limits import ARRAY_KEY, check_map
from bpfhost.objects.model import ObjectMap

_NAMES = (".data", ".rodata", ".bss")


def is_of_variables(section: Section) -> bool:
    """Whether a section has global variables, by its name; a section without bytes has none."""
    named = any(section.name == name or section.name.startswith(f"{name}.") for name in _NAMES)
    return named and section.allocated and not section.executable and section.size > 0


def variable_maps(elf: ElfObject, btf: Btf | None) -> list[DefinedMap]:
    """The maps of the sections of variables, in the order of the sections."""
    sections = [section for section in elf.sections if is_of_variables(section)]
    if len(sections) > MOST_MAPS:
        raise ObjectError(f"the object has {len(sections):,} sections of variables, each a map, and a tenant has {MOST_MAPS} maps at most")
    return [_map(elf, btf, section) for section in sections]


def _map(elf: ElfObject, btf: Btf | None, section: Section) -> DefinedMap:
    where = f"section {section.name}"
    if section.size > LONGEST_VALUE:
        raise ObjectError(f"{where} has {section.size:,} bytes of variables, and a map's value {LONGEST_VALUE:,} at most")
    _refuse_addresses(elf, section)
    declared = ObjectMap(
        name=section.name,
        map_type=MapType.ARRAY,
        key_size=ARRAY_KEY,
        value_size=section.size,
        max_entries=1,
        key_type=None,
        value_type=_type_of(btf, section),
        initial=elf.data(section),
    )
    return DefinedMap(section.index, 0, check_map(declared, where))


def _refuse_addresses(elf: ElfObject, section: Section) -> None:
    for relocation in elf.relocations_of(section):
        owner = elf.owner_of(section, relocation.offset)
        raise ObjectError(
            f"variable {owner} in section {section.name} has the address of {relocation.symbol.name or 'something'}, "
            "and a map's value can't have one"
        )


def _type_of(btf: Btf | None, section: Section) -> int | None:
    """The id of the section's type, if that has any variable."""
    found = btf.section(section.name) if btf else None
    return found[0] if found and found[1].variables else None


def with_places(btf: Btf, elf: ElfObject) -> Btf:
    """The types with the sizes of sections and the offsets of variables, which compilers leave to the loader."""
    types = list(btf.types)
    for section in elf.sections:
        found = btf.section(section.name) if is_of_variables(section) else None
        if found:
            type_id, described = found
            types[type_id] = _placed(btf, elf, section, described)
    return replace(btf, types=tuple(types))


def _placed(btf: Btf, elf: ElfObject, section: Section, described: DataSection) -> DataSection:
    places: dict[str, list[int]] = {}
    for symbol in elf.symbols_of(section):
        places.setdefault(symbol.name, []).append(symbol.value)
    variables = [placed for each in described.variables for placed in _place(btf, section, each, places)]
    return replace(described, size=section.size, variables=tuple(sorted(variables, key=_offset)))


def _offset(each: Placed) -> int:
    return each.offset


def _place(btf: Btf, section: Section, each: Placed, places: dict[str, list[int]]) -> list[Placed]:
    """A variable at its symbol's offset; nothing if the section has no such symbol.

    For a static variable, the offset in the type counts too if several have one name. Clang describes constant strings as variables of
    .rodata, though they and their symbols are in .rodata.str1.1.
    """
    variable = btf.type(each.variable)
    if not isinstance(variable, Variable):
        raise ObjectError(f"section .BTF has something else than a variable in section {section.name}")
    known = places.get(variable.name)
    if not known:
        return []
    offset = each.offset if each.offset in known else known[0]
    size = size_of(btf, variable.type)
    if offset + size > section.size:
        end = f"ends at byte {offset + size} of section {section.name}"
        raise ObjectError(f"variable {variable.name} {end}, and there are {section.size}")
    return [replace(each, offset=offset, size=size)]
