"""Built programs as objects: the file that `build` writes is read again, for `run` and `check`.

README.md of this package describes the format ("Built programs"). Of the types it has only the names: numbers are shown as numbers, and all
other keys and values as bytes.
"""

from __future__ import annotations

import json
import os
import re
from collections.abc import Mapping, Sequence
from typing import TypeVar

from bpfhost.built import FORMAT, VERSION
from bpfhost.numbers import SLOT_SIZE, MapType
from bpfhost.objects.btf import Btf, Int, Type, Void
from bpfhost.objects.byte_reader import ByteReader
from bpfhost.objects.errors import ObjectError
from bpfhost.objects.limits import check_map, check_maps, check_slots
from bpfhost.objects.model import Form, MapSlot, ObjectFile, ObjectMap, ObjectProgram, SourceLine
from bpfhost.objects.types import Types
from bpfhost.slots import WIDE_LOAD, first_slots

_SLOT = re.compile(r"[0-9a-f]{16}")
_NUMBER = re.compile(r"_*([us])(?:int)?(8|16|32|64)(?:_t)?|(unsigned )?(?:char|short|int|long|long long)|size_t")
_OF_MAPS = (1, 2)
# A file of the most slots, with a line for each, has some megabytes.
_LONGEST = 1 << 24
_Of = TypeVar("_Of")


def is_built(path: str | os.PathLike[str]) -> bool:
    """Whether a file begins as a built program."""
    try:
        with open(path, "rb") as file:
            return os.path.isfile(path) and file.read(64).lstrip().startswith(b"{")
    except OSError:
        return False


def load_built(path: str | os.PathLike[str], form: Form = Form.LOWERED) -> ObjectFile:
    """The program of a built file, as an object that has only this one. Raises ObjectError, whose text begins with the path."""
    name = os.fsdecode(path)
    try:
        with open(path, "rb") as file:
            data = file.read(_LONGEST + 1)
        if len(data) > _LONGEST:
            raise ObjectError(f"a built program has {_LONGEST:,} bytes at most")
        return read_built(name, data, form)
    except ObjectError as error:
        raise ObjectError(f"{name}: {error}") from error


def read_built(name: str, data: bytes, form: Form = Form.LOWERED) -> ObjectFile:
    """The program of a built file's content. Raises ObjectError, without the name."""
    try:
        found = json.loads(data)
    except (ValueError, RecursionError) as error:
        raise ObjectError("it is no JSON, and no ELF object") from error
    if not isinstance(found, dict) or found.get("format") != FORMAT:
        raise ObjectError(f'it is JSON without "format": "{FORMAT}"')
    if found.get("version") != VERSION:
        raise ObjectError(f"its version is {found.get('version')}, and {VERSION} is read")
    declared = _member(found, "maps", list)
    types = _Numbers()
    maps = tuple(_map(each, types) for each in declared)
    check_maps(maps)
    slots = _slots(_member(found, "slots", list))
    map_slots = tuple(sorted((MapSlot(slot, number) for number, each in enumerate(declared) for slot in each["slots"]), key=_slot_of))
    _check_slots(slots, map_slots)
    lines = tuple(_line(each) for each in _member(found, "lines", list))
    program = ObjectProgram(_member(found, "section", str), _member(found, "name", str), slots, map_slots, lines)
    return ObjectFile(name, (program,), maps, types.types(), form=form)


def _member(found: Mapping[str, object], key: str, kind: type[_Of]) -> _Of:
    value = found.get(key)
    if not isinstance(value, kind) or isinstance(value, bool):
        raise ObjectError(f'"{key}" is missing or of another type')
    return value


def _slots(lines: Sequence[object]) -> bytes:
    for number, line in enumerate(lines):
        if not isinstance(line, str) or not _SLOT.fullmatch(line):
            raise ObjectError(f"slot {number} is not sixteen hex digits")
    slots = bytes.fromhex("".join(map(str, lines)))
    check_slots(len(slots), "the program")
    return slots


def _check_slots(slots: bytes, map_slots: Sequence[MapSlot]) -> None:
    """Each slot that names a map is a wide load of one, and each such load is named once."""
    firsts = [SLOT_SIZE * slot for slot in first_slots(slots)]
    loads = [at // SLOT_SIZE for at in firsts if slots[at] == WIDE_LOAD and slots[at + 1] >> 4 in _OF_MAPS]
    if [each.slot for each in map_slots] != loads:
        raise ObjectError(f"its maps name the slots {[each.slot for each in map_slots]}, and maps are loaded at {loads}")


def _map(found: object, types: _Numbers) -> ObjectMap:
    if not isinstance(found, dict):
        raise ObjectError('an element of "maps" is no object')
    name, kind = _member(found, "name", str), _member(found, "type", str)
    if kind.upper() not in MapType.__members__:
        raise ObjectError(f"map {name} has type {kind}, and the host has hash and array")
    if any(not isinstance(slot, int) for slot in _member(found, "slots", list)):
        raise ObjectError(f"map {name} has a slot that is no number")
    key_size, value_size = _member(found, "key_size", int), _member(found, "value_size", int)
    key_type, value_type = types.of(found.get("key_type"), key_size), types.of(found.get("value_type"), value_size)
    entries, initial = _member(found, "max_entries", int), _initial(name, found.get("initial"), value_size)
    return check_map(ObjectMap(name, MapType[kind.upper()], key_size, value_size, entries, key_type, value_type, initial), f"map {name}")


def _initial(name: str, value: object, size: int) -> bytes | None:
    if value is None:
        return None
    if not isinstance(value, str) or not re.fullmatch(r"(?:[0-9a-f]{2})*", value) or len(value) != 2 * size:
        raise ObjectError(f'map {name}: "initial" is not its {size} bytes in hex digits')
    return bytes.fromhex(value)


def _line(found: object) -> SourceLine:
    if not isinstance(found, dict):
        raise ObjectError('an element of "lines" is no object')
    return SourceLine(_member(found, "slot", int), _member(found, "file", str), _member(found, "line", int), 1, _member(found, "text", str))


def _slot_of(found: MapSlot) -> int:
    return found.slot


class _Numbers:
    """The types of numbers that keys and values have, by their names in C."""

    def __init__(self) -> None:
        self._types: list[Type] = [Void()]

    def of(self, name: object, size: int) -> int | None:
        """The type of this name and size; None if it is no number."""
        match = _NUMBER.fullmatch(name) if isinstance(name, str) else None
        if match is None or size not in (1, 2, 4, 8):
            return None
        is_signed = match[1] == "s" or match[1] is None and match[3] is None and name != "size_t"
        self._types.append(Int(str(name), size, 8 * size, 0, is_signed, False, False))
        return len(self._types) - 1

    def types(self) -> Types:
        """All of them."""
        return Types(Btf(tuple(self._types), ByteReader(b"\0", ".BTF")))
