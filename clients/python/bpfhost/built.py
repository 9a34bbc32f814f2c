"""Built programs: a program of an object with its maps, in a file that is loaded without Python.

README.md of this package describes the format ("Built programs").
"""

from __future__ import annotations

import json
from collections.abc import Mapping
from typing import TYPE_CHECKING

from bpfhost.numbers import SLOT_SIZE

if TYPE_CHECKING:
    from bpfhost.lowering import Lowered
    from bpfhost.objects import ObjectFile, ObjectMap

FORMAT, VERSION = "bpfhost program", 1


def built(object_file: ObjectFile, lowered: Lowered) -> str:
    """The content of the file: one JSON object, as text."""
    return f"{json.dumps(_built(object_file, lowered), indent=1)}\n"


def _built(object_file: ObjectFile, lowered: Lowered) -> Mapping[str, object]:
    program = lowered.program
    named: dict[int, list[int]] = {}
    for each in program.map_slots:
        named.setdefault(each.map, []).append(each.slot)
    slots = program.slots
    return {
        "format": FORMAT,
        "version": VERSION,
        "section": program.section,
        "name": program.name,
        "slots": [slots[at : at + SLOT_SIZE].hex() for at in range(0, len(slots), SLOT_SIZE)],
        "maps": [_map(object_file, each, named.get(number, [])) for number, each in enumerate(object_file.maps)],
        "lines": [_line(lowered, number) for number in range(len(program.lines))],
        "changes": [*object_file.changes, *lowered.changes],
    }


def _map(object_file: ObjectFile, declared: ObjectMap, slots: list[int]) -> Mapping[str, object]:
    return {
        "name": declared.name,
        "type": declared.map_type.name.lower(),
        "key_size": declared.key_size,
        "value_size": declared.value_size,
        "max_entries": declared.max_entries,
        "slots": slots,
        "initial": None if declared.initial is None else declared.initial.hex(),
        "key_type": _type(object_file, declared.key_type),
        "value_type": _type(object_file, declared.value_type),
    }


def _type(object_file: ObjectFile, type_id: int | None) -> str | None:
    """The type as written in C."""
    return None if object_file.types is None or type_id is None else object_file.types.name(type_id)


def _line(lowered: Lowered, number: int) -> Mapping[str, object]:
    line = lowered.program.lines[number]
    return {"slot": line.slot, "file": line.file, "line": line.line, "text": line.text, "copy": lowered.copy_of(line.slot)[0]}
