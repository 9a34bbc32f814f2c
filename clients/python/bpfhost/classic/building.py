"""A filter as a file, in the format of built programs, which can be loaded without Python."""

from __future__ import annotations

import json

from bpfhost.built import FORMAT, VERSION
from bpfhost.classic.listing import shown
from bpfhost.classic.program import ClassicProgram
from bpfhost.classic.translation import Translation
from bpfhost.numbers import SLOT_SIZE

_SECTION = "socket"


def built_filter(program: ClassicProgram, translation: Translation) -> str:
    """The file of a filter, as text; its lines are the classic instructions that the slots come from."""
    slots = translation.slots
    told = {
        "format": FORMAT,
        "version": VERSION,
        "section": _SECTION,
        "name": program.name,
        "slots": [slots[at : at + SLOT_SIZE].hex() for at in range(0, len(slots), SLOT_SIZE)],
        "maps": [],
        "lines": [_line(program, slot, number) for slot, number in translation.lines if number >= 0],
        "changes": [],
    }
    return f"{json.dumps(told, indent=1)}\n"


def _line(program: ClassicProgram, slot: int, number: int) -> dict[str, object]:
    text = shown(number, program.instructions[number]).expandtabs(1)
    return {"slot": slot, "file": program.name, "line": number, "text": text, "copy": 1}
