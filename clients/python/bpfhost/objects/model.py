"""The contents of an object file: programs, the functions that they call, maps, types."""

from __future__ import annotations

import enum
import os
from bisect import bisect_right
from collections.abc import Sequence
from dataclasses import dataclass

from bpfhost.numbers import SLOT_SIZE, MapType
from bpfhost.objects.types import Types


class Form(enum.Enum):
    """How to read an object and load its programs.

    LOWERED: a map that the host does not have is replaced by one that serves the same program (`ObjectFile.changes` describes it), and
    `bpfhost.lowering` writes programs in another form if needed. STRICT: the same for programs, but a map is taken as declared, or
    rejected. AS_IS: programs too are taken as they are, or rejected.
    """

    LOWERED = "lowered"
    STRICT = "strict"
    AS_IS = "as is"


@dataclass(frozen=True)
class SourceLine:
    """The line of the source for the instructions from a slot on; slots count from the program's first.

    `file` is the path given to the compiler, usually a whole one, and `column` counts from 1.
    """

    slot: int
    file: str
    line: int
    column: int
    text: str

    @property
    def path(self) -> str:
        """The path of the file, relative to the working directory if the file is in it."""
        return os.path.normpath(self.file).removeprefix(os.path.join(os.getcwd(), ""))

    def __str__(self) -> str:
        """The line as compilers print it, as `filter.c:23: return table[i];`."""
        return f"{self.path}:{self.line}: {self.text}".removesuffix(": ")


def line_at(lines: Sequence[SourceLine], slot: int) -> SourceLine | None:
    """The last of some lines, in the order of their slots, that begins at the slot or before it; None if there is none."""
    behind = bisect_right(lines, slot, key=lambda line: line.slot)
    return lines[behind - 1] if behind else None


@dataclass(frozen=True)
class MapSlot:
    """A wide load that names a map, by its slot; `map` is an index in `ObjectFile.maps`."""

    slot: int
    map: int


@dataclass(frozen=True)
class CallSlot:
    """A call of another function of the object, by its slot; `function` is an index in `ObjectFile.functions`."""

    slot: int
    function: int


@dataclass(frozen=True)
class ObjectMap:
    """A map that an object declares; sizes are in bytes.

    `key_type` and `value_type` are types of the object, if it has them. `initial` is the value of element 0 of a section of global
    variables, and None in any other map.
    """

    name: str
    map_type: MapType
    key_size: int
    value_size: int
    max_entries: int
    key_type: int | None
    value_type: int | None
    initial: bytes | None


@dataclass(frozen=True)
class ObjectProgram:
    """A function of an executable section. Its slots do not have the descriptors of maps yet; `linked` fills them in.

    `calls` are its calls of functions of the object, in the order of their slots; the host has no such calls.
    """

    section: str
    name: str
    slots: bytes
    map_slots: tuple[MapSlot, ...]
    lines: tuple[SourceLine, ...]
    calls: tuple[CallSlot, ...] = ()

    def line_of(self, slot: int) -> SourceLine | None:
        """The last line that begins at the slot or before it, or None if there is none."""
        return line_at(self.lines, slot)

    def linked(self, descriptors: Sequence[int]) -> bytes:
        """The slots with the descriptors of the object's maps, one for each in the order of `ObjectFile.maps`."""
        slots = bytearray(self.slots)
        for each in self.map_slots:
            at = SLOT_SIZE * each.slot + 4
            slots[at : at + 4] = descriptors[each.map].to_bytes(4, "little")
        return bytes(slots)


@dataclass(frozen=True)
class ObjectFile:
    """An object file: its programs in the order of their sections, its maps, and its types if it has any.

    `functions` are those that programs call, in the order in which they are found. `changes` describes, in a sentence each, the maps that
    differ from the object's declarations.
    """

    path: str
    programs: tuple[ObjectProgram, ...]
    maps: tuple[ObjectMap, ...]
    types: Types | None
    functions: tuple[ObjectProgram, ...] = ()
    changes: tuple[str, ...] = ()
    form: Form = Form.LOWERED
