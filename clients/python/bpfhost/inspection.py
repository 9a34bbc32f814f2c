"""What the owner of a host in this process sees of its tenants: counts, descriptors, and the verifier's log."""

from __future__ import annotations

import ctypes
import re
from dataclasses import dataclass
from enum import IntEnum
from typing import Any, NamedTuple

from bpfhost.functions import Functions, LoggedStruct
from bpfhost.numbers import MapType

# The kinds of what a descriptor names.
_MAP, _PROGRAM = 1, 2
# The line of the cost of an accepted program, before its verdict.
_COST = re.compile(r"^cost: instructions (\d+), calls (\d+)$", re.MULTILINE)
# The bytes of the first buffer for a log.
_FIRST = 8192


@dataclass(frozen=True)
class Counts:
    """How much a tenant has: live maps, those that a descriptor or a program names; their keys, and the bytes that their values take; open
    descriptors of programs; open descriptors; and whether memory was ever refused to a load or a new map."""

    maps: int
    entries: int
    value_bytes: int
    programs: int
    descriptors: int
    memory_refused: bool


@dataclass(frozen=True)
class OpenedMap:
    """A map: its shape, and how many keys it has."""

    map_type: MapType
    key_size: int
    value_size: int
    max_entries: int
    entries: int


class Cost(NamedTuple):
    """The most instructions, and the most calls of helpers, on a path through a program. No run executes more."""

    instructions: int
    calls: int


@dataclass(frozen=True)
class OpenedProgram:
    """A program: how many slots it has, and what it costs."""

    slots: int
    cost: Cost


Opened = OpenedMap | OpenedProgram


class LogStyle(IntEnum):
    """A line for each instruction with what is new before it, or with all that is known; or a graph for Graphviz."""

    NEW, WHOLE, GRAPH = 0, 1, 2


@dataclass(frozen=True)
class Log:
    """The text of `verifier_log`, and the verdict."""

    text: str
    is_accepted: bool

    def cost(self) -> Cost | None:
        """What the program costs; None if it is rejected, or if the log is a graph or of a version that does not write it."""
        found = _COST.search(self.text) if self.is_accepted else None
        return Cost(int(found[1]), int(found[2])) if found else None


def cost_of(instructions: int, calls: int) -> Cost | None:
    """The cost of a program, by the words of the library; None without an instruction, which is no program."""
    return Cost(instructions, calls) if instructions else None


def opened_of(
    cost: Cost, kind: int, map_type: int, key_size: int, value_size: int, max_entries: int, entries: int, slots: int
) -> Opened | None:
    """What a descriptor names, by the words of the library, and the cost of its program."""
    if kind == _PROGRAM:
        return OpenedProgram(slots, cost)
    return OpenedMap(MapType(map_type), key_size, value_size, max_entries, entries) if kind == _MAP else None


def log_of(functions: Functions, at: Any, tenant: int, slots: Any, style: LogStyle) -> tuple[int, Log]:
    """The code of `verify`, and the log."""
    logged, room = LoggedStruct(), ctypes.create_string_buffer(_FIRST)
    while True:
        code = functions.verify(at, tenant, slots, len(slots), style, room, len(room), ctypes.byref(logged))
        if code or logged.length < len(room):
            return code, Log(room.value.decode(), logged.is_accepted)
        room = ctypes.create_string_buffer(logged.length + 1)
