"""The slots of a program: its wide loads of maps, and what its atomic operations may be (docs/INSTRUCTIONS.md)."""

from __future__ import annotations

from collections.abc import Iterator, Mapping
from typing import NamedTuple

from bpfhost.numbers import SLOT_SIZE

WIDE_LOAD = 0x18
# The classes of loads, and of stores of constants and of registers.
_MEMORY = (1, 2, 3)
# The immediates of the host's atomic operations.
ATOMIC_OPERATIONS = (0x00, 0x40, 0x50, 0xA0)
# The second half of the byte of registers in a wide load: of a map, or of an address in a map's value.
_OF_MAPS = (1, 2)


class Access(NamedTuple):
    """A load or a store: its offset, and which of the two it is."""

    offset: int
    is_load: bool


def access_at(slots: bytes, slot: int) -> Access | None:
    """The load or the store at a slot; None if there is another instruction."""
    if not 0 <= slot < len(slots) // SLOT_SIZE or slots[SLOT_SIZE * slot] & 7 not in _MEMORY:
        return None
    offset = int.from_bytes(slots[SLOT_SIZE * slot + 2 : SLOT_SIZE * slot + 4], "little", signed=True)
    return Access(offset, slots[SLOT_SIZE * slot] & 7 == _MEMORY[0])


def first_slots(slots: bytes | bytearray) -> Iterator[int]:
    """The slots at which instructions begin: a wide load takes two."""
    slot = 0
    while slot < len(slots) // SLOT_SIZE:
        yield slot
        slot += 2 if slots[SLOT_SIZE * slot] == WIDE_LOAD else 1


def _map_loads(slots: bytes) -> Iterator[slice]:
    """The offsets, in bytes, of the descriptors that wide loads name."""
    for slot in first_slots(slots):
        at = SLOT_SIZE * slot
        if slots[at] == WIDE_LOAD and slots[at + 1] >> 4 in _OF_MAPS:
            yield slice(at + 4, at + 8)


def named_maps(slots: bytes) -> list[int]:
    """The descriptors that wide loads name, in order."""
    return [int.from_bytes(slots[place], "little") for place in _map_loads(slots)]


def renamed_maps(slots: bytes, names: Mapping[int, int]) -> bytes:
    """The same program with other descriptors for its maps."""
    renamed = bytearray(slots)
    for place in _map_loads(slots):
        renamed[place] = names[int.from_bytes(slots[place], "little")].to_bytes(4, "little")
    return bytes(renamed)
