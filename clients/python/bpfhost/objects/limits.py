"""The limits of maps and programs (docs/PROTOCOL.md), checked before any frame is sent so that an error has a name."""

from __future__ import annotations

from collections.abc import Sequence

from bpfhost.numbers import (
    LARGEST_AREA,
    LARGEST_SUM,
    LONGEST_KEY,
    LONGEST_VALUE,
    MOST_ENTRIES,
    MOST_MAPS,
    MOST_SLOTS,
    SLOT_SIZE,
    MapType,
)
from bpfhost.objects.errors import ObjectError
from bpfhost.objects.model import ObjectMap

ARRAY_KEY = 4
# For an object; this package's own limit.
MOST_PROGRAMS = 512


def check_map(declared: ObjectMap, where: str) -> ObjectMap:
    """The map. Raises ObjectError if the host has no room for such a one; `where` names it in the error."""
    _check_number(where, "a key", declared.key_size, LONGEST_KEY, "bytes")
    _check_number(where, "a value", declared.value_size, LONGEST_VALUE, "bytes")
    _check_number(where, "it", declared.max_entries, MOST_ENTRIES, "entries")
    if declared.map_type == MapType.ARRAY and declared.key_size != ARRAY_KEY:
        raise ObjectError(f"{where}: a key has {declared.key_size} bytes, and in an array it has {ARRAY_KEY}")
    if area(declared) > LARGEST_AREA:
        raise ObjectError(f"{where}: its values take {area(declared):,} bytes, and those of a map {LARGEST_AREA:,} at most")
    return declared


def _check_number(where: str, what: str, number: int, most: int, unit: str) -> None:
    if not 1 <= number <= most:
        raise ObjectError(f"{where}: {what} has {number:,} {unit}, and may have 1 to {most:,}")


def area(declared: ObjectMap) -> int:
    """The bytes that a map's values take, each rounded up to a multiple of 8."""
    return declared.max_entries * (-(-declared.value_size // 8) * 8)


def check_maps(maps: Sequence[ObjectMap]) -> None:
    """Raises ObjectError for maps that a tenant can't have at the same time."""
    if len(maps) > MOST_MAPS:
        raise ObjectError(f"the object has {len(maps)} maps, its sections of variables among them, and a tenant {MOST_MAPS} at most")
    total = sum(map(area, maps))
    if total > LARGEST_SUM:
        raise ObjectError(f"the values of all maps take {total:,} bytes, and those of a tenant {LARGEST_SUM:,} at most")


def check_slots(size: int, where: str) -> None:
    """Raises ObjectError for a function whose length in bytes no program may have."""
    if size % SLOT_SIZE:
        raise ObjectError(f"{where} has {size} bytes, which are no whole slots of {SLOT_SIZE}")
    if not 1 <= size // SLOT_SIZE <= MOST_SLOTS:
        raise ObjectError(f"{where} has {size // SLOT_SIZE:,} slots, and a program has 1 to {MOST_SLOTS:,}")
