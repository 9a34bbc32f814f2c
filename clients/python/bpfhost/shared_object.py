"""The soname of an ELF shared object. Builds of a library that don't fit together have different ones."""

from __future__ import annotations

import struct
from pathlib import Path

_MAGIC = b"\x7fELF\x02\x01"
_LOAD, _DYNAMIC = 1, 2
_STRINGS, _SONAME = 5, 14
_SEGMENTS_AT, _SEGMENT, _ENTRY = 32, struct.Struct("<IIQQQQQQ"), struct.Struct("<qQ")


def soname_of(path: Path) -> str:
    """The soname, or nothing if there is none; raises ValueError if the file is no 64-bit shared object, or is cut off."""
    data = path.read_bytes()
    if not data.startswith(_MAGIC):
        raise ValueError("it is no shared object")
    try:
        segments = _segments(data)
        entries = [entry for kind, at, _, size in segments if kind == _DYNAMIC for entry in _ENTRY.iter_unpack(data[at : at + size])]
        said: dict[int, int] = {name: value for name, value in reversed(entries)}
        if any(at + size > len(data) for _, at, _, size in segments):
            raise ValueError("it is cut off")
        begin = _place(segments, said[_STRINGS]) + said.get(_SONAME, 0)
        return data[begin : data.index(b"\0", begin)].decode()
    except (KeyError, IndexError, struct.error, StopIteration):
        raise ValueError("it is no shared object") from None


def _segments(data: bytes) -> list[tuple[int, int, int, int]]:
    """Each segment's kind, its place in the file, its address and its size in the file."""
    (first,) = struct.unpack_from("<Q", data, _SEGMENTS_AT)
    (many,) = struct.unpack_from("<H", data, 56)
    read = [_SEGMENT.unpack_from(data, first + at * _SEGMENT.size) for at in range(many)]
    return [(kind, place, address, size) for kind, _, place, address, _, size, _, _ in read]


def _place(segments: list[tuple[int, int, int, int]], address: int) -> int:
    """The offset of an address in the file."""
    return next(place + address - base for kind, place, base, size in segments if kind == _LOAD and base <= address < base + size)
