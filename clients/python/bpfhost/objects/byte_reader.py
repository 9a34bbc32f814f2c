"""Reads numbers and strings from bytes that have not been checked yet."""

from __future__ import annotations

import struct
from dataclasses import dataclass

from bpfhost.objects.errors import ObjectError

# A longer name is rejected: no compiler writes such a name, and many of them would use up the memory.
LONGEST_NAME = 1024


def printable(name: str) -> str:
    """A name with each character that is not printable escaped: names are written to terminals."""
    if name.isprintable():
        return name
    return "".join(each if each.isprintable() else each.encode("unicode_escape").decode() for each in name)


@dataclass(frozen=True)
class ByteReader:
    """Reads little-endian numbers at offsets. An offset outside the bytes raises ObjectError with `name`."""

    data: bytes
    name: str

    def words(self, at: int, count: int) -> tuple[int, ...]:
        """So many 32-bit numbers."""
        self.check(at, 4 * count)
        return struct.unpack_from(f"<{count}I", self.data, at)

    def check(self, at: int, size: int) -> None:
        """Raises ObjectError for a range of bytes that is not inside."""
        if at < 0 or size < 0 or at + size > len(self.data):
            raise ObjectError(f"{self.name} has {len(self.data)} bytes, and {size} bytes are to be read at offset {at}")

    def part(self, at: int, size: int, name: str) -> ByteReader:
        """A range of the bytes."""
        self.check(at, size)
        return ByteReader(self.data[at : at + size], name)

    def string(self, at: int) -> str:
        """The string from here to the next zero byte, as `printable` returns it; invalid UTF-8 is replaced."""
        end = self._end(at)
        if end < 0:
            raise ObjectError(f"the string at offset {at} of {self.name} has no end, or more than {LONGEST_NAME:,} bytes")
        return printable(self.data[at:end].decode(errors="replace"))

    def cut_string(self, at: int) -> str:
        """As `string`, but a string that is too long is cut, and each tab becomes a space."""
        end = self._end(at)
        found = self.data[at : end if end >= 0 else at + LONGEST_NAME].decode(errors="replace")
        return printable(found.replace("\t", " "))

    def _end(self, at: int) -> int:
        self.check(at, 1)
        return self.data.find(0, at, at + LONGEST_NAME + 1)
