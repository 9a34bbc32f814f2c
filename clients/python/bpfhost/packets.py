"""Packets that lie in one piece of bytes, so that many are passed on without an object for each."""

from __future__ import annotations

import struct
from collections.abc import Iterable, Iterator, Sequence
from dataclasses import dataclass, replace
from functools import cached_property
from itertools import accumulate
from typing import TypeVar

# The link type of captures of Ethernet (LINKTYPE_ETHERNET).
ETHERNET = 1

# The fewest bytes of a packet with an Ethernet header, which ends with the type.
LEAST_WITH_TYPE = 14
_TYPE = struct.Struct("<H")

Some = TypeVar("Some", bound="Packets")


@dataclass(frozen=True)
class Packets:
    """Packet i has `lengths[i]` bytes of `data`, from `starts[i]` on. All have one link type, with the numbers that captures use.

    `types[i]`, if the reader of the packets sets it, is the little-endian number of bytes 12 and 13 of packet i, in which an Ethernet
    header has its type. It has no meaning if the packet is shorter. `bodies[i]` is packet i, if the reader of the packets has split them.
    """

    data: bytes
    starts: list[int]
    lengths: list[int]
    link_type: int = ETHERNET
    types: list[int] | None = None
    bodies: list[bytes] | None = None

    @classmethod
    def of(cls, packets: Iterable[bytes], link_type: int = ETHERNET) -> Packets:
        """The bytes of these packets, joined."""
        listed = list(packets)
        lengths = [len(packet) for packet in listed]
        return Packets(b"".join(listed), list(accumulate(lengths, initial=0))[: len(listed)], lengths, link_type)

    def ethernet_types(self) -> Sequence[int | None]:
        """The type in each packet's Ethernet header, as the number that `types` has; None for a packet without such a header."""
        if self.link_type != ETHERNET:
            return [None] * len(self)
        is_long = self.shortest >= LEAST_WITH_TYPE
        if self.types is not None and is_long:
            return self.types
        if is_long:
            read = _TYPE.unpack_from
            return [read(self.data, start + 12)[0] for start in self.starts]
        data, places = self.data, zip(self.starts, self.lengths)
        return [int.from_bytes(data[start + 12 : start + 14], "little") if length >= LEAST_WITH_TYPE else None for start, length in places]

    @cached_property
    def longest(self) -> int:
        """The length of the longest packet; 0 if there is none."""
        return max(self.lengths, default=0)

    @cached_property
    def shortest(self) -> int:
        """The length of the shortest packet; 0 if there is none."""
        return min(self.lengths, default=0)

    def split_bodies(self) -> list[bytes]:
        """The bytes of each packet."""
        if self.bodies is not None:
            return self.bodies
        data = self.data
        return [data[start : start + length] for start, length in zip(self.starts, self.lengths)]

    def __len__(self) -> int:
        return len(self.starts)

    def __getitem__(self, at: int) -> bytes:
        return self.data[self.starts[at] : self.starts[at] + self.lengths[at]]

    def __iter__(self) -> Iterator[bytes]:
        return map(self.__getitem__, range(len(self)))

    def first(self: Some, many: int) -> Some:
        """The first of these packets, up to a number."""
        return self._some(0, many)

    def split(self: Some, most: int) -> Iterator[Some]:
        """The same packets in pieces, each of at most this many."""
        if len(self) <= most:
            yield self
            return
        for at in range(0, len(self), most):
            yield self._some(at, at + most)

    def _some(self: Some, at: int, end: int) -> Some:
        """The packets at these indices."""
        types = None if self.types is None else self.types[at:end]
        return replace(self, starts=self.starts[at:end], lengths=self.lengths[at:end], types=types)
