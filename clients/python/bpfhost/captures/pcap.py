"""The pcap format (pcap-savefile(5)): a file header of 24 bytes, and a header of 16 bytes before each packet."""

from __future__ import annotations

import contextlib
import struct
from collections.abc import Callable, Sequence
from dataclasses import dataclass, field
from io import BufferedReader
from itertools import repeat
from typing import TYPE_CHECKING, Any

from bpfhost.captures.piece import LONGEST_CAPTURED, Capture, Piece, Stamp
from bpfhost.numbers import LONGEST_PACKET

if TYPE_CHECKING:
    from gzip import GzipFile

# The bytes of a file's header, of a packet's header, and of one in the format of magic number a1b2cd34.
_FILE_HEAD, _HEAD, _LONGER_HEAD = 24, 16, 24
# The major version, 2, and the snapshot length and the link type in the file's header.
_FIELDS, _VERSION = "H10xII", 2


@dataclass(frozen=True)
class _Kind:
    """What the magic number at the start of a file says: the byte order, the bytes of a packet's header, and the unit of its time."""

    order: str
    head: int = _HEAD
    has_nanoseconds: bool = False


_KINDS = {
    bytes.fromhex("a1b2c3d4"): _Kind(">"),
    bytes.fromhex("d4c3b2a1"): _Kind("<"),
    bytes.fromhex("a1b23c4d"): _Kind(">", has_nanoseconds=True),
    bytes.fromhex("4d3cb2a1"): _Kind("<", has_nanoseconds=True),
    bytes.fromhex("a1b2cd34"): _Kind(">", _LONGER_HEAD),
    bytes.fromhex("34cdb2a1"): _Kind("<", _LONGER_HEAD),
}
# The most first bytes of a packet that are read along with its header: for more, the packets at the end of the bytes would be many.
_MOST_BEGUN = 256
# The highest six bits of the link type's word have other things, as the length of a frame check sequence.
_LINK_TYPE = 0x03FF_FFFF


@dataclass(frozen=True)
class _Layout:
    """A packet's header: its size in bytes, how to unpack time and lengths, and the nanoseconds of a unit of the time's fraction."""

    head: int
    times: struct.Struct
    part: int
    is_low_first: bool


@dataclass(frozen=True)
class _PcapPiece(Piece):
    layout: _Layout = field(kw_only=True)

    def stamp(self, at: int) -> Stamp:
        seconds, parts, length = self.layout.times.unpack_from(self.data, self.starts[at] - self.layout.head)
        return Stamp(seconds, parts * self.layout.part, length)

    def records(self, kept: Sequence[int], has_nanoseconds: bool) -> bytes | memoryview | None:
        """These packets with their headers, as a little-endian pcap file with timestamps of this precision has them.

        None if the capture has other headers, or if this piece has not all that the capture has of a packet.
        """
        layout = self.layout
        is_same = layout.is_low_first and layout.head == _HEAD and layout.part == (1 if has_nanoseconds else 1000)
        if not is_same or self.is_cut or self.whole is not None:
            return None
        data, starts, lengths = self.data, self.starts, self.lengths
        if len(kept) == len(self):
            # In the capture, these records follow one another.
            return memoryview(data)[starts[0] - _HEAD : starts[-1] + lengths[-1]]
        return b"".join([data[starts[at] - _HEAD : starts[at] + lengths[at]] for at in kept])


class PcapCapture(Capture):
    """A capture in the pcap format, in either byte order, with microseconds or nanoseconds."""

    def __init__(self, name: str, file: BufferedReader | GzipFile, magic: bytes) -> None:
        """Reads the file header, whose first bytes are `magic`."""
        super().__init__(name, file, b"")
        kind = _KINDS.get(magic)
        if kind is None:
            raise self.error("it is neither a pcap nor a pcapng file")
        header = magic + self._read(_FILE_HEAD - len(magic))
        if len(header) < _FILE_HEAD:
            raise self.error("it is cut off in its header")
        order = kind.order
        version, self.longest, link_type = struct.unpack_from(f"{order}{_FIELDS}", header, len(magic))
        if version != _VERSION:
            raise self.error(f"it has version {version} of pcap, and only 2 is supported")
        self.bytes_read = len(header)
        self.has_nanoseconds = kind.has_nanoseconds
        self._link_type = self.link_type = link_type & _LINK_TYPE
        self.link_type_bits = link_type & ~_LINK_TYPE
        self.savefile = header
        self._order = order
        self._length = struct.Struct(f"{order}8xII").unpack_from
        self._begun_by: dict[int, Callable[[bytes, int], tuple[Any, ...]]] = {}
        self._layout = _Layout(kind.head, struct.Struct(f"{order}II4xI"), 1 if self.has_nanoseconds else 1000, order == "<")

    def _next_piece(self, data: bytes, at: int, most: int) -> tuple[Piece | None, int]:
        reach = self.reach if self.reach is not None and self.reach <= _MOST_BEGUN else 0
        found = self._packets_with(reach, data, at, most)
        if found is None and reach:
            # The bytes end soon: the first bytes of the last packets are read with what follows.
            found = self._packets_with(0, data, at, most)
        return self._last_packet(data, at) if found is None else (found, found.starts[-1] + found.lengths[-1])

    def _packets_with(self, reach: int, data: bytes, at: int, most: int) -> Piece | None:
        """The whole packets from `at` on, each with so many first bytes, up to a number of packets; None if there are none."""
        starts: list[int] = []
        lengths: list[int] = []
        begun: list[bytes] = []
        is_short, head, unpack = False, self._layout.head, self._with_begun(reach)
        add_start, add_length, add_begun = starts.append, lengths.append, begun.append
        with contextlib.suppress(struct.error):
            # If the bytes end before the next header and the first bytes of its packet, there is nothing to unpack.
            for _ in repeat(None, most):
                length, wire, first = unpack(data, at)
                at += head
                add_start(at)
                add_length(length)
                add_begun(first)
                if wire != length:
                    is_short = True
                at += length
        many = self._whole_ones(data, starts, lengths)
        if not many:
            return None
        del starts[many:], lengths[many:], begun[many:]
        # Most captures have whole packets; then the lengths on the wire are the same list.
        wires = self._wires(data, starts) if is_short else lengths
        return self._piece(data, starts, lengths, wires, begun=begun if reach else None)

    def _with_begun(self, reach: int) -> Callable[[bytes, int], tuple[Any, ...]]:
        """What unpacks the lengths in a packet's header, and so many of the packet's first bytes."""
        if reach not in self._begun_by:
            self._begun_by[reach] = struct.Struct(f"{self._order}8xII{self._layout.head - _HEAD}x{reach}s").unpack_from
        return self._begun_by[reach]

    @staticmethod
    def _whole_ones(data: bytes, starts: list[int], lengths: list[int]) -> int:
        """How many of these packets come before one that is too long, or that the bytes do not have in full."""
        if max(lengths, default=0) > LONGEST_PACKET:
            return next(at for at, length in enumerate(lengths) if length > LONGEST_PACKET)
        # Only the last one can end after the bytes: a header was read after each other one.
        return len(starts) - (bool(starts) and starts[-1] + lengths[-1] > len(data))

    def _wires(self, data: bytes, starts: list[int]) -> list[int]:
        """The lengths on the wire of the packets that begin there."""
        head = self._layout.head
        return [self._length(data, start - head)[1] for start in starts]

    def _last_packet(self, data: bytes, at: int) -> tuple[Piece | None, int]:
        """The packet at `at` and its end, if it is whole, even if it is longer than test runs take."""
        start = at + self._layout.head
        if start > len(data):
            return None, at
        length, wire = self._length(data, at)
        if length > LONGEST_CAPTURED:
            raise self._too_long(length)
        end = start + length
        if end > len(data):
            return None, at
        whole = length if length > LONGEST_PACKET else None
        return self._piece(data, [start], [min(length, LONGEST_PACKET)], [wire], whole), end

    def _piece(
        self,
        data: bytes,
        starts: list[int],
        lengths: list[int],
        wires: list[int],
        whole: int | None = None,
        begun: list[bytes] | None = None,
    ) -> Piece:
        return _PcapPiece(data, starts, lengths, self._link_type, wires=wires, whole=whole, begun=begun, layout=self._layout)
