"""The pcapng format (draft-ietf-opsawg-pcapng): blocks, some of which have a packet."""

from __future__ import annotations

import contextlib
import struct
from collections.abc import Iterator, Sequence
from dataclasses import dataclass, field
from io import BufferedReader
from typing import TYPE_CHECKING

from bpfhost.captures.piece import LONGEST_CAPTURED, Capture, Comments, Piece, Stamp, low_first
from bpfhost.errors import CaptureError
from bpfhost.numbers import LONGEST_PACKET

if TYPE_CHECKING:
    from gzip import GzipFile

# The type of a section header block, the same in both byte orders.
SECTION = b"\x0a\x0d\x0d\x0a"
_BYTE_ORDER = 0x1A2B3C4D
_ORDERS = {b"\x4d\x3c\x2b\x1a": "<", b"\x1a\x2b\x3c\x4d": ">"}
# Sizes in bytes: a block without a body; a packet block before and around the packet; a simple packet block before the packet; an
# interface's block and a section's before their options.
_SHORTEST_BLOCK, _BEFORE, _AROUND, _BEFORE_SIMPLE, _BEFORE_OPTIONS, _BEFORE_SECTION_OPTIONS = 12, 28, 32, 12, 16, 24
# Types of blocks, and codes of options.
_INTERFACE, _OLD, _SIMPLE, _ENHANCED, _SECTION = 1, 2, 3, 6, int.from_bytes(SECTION, "big")
_END_OF_OPTIONS, _COMMENT, _RESOLUTION, _OFFSET = 0, 1, 9, 14
# A block with a greater length is rejected as damaged.
_LONGEST_BLOCK = 1 << 24
_SECOND = 1_000_000_000


@dataclass(frozen=True)
class _Interface:
    """What the packets of an interface have in common: their timestamps count units of a part of a second, from `offset` seconds on."""

    link_type: int
    longest: int
    per_second: int
    offset: int
    comments: Comments


@dataclass(frozen=True)
class _PcapngPiece(Piece):
    """Packets of blocks of one kind, in a section in which more interfaces may follow."""

    kind: int = field(kw_only=True)
    order: str = field(kw_only=True)
    interfaces: Sequence[_Interface] = field(kw_only=True)

    def stamp(self, at: int) -> Stamp:
        if self.kind == _SIMPLE:
            (length,) = struct.unpack_from(f"{self.order}I", self.data, self.starts[at] - 4)
            return Stamp(0, 0, length)
        number, high, low, _, length = self._head(at)
        interface = self.interfaces[number]
        nanoseconds = (high << 32 | low) * _SECOND // interface.per_second
        return Stamp(interface.offset + nanoseconds // _SECOND, nanoseconds % _SECOND, length)

    def _head(self, at: int) -> tuple[int, int, int, int, int]:
        """Of a packet: its interface, the halves of its time, its length in the capture and on the wire."""
        layout = "5I" if self.kind == _ENHANCED else "H2x4I"
        number, high, low, length, wire = struct.unpack_from(f"{self.order}{layout}", self.data, self.starts[at] - 20)
        return number, high, low, length, wire

    def comments(self, at: int) -> Comments:
        if self.kind == _SIMPLE:
            return ()
        start, length = self.starts[at], self._head(at)[3]
        (block,) = struct.unpack_from(f"{self.order}I", self.data, start - _BEFORE + 4)
        options = start + length + -length % 4, start - _BEFORE + block - 4
        # Most packets have no options.
        return _comments(self.data[slice(*options)], self.order) if options[0] < options[1] else ()

    def interface_comments(self, at: int) -> Comments:
        number = 0 if self.kind == _SIMPLE else self._head(at)[0]
        return self.interfaces[number].comments


def _options(data: bytes, order: str) -> Iterator[tuple[int, bytes]]:
    """The codes and values of options. Raises struct.error if one is cut off."""
    unpack, at = struct.Struct(f"{order}HH").unpack_from, 0
    while at < len(data):
        code, length = unpack(data, at)
        if code == _END_OF_OPTIONS:
            return
        at += 4
        if at + length > len(data):
            raise struct.error("an option is longer than its block")
        yield code, data[at : at + length]
        at += length + -length % 4


def _comments(options: bytes, order: str) -> Comments:
    """The comments in options, up to one that is cut off."""
    found = []
    with contextlib.suppress(struct.error):
        for code, value in _options(options, order):
            if code == _COMMENT:
                found.append(value)
    return found


class PcapngCapture(Capture):
    """A capture in the pcapng format: sections of either byte order, any interfaces, and the three kinds of packet blocks."""

    has_nanoseconds = True

    def __init__(self, name: str, file: BufferedReader | GzipFile, magic: bytes) -> None:
        """Reads nothing; `magic` has the bytes that were already read."""
        super().__init__(name, file, magic)
        self._begin_section()
        self._has_order("<")

    def _begin_section(self) -> None:
        self._interfaces: list[_Interface] = []
        self._link_types: list[int] = []

    def _has_order(self, order: str) -> None:
        self._order = order
        self._pair = struct.Struct(f"{order}II").unpack_from
        # A packet block up to the packet's lengths: its kind, its length, the interface, the time, the captured and the original length.
        self._enhanced = struct.Struct(f"{order}3I8xII").unpack_from
        self._old = struct.Struct(f"{order}2IH10xII").unpack_from
        # The same of an enhanced packet block, with the type in the packet's Ethernet header, and after the end of the block before.
        self._enhanced_with_type = struct.Struct(f"{order}3I8xII12xH").unpack_from
        self._end_and_enhanced = struct.Struct(f"{order}4I8xII12xH").unpack_from

    def _cut_off(self) -> CaptureError:
        return self.error(f"it is cut off in the block of {self._next_packet()}, or before it")

    def _next_piece(self, data: bytes, at: int, most: int) -> tuple[Piece | None, int]:
        while True:
            piece, at = self._enhanced_packets(data, at, most)
            if piece:
                return piece, at
            end = self._block_end(data, at)
            if end is None:
                return None, at
            piece, at = self._take(data, at, end), end
            if piece:
                return piece, at

    def _one(self, data: bytes, start: int, length: int, wire: int, link_type: int, kind: int) -> Piece:
        """The piece of one packet, which may be longer than test runs take."""
        if length > LONGEST_CAPTURED:
            raise self._too_long(length)
        whole = length if length > LONGEST_PACKET else None
        order, interfaces = self._order, self._interfaces
        return _PcapngPiece(
            data, [start], [min(length, LONGEST_PACKET)], link_type, wires=[wire], whole=whole, kind=kind, order=order, interfaces=interfaces
        )

    def _enhanced_packets(self, data: bytes, at: int, most: int) -> tuple[Piece | None, int]:
        """The packets of whole enhanced packet blocks of one link type, from `at` up to the first other block, and the offset after them.

        It reads the end of a block together with the header of the next one, with one read for each packet. So if the bytes end before the
        type in the next packet's header, that block is left out.
        """
        starts: list[int] = []
        lengths: list[int] = []
        wire, is_short = 0, False
        types: list[int] = []
        unpack, link_type, interface = self._end_and_enhanced, -1, -1
        link_types = self._link_types
        with contextlib.suppress(struct.error):
            kind, block, number, length, wire, ethernet_type = self._enhanced_with_type(data, at)
            for _ in range(most):
                if kind != _ENHANCED or length > LONGEST_PACKET or block < _AROUND + length or block & 3:
                    break
                if number != interface:
                    if number >= len(link_types) or starts and link_types[number] != link_type:
                        break
                    interface, link_type = number, link_types[number]
                end, kind, next_block, number, next_length, next_wire, next_type = unpack(data, at + block - 4)
                if end != block:
                    break
                starts.append(at + _BEFORE)
                lengths.append(length)
                if wire != length:
                    is_short = True
                types.append(ethernet_type)
                at += block
                block, length, wire, ethernet_type = next_block, next_length, next_wire, next_type
        if not starts:
            return None, at
        order, interfaces = self._order, self._interfaces
        types = low_first(types, order)
        # Most captures have whole packets; then the lengths on the wire are the same list.
        wires = [self._enhanced(data, start - _BEFORE)[4] for start in starts] if is_short else lengths
        return _PcapngPiece(
            data, starts, lengths, link_type, types, wires=wires, kind=_ENHANCED, order=order, interfaces=interfaces
        ), at

    def _block_end(self, data: bytes, at: int) -> int | None:
        """The end of the block that begins at `at`, or None if it is not whole; a section's block sets the byte order."""
        if len(data) - at < _SHORTEST_BLOCK:
            return None
        if data[at : at + 4] == SECTION:
            order = _ORDERS.get(data[at + 8 : at + 12])
            if order is None:
                raise self.error("it has a section without a byte order")
            self._has_order(order)
        length: int = self._pair(data, at)[1]
        if length % 4 or not _SHORTEST_BLOCK <= length <= _LONGEST_BLOCK:
            raise self.error(f"it has a block of {length:,} bytes before {self._next_packet()}")
        end = at + length
        if end > len(data):
            return None
        if data[end - 4 : end] != data[at + 4 : at + 8]:
            raise self.error(f"it has a block with two lengths before {self._next_packet()}")
        return end

    def _take(self, data: bytes, at: int, end: int) -> Piece | None:
        """Reads a whole block, and returns its packet if it has one."""
        kind: int = self._pair(data, at)[0]
        if kind == _SECTION:
            self._begin_section()
            self.comments += _comments(data[at + _BEFORE_SECTION_OPTIONS : end - 4], self._order)
        if kind == _INTERFACE:
            self._interfaces.append(self._interface(data[at:end]))
            self._link_types.append(self._interfaces[-1].link_type)
            if self.link_type is None:
                self._begin_savefile(self._interfaces[0])
        if kind == _SIMPLE:
            return self._simple_packet(data, at, end)
        if kind in (_ENHANCED, _OLD):
            return self._packet(data, at, end, kind)
        return None

    def _begin_savefile(self, interface: _Interface) -> None:
        """Notes the first interface, which other readers of the file go by."""
        self.link_type, self.longest, order = interface.link_type, interface.longest, self._order
        section = SECTION + struct.pack(f"{order}IIHHqI", 28, _BYTE_ORDER, 1, 0, -1, 28)
        described = struct.pack(f"{order}IIHHII", _INTERFACE, 20, interface.link_type, 0, interface.longest, 20)
        self.savefile = section + described

    def _packet(self, data: bytes, at: int, end: int, kind: int) -> Piece:
        """The packet of an obsolete packet block, or of an enhanced packet block that is wrong or the last one in these bytes."""
        if end - at < _AROUND:
            raise self._wrong_packet()
        _, _, number, length, wire = (self._old if kind == _OLD else self._enhanced)(data, at)
        if number >= len(self._interfaces) or end - at < _AROUND + length:
            raise self._wrong_packet()
        return self._one(data, at + _BEFORE, length, wire, self._interfaces[number].link_type, kind)

    def _simple_packet(self, data: bytes, at: int, end: int) -> Piece:
        """The packet of a simple packet block, which belongs to the first interface and has no captured length."""
        if not self._interfaces or end - at < _BEFORE_SIMPLE + 4:
            raise self._wrong_packet()
        interface = self._interfaces[0]
        whole: int = self._pair(data, at + 4)[1]
        length = min(whole, interface.longest or whole, end - at - _BEFORE_SIMPLE - 4)
        return self._one(data, at + _BEFORE_SIMPLE, length, whole, interface.link_type, _SIMPLE)

    def _wrong_packet(self) -> CaptureError:
        return self.error(f"the block of {self._next_packet()} does not match its lengths")

    def _interface(self, block: bytes) -> _Interface:
        body = block[:-4]
        try:
            link_type, longest = struct.unpack_from(f"{self._order}HxxI", body, 8)
            options = dict(_options(body[_BEFORE_OPTIONS:], self._order))
            parts = options.get(_RESOLUTION, b"\x06")[0]
            (offset,) = struct.unpack(f"{self._order}q", options.get(_OFFSET, bytes(8)))
        except (struct.error, IndexError) as error:
            raise self.error("it has an invalid block of an interface") from error
        per_second = 2 ** (parts & 0x7F) if parts & 0x80 else 10**parts
        return _Interface(link_type, longest, per_second, offset, _comments(body[_BEFORE_OPTIONS:], self._order))
