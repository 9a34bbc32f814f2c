"""Captures by their bytes, written by hand from pcap-savefile(5) and the draft of pcapng."""

from __future__ import annotations

import struct

from bpfhost.captures.piece import Stamp

MICRO, NANO = 0xA1B2C3D4, 0xA1B23C4D
RAW_IP = 101
Record = tuple[bytes, Stamp]
RECORDS: list[Record] = [
    (b"first", Stamp(1_700_000_000, 123_456_000, 5)),
    (b"", Stamp(1, 0, 9)),
    (bytes(range(256)), Stamp(4_294_967_295, 999_999_000, 1500)),
]


def pcap(records: list[Record] = RECORDS, order: str = "<", magic: int = MICRO, link_type: int = 1) -> bytes:
    """A pcap file."""
    part = 1 if magic == NANO else 1000
    head = struct.pack(f"{order}IHHiIII", magic, 2, 4, 0, 0, 262_144, link_type)
    heads = (struct.pack(f"{order}IIII", s.seconds, s.nanoseconds // part, len(packet), s.length) for packet, s in records)
    return head + b"".join(head + packet for head, (packet, _) in zip(heads, records))


def block(kind: int, body: bytes, order: str) -> bytes:
    """A block of a pcapng file."""
    body += bytes(-len(body) % 4)
    length = struct.pack(f"{order}I", len(body) + 12)
    return struct.pack(f"{order}I", kind) + length + body + length


def comment(order: str, text: bytes) -> bytes:
    """A comment as an option."""
    return struct.pack(f"{order}HH", 1, len(text)) + text + bytes(-len(text) % 4)


def section(order: str, options: bytes = b"") -> bytes:
    """A section header."""
    return block(0x0A0D0D0A, struct.pack(f"{order}IHHq", 0x1A2B3C4D, 1, 0, -1) + options, order)


def interface(order: str, link_type: int = 1, options: bytes = b"", longest: int = 0) -> bytes:
    """An interface description."""
    return block(1, struct.pack(f"{order}HHI", link_type, 0, longest) + options, order)


def enhanced(order: str, packet: bytes, ticks: int, length: int, of: int = 0, kept: int | None = None, options: bytes = b"") -> bytes:
    """An enhanced packet block; `kept` is the packet's length that it states."""
    kept = len(packet) if kept is None else kept
    body = struct.pack(f"{order}5I", of, ticks >> 32, ticks & 0xFFFFFFFF, kept, length)
    return block(6, body + packet + (bytes(-len(packet) % 4) + options if options else b""), order)


def pcapng(records: list[Record] = RECORDS, order: str = "<") -> bytes:
    """A pcapng file with microseconds, the default resolution."""
    ticks = [stamp.seconds * 1_000_000 + stamp.nanoseconds // 1000 for _, stamp in records]
    blocks = (enhanced(order, packet, tick, stamp.length) for tick, (packet, stamp) in zip(ticks, records))
    return section(order) + interface(order) + b"".join(blocks)


def simple(order: str, packet: bytes, length: int) -> bytes:
    """A simple packet block."""
    return block(3, struct.pack(f"{order}I", length) + packet, order)


def old(order: str, packet: bytes, ticks: int, length: int, options: bytes = b"") -> bytes:
    """An obsolete packet block, of the first interface."""
    head = struct.pack(f"{order}HHIIII", 0, 7, ticks >> 32, ticks & 0xFFFFFFFF, len(packet), length)
    return block(2, head + packet + (bytes(-len(packet) % 4) + options if options else b""), order)
