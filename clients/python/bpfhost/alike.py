"""Frames or replies that follow each other and have the same length and header: they are processed together, not one by one.

A caller that sends many frames mostly sends such ones: test runs of packets of one length differ only in their bodies.
"""

from __future__ import annotations

import struct

from bpfhost.numbers import REPLY_HEAD, Command
from bpfhost.tenancy import BODY

# Fewer frames than `_LEAST` are processed one by one. At most `_AT_ONCE` are unpacked by one layout, since `struct` keeps layouts.
_LEAST, _FEW, _AT_ONCE = 8, 64, 256
# Commands that neither open nor close anything, and have short replies.
_SHORT = (Command.PROG_TEST_RUN, Command.MAP_UPDATE_ELEM, Command.MAP_DELETE_ELEM)
# In the frame of a test run, the length, tenant, command, descriptor and context come before the packet.
BEFORE_PACKET = 52


def fields_of(layout: str, stream: bytes | bytearray, size: int) -> list[bytes]:
    """The fields of all frames of this length, one frame after another, by the layout (`struct`) of each."""
    if (count := len(stream) // size) <= _AT_ONCE:
        return list(struct.unpack(layout * count, stream))
    found: list[bytes] = []
    for at in range(0, len(stream), _AT_ONCE * size):
        found += fields_of(layout, stream[at : at + _AT_ONCE * size], size)
    return found


def size_of_alike(stream: bytes | bytearray) -> int:
    """The length of each frame if all have the same header, with the length field; 0 if they differ or are few."""
    size = 4 + int.from_bytes(stream[:4], "little")
    if len(stream) < _LEAST * size or len(stream) % size or size < BODY:
        return 0
    count = len(stream) // size
    # Each frame begins after the end of the one before, as all lengths are that of the first frame. Up to `_FEW` frames are compared by
    # their heads, more of them by each byte of the heads.
    if count <= _FEW:
        heads = fields_of(f"{BODY}s{size - BODY}x", stream, size)
        return size if heads.count(heads[0]) == count else 0
    return size if all(stream[at::size] == stream[at : at + 1] * count for at in range(BODY)) else 0


def packed(stream: bytes, size: int) -> bytes:
    """Test runs of this length that differ only in their packets: what they have in common, and then the packets.

    Empty if the frames are others.
    """
    if size <= BEFORE_PACKET or int.from_bytes(stream[6:BODY], "little") != Command.PROG_TEST_RUN:
        return b""
    fields = fields_of(f"{BEFORE_PACKET}s{size - BEFORE_PACKET}s", stream, size)
    head = fields[0]
    return head + b"".join(fields[1::2]) if 2 * fields[::2].count(head) == len(fields) else b""


def looked_at(stream: bytes) -> tuple[int, bytes]:
    """The length of each frame if they are alike (`size_of_alike`), and the frames as they are packed, if they are test runs."""
    size = 4 + int.from_bytes(stream[:4], "little")
    # What can be packed is alike, so nothing else is compared.
    if len(stream) >= _LEAST * size and not len(stream) % size and (runs := packed(stream, size)):
        return size, runs
    return size_of_alike(stream), b""


def unpacked(runs: bytes) -> bytes:
    """The test runs that were packed."""
    head, size = runs[:BEFORE_PACKET], size_of_packet(runs)
    return b"".join([head + packet for packet in fields_of(f"{size}s", runs[BEFORE_PACKET:], size)])


def size_of_packet(runs: bytes) -> int:
    """The length of each packet of packed test runs."""
    return 4 + int.from_bytes(runs[:4], "little") - BEFORE_PACKET


def is_short(stream: bytes) -> bool:
    """Whether frames that are alike have a command that opens and closes nothing, and whose replies are a header and a few bytes."""
    return int.from_bytes(stream[6:8], "little") in _SHORT


def with_tenant_in_place(stream: bytearray, size: int, tenant: int) -> None:
    """Writes a tenant's number into frames or replies of one length."""
    count = len(stream) // size
    stream[4::size] = bytes([tenant & 0xFF]) * count
    stream[5::size] = bytes([tenant >> 8]) * count


def statuses_are_zero(replies: bytes | bytearray, size: int) -> bool:
    """Whether all replies, which have one length, report success."""
    return all(not any(replies[at::size]) for at in range(BODY, REPLY_HEAD))
