#!/usr/bin/env python3
"""Writes a capture in other forms, and damaged, each to a file in a folder. usage: captures.py CAPTURE FOLDER

The capture is a little-endian pcap file with microseconds. The other forms are big-endian, with nanoseconds, and both.
"""

from __future__ import annotations

import struct
import sys
from collections.abc import Iterator
from pathlib import Path

HEADER, HEAD = "IHHiIII", "IIII"
MICROSECONDS, NANOSECONDS = 0xA1B2C3D4, 0xA1B23C4D
LONGEST_PACKET = 65536
# The index of the packet that is damaged.
DAMAGED = 100


def packets(capture: bytes) -> Iterator[tuple[tuple[int, ...], bytes]]:
    """The numbers before each packet, and the packet."""
    at = struct.calcsize("<" + HEADER)
    while at < len(capture):
        head = struct.unpack_from("<" + HEAD, capture, at)
        at += struct.calcsize("<" + HEAD)
        yield head, capture[at : at + head[2]]
        at += head[2]


def written(capture: bytes, order: str, magic: int) -> bytes:
    """The same packets in a byte order, with another resolution of their timestamps."""
    per_microsecond = 1000 if magic == NANOSECONDS else 1
    numbers = struct.unpack_from("<" + HEADER, capture)
    found = [struct.pack(order + HEADER, magic, *numbers[1:])]
    for (seconds, part, length, whole), packet in packets(capture):
        found += [struct.pack(order + HEAD, seconds, part * per_microsecond, length, whole), packet]
    return b"".join(found)


def damaged(capture: bytes) -> dict[str, bytes]:
    """Captures that are not whole, by the names of the files."""
    header, head = struct.calcsize("<" + HEADER), struct.calcsize("<" + HEAD)
    before = header + sum(head + len(packet) for _, packet in list(packets(capture))[:DAMAGED])
    return {
        "empty": b"",
        "text": b"no capture, but a line of text\n",
        "pcapng": struct.pack("<IIIHHqI", 0x0A0D0D0A, 28, 0x1A2B3C4D, 1, 0, -1, 28),
        "version": struct.pack("<IHH", MICROSECONDS, 3, 0) + capture[8:],
        "cut_in_header": capture[: header - 1],
        "no_packets": capture[:header],
        "cut_in_head": capture[: before + head - 1],
        "cut_behind_head": capture[: before + head],
        "cut_in_packet": capture[: before + head + 1],
        "too_long": capture[:before] + struct.pack("<" + HEAD, 0, 0, LONGEST_PACKET + 1, LONGEST_PACKET + 1) + bytes(LONGEST_PACKET + 1),
        "longest": capture[:before] + struct.pack("<" + HEAD, 0, 0, LONGEST_PACKET, LONGEST_PACKET) + bytes(LONGEST_PACKET),
    }


def main() -> None:
    """Writes the files."""
    if len(sys.argv) != 3:
        sys.exit("usage: captures.py CAPTURE FOLDER")
    capture, folder = Path(sys.argv[1]).read_bytes(), Path(sys.argv[2])
    if written(capture, "<", MICROSECONDS) != capture:
        sys.exit(f"{sys.argv[1]}: it is not what is read here of a capture")
    forms = {f"{name}_{part}": written(capture, order, magic)
             for name, order in (("little", "<"), ("big", ">"))
             for part, magic in (("microseconds", MICROSECONDS), ("nanoseconds", NANOSECONDS))}
    for name, content in (forms | damaged(capture)).items():
        (folder / f"{name}.pcap").write_bytes(content)


if __name__ == "__main__":
    main()
