#!/usr/bin/env python3
"""Writes a stream for each command of the bench `embed` into a folder; its last frame is the command.

usage: embed.py FOLDER
"""

import pathlib
import struct
import sys

from programs import HASH, Program, empty, parser
from streams import FIRST, MAP_CREATE, frame, runs_of

MAP_LOOKUP, MAP_UPDATE = 1, 2
# The shortest packet that the kernel runs a program on, and the longest of Ethernet.
ETHERNET_HEADER, LONG_PACKET = 14, 1500


def look_up() -> bytes:
    """A hash map with a key of four bytes and a value of eight."""
    key, value = b"key1", b"value001"
    return (
        frame(MAP_CREATE, struct.pack("<5I", HASH, len(key), len(value), 16, 0))
        + frame(MAP_UPDATE, struct.pack("<IQ", FIRST, 0) + key + value)
        + frame(MAP_LOOKUP, struct.pack("<I", FIRST) + key)
    )


def main() -> None:
    folder = pathlib.Path(sys.argv[1])
    program = parser()
    streams = {
        "empty program": runs_of(Program(empty().slots, packet=bytes(ETHERNET_HEADER)), 1),
        "parser, 1,500 bytes": runs_of(Program(program.slots, packet=program.packet.ljust(LONG_PACKET, b"\0")), 1),
        "look-up": look_up(),
    }
    for name, stream in streams.items():
        (folder / name).write_bytes(stream)


if __name__ == "__main__":
    main()
