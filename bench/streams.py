#!/usr/bin/env python3
"""Streams of command frames for the benchmark programs (docs/PROTOCOL.md).

usage: streams.py run PROGRAM RUNS     loads a program with its maps, and test-runs it so many times
       streams.py load PROGRAM LOADS   loads and closes a program with its maps so many times
"""

from __future__ import annotations

import struct
import sys

from programs import LOADED, RUN, Program

MAP_CREATE, MAP_UPDATE_ELEM, PROG_LOAD, PROG_TEST_RUN, CLOSE = 0, 2, 5, 10, 256
SOCKET_FILTER, FIRST = 1, 3


def frame(command: int, body: bytes) -> bytes:
    return struct.pack("<IHH", 4 + len(body), 0, command) + body


def load(program: Program) -> bytes:
    return frame(PROG_LOAD, struct.pack("<I", SOCKET_FILTER) + b"".join(program.slots))


def creates(program: Program) -> list[bytes]:
    """Creates the program's maps."""
    return [frame(MAP_CREATE, struct.pack("<5I", *shape, 0)) for shape in program.maps]


def updates(program: Program) -> list[bytes]:
    """Puts the program's values under key 0 of their maps."""
    keys = {number: bytes(program.maps[number][1]) for number in program.values}
    return [frame(MAP_UPDATE_ELEM, struct.pack("<IQ", FIRST + at, 0) + keys[at] + value) for at, value in program.values.items()]


def run(program: Program) -> bytes:
    descriptor = FIRST + len(program.maps)
    return frame(PROG_TEST_RUN, struct.pack("<11I", descriptor, *program.context) + program.packet)


def before_runs(program: Program) -> bytes:
    return b"".join([*creates(program), *updates(program), load(program)])


def runs_of(program: Program, runs: int) -> bytes:
    return before_runs(program) + run(program) * runs


def loads_of(program: Program, loads: int) -> bytes:
    maps = creates(program)
    return b"".join(maps) + (load(program) + frame(CLOSE, struct.pack("<I", FIRST + len(maps)))) * loads


def main() -> None:
    kind, name, count = sys.argv[1], sys.argv[2], int(sys.argv[3])
    stream = runs_of(RUN[name](), count) if kind == "run" else loads_of({**RUN, **LOADED}[name](), count)
    sys.stdout.buffer.write(stream)


if __name__ == "__main__":
    main()
