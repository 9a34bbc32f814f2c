#!/usr/bin/env python3
"""Counts the machine instructions that a call of a helper takes. bench/README.md explains the output.

usage: calls.py BPFHOST [PLAIN]
"""

from __future__ import annotations

import sys
import tempfile
from collections.abc import Iterator
from dataclasses import dataclass

from measure import SERVE, Count, Host, Streams, count_of, counter
from programs import (
    ADD64_K,
    ARRAY,
    DELETE,
    HASH,
    LOAD_BYTES,
    LOOK_UP,
    MOV64_K,
    MOV64_X,
    STORE_DOUBLE_K,
    STORE_WORD_K,
    UPDATE,
    Program,
    call,
    loads_map,
    returns,
    slot,
)
from streams import runs_of

# Calls in a program, with so many different keys; and runs of it in the shorter of two streams.
CALLS, KEYS, RUNS = 240, 16, 10
# The offsets of the key and the value in the stack.
KEY, VALUE, LONGEST_KEY = -64, -72, 64
MAP = 3
Slots = list[bytes]


def pointer(register: int, off: int) -> Slots:
    """An address in the stack."""
    return [slot(MOV64_X, register, 10), slot(ADD64_K, register, imm=off)]


def stack() -> Slots:
    """A key of zero bytes, and the value 7."""
    zeros = [slot(STORE_DOUBLE_K, 10, off=off) for off in range(KEY, KEY + LONGEST_KEY, 8)]
    return [slot(STORE_DOUBLE_K, 10, off=VALUE, imm=7), *zeros]


def key(number: int) -> Slots:
    """Sets another key by its first four bytes, the map and the key's address."""
    return [slot(STORE_WORD_K, 10, off=KEY, imm=number % KEYS), *loads_map(1, MAP), *pointer(2, KEY)]


def puts(number: int) -> Slots:
    """The arguments of an update."""
    return [*key(number), *pointer(3, VALUE), slot(MOV64_K, 4)]


def bytes_of_packet(length: int, number: int) -> Slots:
    return [slot(MOV64_X, 1, 6), slot(MOV64_K, 2, imm=number % 8), *pointer(3, KEY), slot(MOV64_K, 4, imm=length)]


@dataclass(frozen=True)
class Case:
    """Calls of helpers one after another, on a map or on bytes of the packet."""

    name: str
    helpers: tuple[int, ...]
    # Kind and size of a key, or none; how many bytes of the packet.
    kind: int = 0
    key_size: int = 4
    length: int = 0

    def arguments(self, helper: int, number: int) -> Slots:
        if helper == LOAD_BYTES:
            return bytes_of_packet(self.length, number)
        return puts(number) if helper == UPDATE else key(number)

    def begin(self) -> Iterator[bytes]:
        """The context in register 6, the key and the value; for a lookup in a hash map, the keys."""
        yield slot(MOV64_X, 6, 1)
        yield from stack()
        if self.kind == HASH and DELETE not in self.helpers:
            for number in range(KEYS):
                yield from (*puts(number), call(UPDATE))

    def program(self, calls: bool) -> Program:
        """With the calls, or with a move in place of each."""
        slots = list(self.begin())
        for number in range(CALLS):
            for helper in self.helpers:
                slots += self.arguments(helper, number)
                slots.append(call(helper) if calls else slot(MOV64_K))
        maps = [(self.kind, self.key_size, 8, 4 * CALLS)] if self.kind else []
        return Program(slots + returns(0), maps=maps, packet=bytes(range(100)))


CASES = (
    Case("load of 4 bytes", (LOAD_BYTES,), length=4),
    Case("load of 20 bytes", (LOAD_BYTES,), length=20),
    Case("load of 64 bytes", (LOAD_BYTES,), length=64),
    Case("look-up, array", (LOOK_UP,), ARRAY),
    *(Case(f"look-up, hash, key of {size}", (LOOK_UP,), HASH, size) for size in (4, 8, 16, 64)),
    Case("update, array", (UPDATE,), ARRAY),
    *(Case(f"update, hash, key of {size}", (UPDATE,), HASH, size) for size in (4, 64)),
    *(Case(f"update and delete, key of {size}", (UPDATE, DELETE), HASH, size) for size in (4, 64)),
)


def counted(count: Count, streams: Streams, host: Host, programs: tuple[Program, Program]) -> float:
    """Machine instructions per call, minus those of the move in its place. Start and load cancel out between the two lengths."""
    with_calls, without = (
        count_of(count, host, streams.of(runs_of, program, 2 * RUNS)) - count_of(count, host, streams.of(runs_of, program, RUNS))
        for program in programs
    )
    return (with_calls - without) / RUNS / CALLS


def main() -> None:
    if len(sys.argv) not in (2, 3):
        sys.exit(__doc__)
    _, count = counter()
    if not count:
        print("calls: skipped, as neither perf nor valgrind counts here")
        return
    hosts = [Host("bpfhost", [sys.argv[1], *SERVE]), *(Host("C", [plain]) for plain in sys.argv[2:])]
    print(f"{'machine instructions a call':30}" + "".join(f"{host.name:>10}" for host in hosts))
    for case in CASES:
        with tempfile.TemporaryDirectory() as folder:
            streams, programs = Streams(folder), (case.program(True), case.program(False))
            # the plain interpreter has no delete
            able = [host for host in hosts if host.name != "C" or DELETE not in case.helpers]
            told = "".join(f"{counted(count, streams, host, programs):>10.0f}" for host in able)
            print(f"{case.name:30}{told}", flush=True)


if __name__ == "__main__":
    main()
