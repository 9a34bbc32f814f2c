"""The cost of a helper's call on a full hash map during a run: machine instructions, minus those of a move in its place."""

from __future__ import annotations

import struct
from dataclasses import dataclass

from map_costs.commands import DESCRIPTOR, VALUE_SIZE, filled, frame, shuffled
from map_costs.costs import Counts, scratch
from map_costs.hosts import Host
from map_costs.keys import Keys
from measure import Count
from programs import (
    ADD64_K,
    LOOK_UP,
    MOV64_K,
    MOV64_X,
    SLOTS,
    STORE_DOUBLE_K,
    STORE_WORD_K,
    UPDATE,
    WORDS,
    call,
    loads_map,
    returns,
    slot,
)
from streams import PROG_LOAD, PROG_TEST_RUN, SOCKET_FILTER

HELPERS = {"look-up": LOOK_UP, "update": UPDATE}
# Runs in the shorter of two streams, and the most calls of a program.
RUNS, MOST_CALLS = 10, 200
STACK = 512


@dataclass(frozen=True)
class Calls:
    """A program that calls a helper for each of these keys, which are in the map."""

    helper: int
    keys: Keys

    @property
    def key_at(self) -> int:
        """The offset of a key in the stack; there is room for a value above it, if one fits."""
        return -min(STACK, -(-len(self.keys[0]) // 8) * 8 + VALUE_SIZE)

    def arguments(self, key: bytes) -> list[bytes]:
        words = struct.unpack(f"<{len(key) // 4}i", key)
        stored = [slot(STORE_WORD_K, 10, off=self.key_at + 4 * at, imm=word) for at, word in enumerate(words)]
        given = [*stored, *loads_map(1, DESCRIPTOR), slot(MOV64_X, 2, 10), slot(ADD64_K, 2, imm=self.key_at)]
        if self.helper == UPDATE:
            given += [slot(MOV64_X, 3, 10), slot(ADD64_K, 3, imm=-VALUE_SIZE), slot(MOV64_K, 4)]
        return given

    def slots(self, is_called: bool) -> list[bytes]:
        """With the calls, or with a move in place of each."""
        found = [slot(STORE_DOUBLE_K, 10, off=-VALUE_SIZE, imm=7)]
        for key in self.keys:
            found += [*self.arguments(key), call(self.helper) if is_called else slot(MOV64_K)]
        return found + returns(0)

    def stream(self, keys: Keys, is_called: bool, runs: int) -> bytes:
        """These keys fill a map, and the program is run."""
        load = frame(PROG_LOAD, struct.pack("<I", SOCKET_FILTER) + b"".join(self.slots(is_called)))
        run = frame(PROG_TEST_RUN, struct.pack("<11I", DESCRIPTOR + 1, *WORDS))
        return filled(keys) + load + run * runs


def can_be_called(helper: str, key_size: int) -> bool:
    """The key and a value have to fit into the stack together."""
    return helper == "look-up" or key_size + VALUE_SIZE <= STACK


def calls_of(helper: str, keys: Keys) -> Calls:
    most = (SLOTS - 10) // (len(keys[0]) // 4 + 8)
    return Calls(HELPERS[helper], shuffled(keys, min(most, MOST_CALLS)))


def instructions(count: Count, host: Host, keys: Keys, helper: str) -> float:
    """Machine instructions per call. The start, the map and the load cancel out between the two lengths of a stream."""
    calls = calls_of(helper, keys)
    with scratch() as files:
        counts = Counts(count, files)
        of = {(is_called, runs): calls.stream(keys, is_called, runs) for is_called in (True, False) for runs in (RUNS, 2 * RUNS)}
        counts.look_at([(host, stream) for stream in of.values()])
        found = {key: counts.known[host, files.of(stream)] for key, stream in of.items()}
    with_calls, without = (found[is_called, 2 * RUNS] - found[is_called, RUNS] for is_called in (True, False))
    return (with_calls - without) / RUNS / len(calls.keys)
