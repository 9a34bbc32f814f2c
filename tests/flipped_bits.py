#!/usr/bin/env python3
"""Flips each bit of each slot of some programs, one at a time, and runs the result. usage: flipped_bits.py BPFHOST

A new host loads each such program, for a tenant that has the program's map, next to a tenant with two maps of its own. The program is
rejected, or it runs to its end. In both cases the other tenant's maps do not change, and the tenant itself gets the replies that it gets
as the only tenant of a host.
"""

from __future__ import annotations

import sys
from collections.abc import Iterable, Sequence
from dataclasses import dataclass

sys.dont_write_bytecode = True

from common import DELETE, LOOK_UP, MAP, READS_INDEX, SECOND, calls_with_key, number, updates  # noqa: E402
from bpfhost import Errno, MapType, Reply, assemble, frames, read_replies, serve  # noqa: E402

FLIPPED, OTHER = 0, 1
PACKET = bytes([1, 2, 3, 4])
ONE = number(1, 4)
INDEX = number(0, 4)


def array_with(value: bytes) -> tuple[bytes, ...]:
    return (
        frames.map_create(FLIPPED, MapType.ARRAY, 4, 8, 1),
        frames.map_update_elem(FLIPPED, MAP, INDEX, value),
    )


@dataclass(frozen=True)
class Case:
    """A program, and the frames that make its map."""

    name: str
    text: str
    opening: tuple[bytes, ...] = ()


BYTE_OF_VALUE = f"""
r2 = 0
r3 = r10
r3 += -1
r4 = 1
call 26
r6 = *(u8 *)(r10 - 1)
*(u32 *)(r10 - 8) = 0
{calls_with_key(LOOK_UP, MAP, -8)}
if r0 == 0 goto none
if r6 > 7 goto none
r0 += r6
r0 = *(u8 *)(r0 + 0)
exit
none:
r0 = 9
exit
"""

WRITES_WHAT_IT_DELETED = f"""
*(u32 *)(r10 - 4) = 1
{calls_with_key(LOOK_UP, MAP)}
if r0 == 0 goto none
r6 = r0
{calls_with_key(DELETE, MAP)}
*(u32 *)(r10 - 4) = 2
*(u64 *)(r10 - 16) = 6
{updates(MAP)}
*(u64 *)(r6 + 0) = 7
exit
none:
r0 = 1
exit
"""

COUNTS_AND_KEEPS_GREATEST = f"""
r1 = *(u32 *)(r1 + 0)
r2 = map_value {MAP} + 0 ll
r3 = *(u32 *)(r2 + 0)
r3 += 1
*(u32 *)(r2 + 0) = r3
r2 = map_value {MAP} + 4 ll
r0 = *(u32 *)(r2 + 0)
if r0 >= r1 goto out
*(u32 *)(r2 + 0) = r1
out:
r0 += r3
exit
"""

ADDS_ATOMICALLY = f"""
r1 = map_value {MAP} + 0 ll
r2 = 2
lock *(u64 *)(r1 + 0) += r2
r0 = *(u64 *)(r1 + 0)
exit
"""

COPIES_PACKET = """
*(u32 *)(r10 - 8) = -1
r2 = 0
r3 = r10
r3 += -8
r4 = 4
call 26
r0 = *(u32 *)(r10 - 8)
exit
"""

TESTS_LENGTH = """
r1 = *(u32 *)(r1 + 0)
if r1 == 0 goto out
r0 = 1
exit
out:
r0 = 0
exit
"""

HASH_OF_ONE = (
    frames.map_create(FLIPPED, MapType.HASH, 4, 8, 1),
    frames.map_update_elem(FLIPPED, MAP, ONE, number(5, 8)),
)
CASES = [
    Case("a look-up", READS_INDEX, (frames.map_create(FLIPPED, MapType.ARRAY, 4, 8, 1),)),
    Case("a byte of a value", BYTE_OF_VALUE, array_with(bytes(range(10, 18)))),
    Case("a deleted value", WRITES_WHAT_IT_DELETED, HASH_OF_ONE),
    Case("a counter and a maximum", COUNTS_AND_KEEPS_GREATEST, array_with(number(2, 4) + number(3, 4))),
    Case("an atomic addition", ADDS_ATOMICALLY, array_with(number(5, 8))),
    Case("bytes of the packet", COPIES_PACKET),
    Case("the packet's length", TESTS_LENGTH),
]

OTHERS_OPENING = (
    frames.map_create(OTHER, MapType.ARRAY, 4, 8, 1),
    frames.map_update_elem(OTHER, MAP, INDEX, number(5, 8)),
    frames.map_create(OTHER, MapType.HASH, 4, 4, 2),
    frames.map_update_elem(OTHER, SECOND, ONE, number(1, 4)),
)
OTHERS_LOOK_UPS = (frames.map_lookup_elem(OTHER, MAP, INDEX), frames.map_lookup_elem(OTHER, SECOND, ONE))
OTHERS_STATUSES = [MAP, 0, SECOND, 0, 0, 0]
OTHERS_VALUES = [number(5, 8), number(1, 4)]


def replies(bpfhost: str, sent: Iterable[bytes]) -> list[Reply]:
    return list(read_replies(serve(bpfhost, 2, b"".join(sent))))


def of(tenant: int, told: Sequence[Reply]) -> list[Reply]:
    return [reply for reply in told if reply.tenant == tenant]


def play(bpfhost: str, case: Case, slots: bytes) -> tuple[str | None, bool]:
    """What is wrong with the replies, or None; and whether the program was accepted."""
    program = SECOND if case.opening else MAP
    load = frames.prog_load(FLIPPED, slots)
    run = frames.prog_test_run(FLIPPED, program, PACKET)
    ours = (*case.opening, load, run)
    told = replies(bpfhost, (*OTHERS_OPENING, *ours, *OTHERS_LOOK_UPS))
    others = of(OTHER, told)
    loaded, ran = of(FLIPPED, told)[-2:]
    accepted = loaded.status == program
    if [reply.status for reply in others] != OTHERS_STATUSES or [reply.payload for reply in others[-2:]] != OTHERS_VALUES:
        return "the other tenant's maps have changed", accepted
    if not accepted and not loaded.refusal():
        return f"the load is neither accepted nor refused: {loaded}", accepted
    if ran.status != (0 if accepted else -Errno.EBADF):
        return f"the run: {ran}", accepted
    if of(FLIPPED, told) != replies(bpfhost, ours):
        return "as the only tenant it gets other replies", accepted
    return None, accepted


def check(bpfhost: str, case: Case) -> None:
    slots = assemble(bpfhost, case.text)
    wrong, accepted = play(bpfhost, case, slots)
    if wrong or not accepted:
        sys.exit(f"flipped bits, {case.name} as it is: {wrong or 'refused'}")
    count = 0
    for bit in range(8 * len(slots)):
        flipped = bytearray(slots)
        flipped[bit // 8] ^= 1 << bit % 8
        wrong, accepted = play(bpfhost, case, bytes(flipped))
        if wrong:
            sys.exit(f"flipped bits, {case.name}, bit {bit % 64} of slot {bit // 64}: {wrong}")
        count += accepted
    print(f"{case.name}: {8 * len(slots)} programs, of which {count} are accepted", flush=True)


def main() -> None:
    for case in CASES:
        check(sys.argv[1], case)


if __name__ == "__main__":
    main()
