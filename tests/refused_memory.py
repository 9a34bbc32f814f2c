#!/usr/bin/env python3
"""Refuses memory to a built bpfhost, one call at a time, and compares its replies; also to a built verifier_log if one is named.
usage: refused_memory.py BPFHOST LIBRARY [VERIFIER_LOG]

The first call for memory is refused, in another run the second, and so on until a run makes fewer calls. A refusal has to be reported,
once, as out of memory, by a new map or a load, and nothing else may differ: a refused command that is sent again gets the reply that it
gets without the refusal, and the other tenant gets the same replies throughout.
"""

from __future__ import annotations

import itertools
import sys
import tempfile
from collections.abc import Sequence
from dataclasses import dataclass

sys.dont_write_bytecode = True

from common import MAP, READS_INDEX, SECOND, THIRD, number, updates  # noqa: E402
from refusals import Ended, Refusals, ends  # noqa: E402
from bpfhost import Errno, Host, HostError, MapType, Reply, Update, assemble, frames, hex_lines  # noqa: E402

PROGRAM = SECOND
TENANTS = 2
WANT_OF_MEMORY = 4

# Sets the value 6 under key 1 of a hash map, and returns the helper's result.
PUTS_KEY = f"""
*(u32 *)(r10 - 4) = 1
*(u64 *)(r10 - 16) = 6
{updates(MAP)}
exit
"""

# Adds 1 to index 0 of an array of one element, and returns the value.
COUNTS = f"""
r1 = map_value {MAP} + 0 ll
r0 = *(u64 *)(r1 + 0)
r0 += 1
*(u64 *)(r1 + 0) = r0
exit
"""

# Its result is missing if the jump is taken.
MISSES_RESULT = """
r2 = *(u32 *)(r1 + 0)
if r2 == 0 goto +1
r0 = 1
exit
"""

MAP_ARGUMENT = "3:array:4:8:1"


class Differs(Exception):
    """A reply that no refusal explains."""


@dataclass(frozen=True)
class Step:
    """A frame, and whether memory may be refused to it."""

    frame: bytes
    grows: bool = False


def new_map(tenant: int, kind: MapType, key_size: int, value_size: int, most: int) -> Step:
    return Step(frames.map_create(tenant, kind, key_size, value_size, most), grows=kind == MapType.HASH)


def load(tenant: int, slots: bytes) -> Step:
    return Step(frames.prog_load(tenant, slots), grows=True)


def on_long_keys(tenant: int, fd: int, key_size: int) -> list[Step]:
    """A hash map of longer keys, which is filled, and then gets another key in place of one."""
    keys = [bytes([first]) * key_size for first in range(3)]
    return [
        new_map(tenant, MapType.HASH, key_size, 8, 2),
        *[Step(frames.map_update_elem(tenant, fd, key, key[:8])) for key in keys[:2]],
        Step(frames.map_delete_elem(tenant, fd, keys[0])),
        Step(frames.map_update_elem(tenant, fd, keys[2], keys[2][:8])),
        Step(frames.map_get_next_key(tenant, fd, keys[1])),
        Step(frames.close(tenant, fd)),
    ]


def of_first_tenant(slots: bytes) -> list[Step]:
    """A hash map, a program that adds a key to it, each command on the map, and maps of longer keys."""
    key, other, value = number(1, 4), number(2, 4), number(8, 8)
    return [
        new_map(0, MapType.HASH, 4, 8, 4),
        load(0, slots),
        Step(frames.prog_test_run(0, PROGRAM)),
        Step(frames.map_lookup_elem(0, MAP, key)),
        Step(frames.map_update_elem(0, MAP, other, value)),
        Step(frames.map_update_elem(0, MAP, other, value, Update.EXIST)),
        Step(frames.map_update_elem(0, MAP, key, value)),
        Step(frames.map_get_next_key(0, MAP)),
        Step(frames.map_get_next_key(0, MAP, key)),
        Step(frames.map_delete_elem(0, MAP, key)),
        new_map(0, MapType.ARRAY, 4, 16, 3),
        Step(frames.map_update_elem(0, THIRD, number(2, 4), bytes(range(16)))),
        Step(frames.map_lookup_elem(0, THIRD, number(2, 4))),
        *on_long_keys(0, THIRD + 1, 16),
        *on_long_keys(0, THIRD + 1, 512),
        *[Step(frames.close(0, descriptor)) for descriptor in (PROGRAM, MAP, THIRD)],
    ]


def of_second_tenant(slots: bytes, direct: bytes) -> list[Step]:
    """An array, a program that reads it, and one that counts in it by a direct load."""
    return [
        new_map(1, MapType.ARRAY, 4, 8, 1),
        Step(frames.map_update_elem(1, MAP, number(0, 4), number(5, 8))),
        load(1, slots),
        Step(frames.prog_test_run(1, PROGRAM)),
        Step(frames.map_lookup_elem(1, MAP, number(0, 4))),
        load(1, direct),
        Step(frames.prog_test_run(1, THIRD)),
        Step(frames.prog_test_run(1, PROGRAM)),
        Step(frames.close(1, MAP)),
        Step(frames.prog_test_run(1, PROGRAM)),
        *on_long_keys(1, MAP, 64),
        *on_long_keys(1, MAP, 65),
        Step(frames.close(1, PROGRAM)),
        Step(frames.prog_test_run(1, THIRD)),
    ]


def in_turn(ours: list[Step], theirs: list[Step]) -> list[Step]:
    return [step for both in itertools.zip_longest(ours, theirs) for step in both if step]


def ask_again(host: Host, step: Step, reply: Reply, wanted: Reply) -> None:
    """Only a command that may have been refused memory differs, by -12 and no payload; it succeeds when it is sent again."""
    if not step.grows or reply.status != -Errno.ENOMEM or reply.payload:
        raise Differs(f"{reply}, in place of {wanted}")
    second = host.ask(step.frame)
    if second != wanted:
        raise Differs(f"sent again, {second}, in place of {wanted}")


def play(bpfhost: str, steps: Sequence[Step], wanted: Sequence[Reply]) -> list[int] | None:
    """The steps that were refused memory; None if the host exited for lack of memory before any reply."""
    at = 0
    told: list[int] = []
    try:
        with Host(bpfhost, TENANTS) as host:
            for at, (step, answer) in enumerate(zip(steps, wanted)):
                reply = host.ask(step.frame)
                if reply != answer:
                    ask_again(host, step, reply, answer)
                    told.append(at)
    except HostError as error:
        if at or told or error.fault != "out of memory" or error.written:
            raise Differs(f"{error}, after {at} replies") from error
        return None
    return told


def check_frames(bpfhost: str, refusals: Refusals, steps: Sequence[Step], wanted: Sequence[Reply]) -> None:
    """The reply to each frame, whichever call for memory is refused; each new hash map and each load is refused some."""
    at_start = 0
    in_frames: list[int] = []
    for call in refusals.runs():
        try:
            told = play(bpfhost, steps, wanted)
        except Differs as error:
            raise Differs(f"serve, call {call} refused: {error}") from error
        if told is None:
            at_start += 1
        elif len(told) == 1:
            in_frames += told
        elif told or refusals.refused():
            raise Differs(f"serve, call {call} refused: {len(told)} refusals reported")
    if not at_start or len(in_frames) != call - 1 - at_start:
        raise Differs(f"serve, {call - 1} calls refused: {at_start} reported at the start, {len(in_frames)} in frames")
    if unseen := [at for at, step in enumerate(steps) if step.grows and at not in in_frames]:
        raise Differs(f"serve: nothing was refused to the frames {unseen}")
    print(f"serve: {at_start} refusals before the first frame, {len(in_frames)} in {len(set(in_frames))} new maps and loads")


def check_words(program: str, refusals: Refusals, name: str, words: Sequence[str], given: bytes, wanted: Ended) -> None:
    """One run of the program for each call for memory: if refused, it writes one line to standard error, and exits with status 4."""
    told = 0
    for call in refusals.runs():
        ended = ends(program, words, given)
        if refusals.refused() and ended == (WANT_OF_MEMORY, b"", b"out of memory\n"):
            told += 1
        elif refusals.refused() or ended != wanted:
            raise Differs(f"{name}, call {call}: {ended}")
    if not told or told != call - 1:
        raise Differs(f"{name}, {call - 1} calls refused: {told} reported")
    print(f"{name}: {told} refusals")


def logs(lines: bytes) -> list[tuple[str, list[str], bytes, int]]:
    """Runs of verifier_log, with their statuses: on a program that is accepted, and on one that reads a register which one path does not set;
    for it the pass over the program is repeated.
    """
    return [
        ("log", [MAP_ARGUMENT], lines, 0),
        ("log --dot", ["--dot", MAP_ARGUMENT], lines, 0),
        ("log of a refused program", [], MISSES_RESULT.encode(), 1),
    ]


def main() -> None:
    bpfhost, library, *verifier_log = sys.argv[1:]
    puts, reads, counts = (assemble(bpfhost, text) for text in (PUTS_KEY, READS_INDEX, COUNTS))
    steps = in_turn(of_first_tenant(puts), of_second_tenant(reads, counts))
    with Host(bpfhost, TENANTS) as host:
        wanted = [host.ask(step.frame) for step in steps]
    if any(reply.status < 0 for reply in wanted):
        raise Differs("a reply is an error though no memory is refused")
    lines = hex_lines(reads).encode()
    runs = [
        (bpfhost, "asm", ["asm"], READS_INDEX.encode(), 0),
        (bpfhost, "dis", ["dis"], lines, 0),
        (bpfhost, "verify", ["verify", MAP_ARGUMENT], lines, 0),
        *((program, *run) for program in verifier_log for run in logs(lines)),
    ]
    answers = [ends(program, words, given) for program, _, words, given, _ in runs]
    for (_, name, _, _, status), answer in zip(runs, answers):
        if answer[0] != status:
            raise Differs(f"{name} fails though no memory is refused")
    with tempfile.TemporaryDirectory() as folder:
        refusals = Refusals(library, folder)
        check_frames(bpfhost, refusals, steps, wanted)
        for (program, name, words, given, _), answer in zip(runs, answers):
            check_words(program, refusals, name, words, given, answer)


if __name__ == "__main__":
    try:
        main()
    except Differs as error:
        sys.exit(f"refused memory: {error}")
