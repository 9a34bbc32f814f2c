"""Forms that are changed at random, in instructions, origins and marks together: each one that the checker accepts is still the program."""

from __future__ import annotations

import random
from collections.abc import Callable
from dataclasses import dataclass, replace

from bpfhost.lowering import Lowered, WrongForm
from bpfhost.lowering.checker import check
from bpfhost.lowering.graph import EQUAL, INDEX, KNOWN, NEVER, ZERO, Origin
from bpfhost.lowering.instructions import Instruction, decoded
from bpfhost.objects import ObjectFile
from tests.lowering.common import LoweringTest, object_of
from tests.lowering.interpreter import Faulty, Machine, result_of
from tests.lowering.test_additions import COMPARED, COPIED, INNER, SCRATCH, SIGNED, SPILLED
from tests.lowering.test_checker import BACKWARD

MUTANTS, LEAST_ACCEPTED = 6000, 30
MARKS = (EQUAL, ZERO, INDEX, KNOWN, NEVER, "")
PACKETS = tuple(bytes((11 * at + size) % 256 for at in range(size)) for size in (0, 1, 5, 7, 9, 16, 31, 40, 64, 100))
# Legacy loads of the packet at a constant and at a computed place; and an operation of each atomic kind.
LOADS = """
    r6 = r1
    r7 = *(u32 *)(r1 + 0)
    r7 &= 15
    slot 2800000004000000
    r8 = r0
    slot 5070000000000000
    r8 += r0
    slot 3000000002000000
    r0 ^= r8
    exit"""
ATOMICS = """
    r7 = *(u32 *)(r1 + 0)
    *(u64 *)(r10 - 8) = r7
    *(u64 *)(r10 - 16) = 5
    r2 = 3
    slot db2af8ff01000000
    r3 = r2
    r4 = 77
    slot db4af0ffe1000000
    r3 += r4
    r0 = 77
    r5 = r7
    slot db5af0fff1000000
    r3 ^= r0
    r0 = *(u64 *)(r10 - 16)
    r0 ^= r3
    exit"""
ZEROS = "r6 = *(u32 *)(r1 + 0)\nr0 = *(u64 *)(r10 - 8)\nr1 = *(u64 *)(r10 - 16)\nr0 += r1\nr0 += r6\nexit"
LOOP = "r6 = *(u32 *)(r1 + 0)\nr0 = 0\nr7 = 0\nloop:\nr0 += r7\nif r0 == r6 goto end\nr7 += 1\nif r7 != 6 goto loop\nr0 += 9\nend:\nexit"
STORED = COPIED.format(mask=7, shift=2) + "r5 = 200\n*(u32 *)(r3 + 4) = r5\nr0 = *(u32 *)(r3 + 0)\nr0 ^= r7\nexit"
TEXTS = (LOADS, ATOMICS, ZEROS, LOOP, STORED, COMPARED, SPILLED, SIGNED, BACKWARD)


@dataclass(frozen=True)
class Part:
    """An instruction of a form with its origin, and the number of the part that it jumps to."""

    instruction: Instruction
    origin: Origin
    target: int | None = None


class Mutants:
    """Changes forms at random."""

    def __init__(self, chance: random.Random) -> None:
        self._chance = chance

    def changed(self, parts: list[Part]) -> list[Part]:
        """The parts after one to three changes."""
        ways: tuple[Callable[[list[Part], int], None], ...] = (self._bit, self._other, self._origin, self._mark, self._jump, self._added, self._swapped)
        for _ in range(self._chance.randint(1, 3)):
            self._chance.choice(ways)(parts, self._chance.randrange(len(parts) - 1))
        return parts

    def _bit(self, parts: list[Part], at: int) -> None:
        data = bytearray(parts[at].instruction.to_bytes())
        data[self._chance.choice((0, 1, 1, 2, 4))] ^= 1 << self._chance.randrange(8)
        found = Instruction.at(bytes(data) + bytes(8), 0)
        if found.slots == parts[at].instruction.slots and (found.is_goto or found.is_comparison) == (parts[at].target is not None):
            parts[at] = replace(parts[at], instruction=found)

    def _other(self, parts: list[Part], at: int) -> None:
        other = self._chance.choice(parts)
        parts[at] = other if self._chance.random() < 0.5 else replace(other, origin=parts[at].origin)

    def _origin(self, parts: list[Part], at: int) -> None:
        parts[at] = replace(parts[at], origin=self._chance.choice(parts).origin)

    def _mark(self, parts: list[Part], at: int) -> None:
        parts[at] = replace(parts[at], origin=parts[at].origin._replace(added=self._chance.choice(MARKS)))

    def _jump(self, parts: list[Part], at: int) -> None:
        if parts[at].target is not None:
            parts[at] = replace(parts[at], target=self._chance.randrange(at + 1, len(parts)))

    def _added(self, parts: list[Part], at: int) -> None:
        """A part more: a move, a store of 0, or a comparison, most often with the mark that fits."""
        chance = self._chance
        added = chance.choice((
            (Instruction(0xBF, chance.randrange(11), chance.randrange(11), 0, 0), EQUAL, None),
            (Instruction(0x7A, 10, 0, -8 * chance.randrange(1, 12), 0), ZERO, None),
            (Instruction(chance.choice((0x25, 0xA5, 0x15)), chance.randrange(11), 0, 0, chance.randrange(70)), chance.choice((INDEX, KNOWN)), at + 2),
        ))  # fmt: skip
        mark = added[1] if chance.random() < 0.9 else chance.choice(MARKS)
        parts[:] = [replace(each, target=each.target + (each.target > at)) if each.target is not None else each for each in parts]
        parts.insert(at, Part(added[0], parts[at].origin._replace(added=mark), added[2]))

    @staticmethod
    def _swapped(parts: list[Part], at: int) -> None:
        parts[at], parts[at + 1] = parts[at + 1], parts[at]


def parts_of(lowered: Lowered) -> list[Part]:
    """The parts of a form."""
    found = decoded(lowered.program.slots)
    numbers = {slot: number for number, slot in enumerate(found)}
    targets = {slot: numbers[slot + 1 + (each.distance() or 0)] for slot, each in found.items() if each.is_goto or each.is_comparison}
    return [Part(each, lowered.origins[slot], targets.get(slot)) for slot, each in found.items()]


def written(parts: list[Part]) -> tuple[bytes, tuple[Origin, ...]]:
    """The slots and the origins of parts."""
    starts, origins = [0], list[Origin]()
    for part in parts:
        starts.append(starts[-1] + part.instruction.slots)
        origins += [part.origin._replace(slot=part.origin.slot + half) for half in range(part.instruction.slots)]
    jumps = [
        each.instruction if each.target is None else each.instruction.jumping(starts[each.target] - starts[at] - 1) for at, each in enumerate(parts)
    ]
    return b"".join(each.to_bytes() for each in jumps), tuple(origins)


class Accepted(LoweringTest):
    def test_what_the_checker_accepts_is_the_program(self) -> None:
        chance = random.Random(92)
        subjects = [object_of(f=text) for text in TEXTS] + [object_of(f=SCRATCH, inner=INNER)]
        forms = [self.accepted(found) for found in subjects]
        parts = [parts_of(lowered) for lowered in forms]
        wanted = [[self.result(found, packet) for packet in PACKETS] for found in subjects]
        mutants, accepted = Mutants(chance), 0
        for _ in range(MUTANTS):
            number = chance.randrange(len(forms))
            lowered = forms[number]
            slots, origins = written(mutants.changed(parts[number].copy()))
            try:
                check(lowered.functions, lowered.frames, slots, origins)
            except WrongForm:
                continue
            accepted += slots != lowered.program.slots
            self.compare(lowered, slots, wanted[number])
        self.assertGreater(accepted, LEAST_ACCEPTED)

    @staticmethod
    def result(found: ObjectFile, packet: bytes) -> int | None:
        """The program's result; None if the run reads what it did not write."""
        try:
            return result_of(found, packet)
        except Faulty:
            return None

    def compare(self, lowered: Lowered, slots: bytes, wanted: list[int | None]) -> None:
        """The form with these slots returns the same for each packet."""
        for packet, result in zip(PACKETS, wanted):
            if result is not None:
                self.assertEqual(Machine((), packet).run(replace(lowered.program, slots=slots)), result, slots.hex())
