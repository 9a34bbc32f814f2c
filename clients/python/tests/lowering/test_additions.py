"""What is added to a form: moves after comparisons, zeros at the start, trees of comparisons; on random numbers, and what the checker rejects."""

from __future__ import annotations

import random
from dataclasses import replace

from bpfhost import Host
from bpfhost.lowering import Lowered, WrongForm
from bpfhost.lowering.checker import check
from bpfhost.lowering.graph import EQUAL, INDEX, KNOWN, NEVER, ZERO, Origin
from bpfhost.lowering.instructions import Instruction, decoded
from bpfhost.numbers import MapType
from bpfhost.objects import MapSlot, ObjectFile, ObjectMap, ObjectProgram
from tests.common import PROGRAM
from tests.lowering.common import LoweringTest, object_of, only
from tests.lowering.interpreter import Faulty, result_of

PACKETS = tuple(bytes((11 * at + size) % 256 for at in range(size)) for size in (0, 1, 5, 16, 31, 40, 64, 100))
WRONG = 300

# 64 bytes of the packet on the stack, and the byte, half or word at an index that the packet's length gives.
COPIED = """
    r6 = *(u32 *)(r1 + 0)
    r2 = 0
    r3 = r10
    r3 += -64
    r4 = 64
    call 26
    r7 = r6
    r7 &= {mask}
    r7 <<= {shift}
    r3 = r10
    r3 += -64
    r3 += r7
"""
LOADS = ("r0 = *(u8 *)(r3 + 0)\nexit", "r0 = *(u8 *)(r3 + 1)\nr0 += r7\nexit")
COMPARED = """
    r6 = *(u32 *)(r1 + 0)
    w2 = w6
    w2 &= 255
    r0 = 1
    if w2 > 63 goto end
    r6 &= 255
    r3 = r10
    r3 += -64
    r4 = r6
    r4 += 1
    r2 = 0
    call 26
    r0 = *(u8 *)(r10 - 64)
end:
    exit"""

# The length of what a helper copies comes from the stack, and from signed comparisons.
SPILLED = """
    r6 = *(u32 *)(r1 + 0)
    r6 &= 31
    r6 += 1
    *(u64 *)(r10 - 80) = r6
    *(u64 *)(r10 - 64) = 0
    r2 = 0
    r3 = r10
    r3 += -64
    r4 = *(u64 *)(r10 - 80)
    call 26
    r0 = *(u8 *)(r10 - 64)
    r1 = *(u64 *)(r10 - 80)
    r0 += r1
    exit"""
SIGNED = """
    r6 = *(u32 *)(r1 + 0)
    w7 = w6
    w7 += -20
    w0 = 1
    if w7 s< 1 goto end
    w0 = 2
    if w7 s> 32 goto end
    *(u64 *)(r10 - 64) = 0
    r2 = 0
    r3 = r10
    r3 += -64
    r4 = r7
    call 26
    r0 = *(u8 *)(r10 - 64)
    r0 += r7
end:
    exit"""


def with_map(text: str) -> ObjectFile:
    """An object whose program loads its one map at the wide loads of 0."""
    declared = ObjectMap("counts", MapType.HASH, 8, 8, 16, None, None, None)
    found = object_of((declared,), f=text)
    program = only(found)
    slots = bytearray(program.slots)
    loads = [slot for slot, each in decoded(program.slots).items() if each.opcode == 0x18 and not each.constant]
    for slot in loads:
        slots[8 * slot + 1] |= 0x10
    map_slots = tuple(MapSlot(slot, 0) for slot in loads)
    return replace(found, programs=(replace(program, slots=bytes(slots), map_slots=map_slots),))


class AdditionsTest(LoweringTest):
    def changed(self, found: ObjectFile, step: str, packets: tuple[bytes, ...] = PACKETS) -> Lowered:
        """The form is accepted, has this step, and returns what the program returns."""
        lowered = self.accepted(found)
        text = self.text(lowered)
        self.assertIn(step, lowered.steps, text)
        with Host(PROGRAM) as host:
            tenant = host.tenant()
            descriptor = tenant.prog_load(lowered.program.slots)
            for packet in packets:
                try:
                    wanted = result_of(found, packet)
                except Faulty:
                    continue
                self.assertEqual(tenant.prog_test_run(descriptor, packet), wanted, (packet, text))
        return lowered


class Trees(AdditionsTest):
    def test_index(self) -> None:
        """Loads and stores of each size, at each index."""
        packets = tuple(bytes(range(1, size + 1)) for size in range(64, 130))
        for size, shift, mask in (("u8", 0, 31), ("u16", 1, 15), ("u32", 2, 15), ("u64", 3, 7)):
            for access in (
                f"r0 = *({size} *)(r3 + 0)",
                f"*({size} *)(r3 + 0) = 77\nr0 = *(u64 *)(r10 - 64)",
                f"r3 += 8\n*({size} *)(r3 - 8) = r6\nr0 = *(u64 *)(r10 - 48)",
                f"r8 = r3\nr1 = *({size} *)(r3 + 0)\nr1 += 1\n*({size} *)(r8 + 0) = r1\nr0 = *(u64 *)(r10 - 56)",
            ):
                with self.subTest(size=size, access=access):
                    found = object_of(f=COPIED.format(mask=mask, shift=shift) + access + "\nexit")
                    self.changed(found, INDEX, packets)

    def test_an_index_on_the_other_side(self) -> None:
        text = COPIED.format(mask=15, shift=0).replace("r3 += r7\n", "r7 += r3\nr3 = r7\n")
        lowered = self.changed(object_of(f=text + LOADS[0]), INDEX)
        self.assertIn(
            "1 access to the stack with an index is comparisons of the index, with an access for each of its numbers", lowered.changes
        )

    def test_a_range_of_comparisons(self) -> None:
        text = COPIED.format(mask=63, shift=0).replace("r7 <<= 0\n", "r0 = 5\nif r7 < 9 goto end\nif r7 > 20 goto end\n")
        self.changed(object_of(f=text + LOADS[0] + "\nend:\nexit"), INDEX)

    def test_what_is_no_tree(self) -> None:
        for text in (
            # Too many numbers; a pointer that a helper gets; one that is compared; a misaligned word.
            COPIED.format(mask=255, shift=0) + LOADS[0],
            COPIED.format(mask=7, shift=0) + "r1 = r3\nr0 = 1\ncall 1\nr0 = 1\nexit",
            COPIED.format(mask=7, shift=0) + "r0 = 1\nif r3 == 0 goto +1\nr0 = 2\nexit",
            COPIED.format(mask=7, shift=0) + "r0 = *(u32 *)(r3 + 0)\nexit",
        ):
            self.assertEqual(self.lowered(object_of(f=text)).refused, (11, 23), text)


class Moves(AdditionsTest):
    def test_equal(self) -> None:
        lowered = self.changed(object_of(f=COMPARED), EQUAL, tuple(bytes(size) for size in (0, 20, 63, 64, 200, 256, 300)))
        self.assertIn("1 move follows a comparison, to a register that holds the same number", lowered.changes)

    def test_a_copy_on_an_edge(self) -> None:
        text = """
            r7 = *(u32 *)(r1 + 0)
            r6 = r1
            r8 = r7
            r0 = 3
            if r8 > 40 goto end
            if r8 == 0 goto end
            r1 = r6
            r2 = 0
            r3 = r10
            r3 += -64
            r4 = r7
            call 26
            r0 = *(u8 *)(r10 - 64)
        end:
            exit"""
        self.changed(object_of(f=text), EQUAL)


class Zeros(AdditionsTest):
    def test_zeros(self) -> None:
        text = "r6 = *(u32 *)(r1 + 0)\nif r6 > 9 goto +1\n*(u64 *)(r10 - 8) = 7\nr0 = *(u64 *)(r10 - 8)\nr1 = *(u8 *)(r10 - 20)\nr0 += r1\nexit"
        lowered = self.accepted(object_of(f=text))
        self.assertEqual(lowered.steps, (ZERO,))
        self.assertEqual(lowered.changes, ("2 words of the stack with bytes that are read before they are written begin as 0",))
        self.assertTrue(self.text(lowered).startswith("*(u64 *)(r10 - 24) = 0\n*(u64 *)(r10 - 8) = 0\nr6 = "))
        with Host(PROGRAM) as host:
            tenant = host.tenant()
            descriptor = tenant.prog_load(lowered.program.slots)
            self.assertEqual([tenant.prog_test_run(descriptor, bytes(size)) for size in (3, 10)], [7, 0])

    def test_the_padding_of_a_key(self) -> None:
        text = """
            *(u32 *)(r10 - 8) = 5
            *(u16 *)(r10 - 4) = 6
            r2 = r10
            r2 += -8
            r3 = r10
            r3 += -16
            r4 = 0
            r1 = 0 ll
            call 2
            exit"""
        lowered = self.accepted(with_map(text))
        self.assertEqual(lowered.steps, (ZERO,))
        self.assertIn("2 words", lowered.changes[0])


class KnownNumbers(AdditionsTest):
    def test_a_number_from_the_stack(self) -> None:
        lowered = self.changed(object_of(f=SPILLED), KNOWN)
        self.assertIn("if r4 > 32 goto", self.text(lowered))
        self.assertIn("if r4 < 1 goto", self.text(lowered))

    def test_a_part_of_a_word_is_not_known(self) -> None:
        lowered = self.lowered(object_of(f=SPILLED.replace("r4 = *(u64 *)(r10 - 80)", "r4 = *(u32 *)(r10 - 80)")))
        self.assertIsNotNone(lowered.refused)

    def test_signed_comparisons(self) -> None:
        lowered = self.changed(object_of(f=SIGNED), KNOWN)
        self.assertIn("if r7 > 32 goto", self.text(lowered))

    def test_what_overwrites_the_number(self) -> None:
        for between in ("*(u8 *)(r10 - 77) = 200", "r3 = r10\nr3 += -80\nr2 = 0\nr4 = 8\nr1 = r8\ncall 26"):
            text = SPILLED.replace("*(u64 *)(r10 - 64) = 0", f"*(u64 *)(r10 - 64) = 0\n{between}").replace("r6 &=", "r8 = r1\nr6 &=")
            self.assertIsNotNone(self.lowered(object_of(f=text)).refused, between)


# Scratch words of the context: read before they are written, in parts, and in an inlined function.
SCRATCH = """
    r6 = r1
    r7 = *(u32 *)(r1 + 0)
    r8 = *(u32 *)(r6 + 64)
    *(u32 *)(r6 + 48) = r7
    *(u64 *)(r10 - 8) = r7
    if r7 > 20 goto more
    *(u16 *)(r1 + 54) = 513
more:
    r1 = r6
    call inner
    r1 = *(u8 *)(r6 + 55)
    r0 += r1
    r1 = *(u32 *)(r6 + 48)
    r0 += r1
    r0 += r8
    r1 = *(u64 *)(r10 - 8)
    r0 ^= r1
    exit"""
INNER = "r0 = *(u32 *)(r1 + 52)\nr2 = r1\n*(u32 *)(r2 + 48) = 7\n*(u64 *)(r10 - 8) = 9\nexit"


class Scratch(AdditionsTest):
    def test_words_of_the_context(self) -> None:
        lowered = self.changed(object_of(f=SCRATCH, inner=INNER), "scratch")
        self.assertIn("7 accesses to skb->cb are in words of the stack", " ".join(lowered.changes))

    def test_what_is_no_access_to_them(self) -> None:
        for text in (
            "r2 = r1\nr2 += 48\n*(u32 *)(r2 + 0) = 5\nr0 = 0\nexit",
            "*(u32 *)(r1 + 44) = 5\nr0 = 0\nexit",
            "*(u64 *)(r1 + 64) = 5\nr0 = 0\nexit",
            "r2 = 1\nlock *(u32 *)(r1 + 48) += r2\nr0 = 0\nexit",
            "*(u64 *)(r10 - 496) = 5\n*(u32 *)(r1 + 48) = 5\nr0 = 0\nexit",
        ):
            lowered = self.lowered(object_of(f=text))
            self.assertIsNotNone(lowered.refused, text)
            self.assertEqual(lowered.steps, (), text)


class Checked(LoweringTest):
    """The checker rejects additions that change something."""

    def form_of(self, text: str) -> Lowered:
        return self.accepted(object_of(f=text))

    def rejects(self, lowered: Lowered, slots: bytes, origins: tuple[Origin, ...]) -> None:
        with self.assertRaises(WrongForm):
            check(lowered.functions, lowered.frames, slots, origins)

    def test_random_changes(self) -> None:
        """A changed bit of an instruction, except in the comparisons of an index, which change nothing."""
        chance = random.Random(92)
        forms = [self.form_of(COMPARED), self.form_of(COPIED.format(mask=15, shift=2) + "r0 = *(u32 *)(r3 + 0)\nexit")]
        forms.append(self.form_of("r0 = *(u64 *)(r10 - 8)\nr1 = *(u64 *)(r10 - 16)\nr0 += r1\nexit"))
        rejected = harmless = 0
        while rejected < WRONG:
            lowered = chance.choice(forms)
            slots, origins = lowered.program.slots, lowered.origins
            slot = chance.randrange(len(origins))
            found = decoded(slots)[slot]
            byte, bit = chance.choice((0, 1, 4, 5)), 1 << chance.randrange(8)
            data = bytearray(slots)
            data[8 * slot + byte] ^= bit
            changed = Instruction.at(data, slot)
            if origins[slot].added == INDEX and changed.is_comparison and changed.opcode == found.opcode or found.is_goto:
                # Another comparison of an index is rejected only if an access then has several numbers.
                harmless += 1
                continue
            if origins[slot].added == ZERO and changed == found._replace(offset=changed.offset):
                continue
            self.rejects(lowered, bytes(data), origins)
            rejected += 1
        self.assertGreater(rejected, harmless)

    def test_a_move_between_others(self) -> None:
        lowered = self.form_of(COMPARED)
        slot = next(slot for slot, origin in enumerate(lowered.origins) if origin.added == EQUAL)
        for register in (0, 1, 3, 7, 10):
            data = bytearray(lowered.program.slots)
            data[8 * slot + 1] = data[8 * slot + 1] & 0x0F | register << 4
            self.rejects(lowered, bytes(data), lowered.origins)

    def test_a_leaf_at_another_place(self) -> None:
        lowered = self.form_of(COPIED.format(mask=15, shift=2) + "r0 = *(u32 *)(r3 + 0)\nexit")
        leaves = [slot for slot, found in decoded(lowered.program.slots).items() if found.opcode == 0x61 and found.src == 10]
        self.assertEqual(len(leaves), 16)
        for slot in leaves:
            data = bytearray(lowered.program.slots)
            data[8 * slot + 2] ^= 4
            self.rejects(lowered, bytes(data), lowered.origins)

    def test_a_zero_that_comes_later(self) -> None:
        lowered = self.form_of("r0 = *(u64 *)(r10 - 8)\nr0 += 5\nexit")
        self.assertEqual(lowered.origins[0].added, ZERO)
        slots, origins = lowered.program.slots, lowered.origins
        moved = slots[8:16] + slots[:8] + slots[16:]
        self.rejects(lowered, moved, (origins[1], origins[0], *origins[2:]))
        after = (origins[1], origins[2]._replace(added=ZERO), *origins[2:])
        self.rejects(lowered, slots[8:16] + slots[:8] + slots[16:], after)

    def test_scratch_words_begin_as_0_and_are_used_by_nothing_else(self) -> None:
        lowered = self.accepted(object_of(f=SCRATCH, inner=INNER))
        slots, origins = lowered.program.slots, lowered.origins
        found = decoded(slots)
        zeros = [slot for slot, origin in enumerate(origins) if origin.added == ZERO]
        words = {found[slot].offset for slot in zeros}
        self.assertEqual(len(words), 3)
        for slot in zeros:
            self.rejects(lowered, slots[: 8 * slot] + slots[8 * slot + 8 :], (*origins[:slot], *origins[slot + 1 :]))
        accesses = [
            slot for slot, each in found.items() if slot not in zeros and each.kind in (1, 2, 3) and min(words) <= each.offset < min(words) + 24
        ]
        self.assertEqual(len(accesses), 7)
        for slot in accesses:
            for by in (8, -8, -24):
                data = bytearray(slots)
                data[8 * slot + 2 : 8 * slot + 4] = (found[slot].offset + by).to_bytes(2, "little", signed=True)
                self.rejects(lowered, bytes(data), origins)

    def test_a_comparison_that_has_two_outcomes(self) -> None:
        for text in (SPILLED, SIGNED):
            lowered = self.form_of(text)
            slots, origins = lowered.program.slots, lowered.origins
            known = [slot for slot, origin in enumerate(origins) if origin.added == KNOWN]
            for slot in known:
                data = bytearray(slots)
                # A smaller number above which there are none, or a greater one below which there are none.
                data[8 * slot + 4] += -1 if data[8 * slot] == 0x25 else 1
                self.rejects(lowered, bytes(data), origins)
            self.assertGreater(len(known), 1)

    def test_what_is_never_reached_is_not_reached(self) -> None:
        lowered = self.form_of(SPILLED)
        slots, origins = lowered.program.slots, lowered.origins
        never = [slot for slot, origin in enumerate(origins) if origin.added == NEVER]
        self.assertEqual([decoded(slots)[slot].opcode for slot in never], [0xB7, 0x95])
        for slot in range(len(origins)):
            marked = (*origins[:slot], origins[slot]._replace(added="" if slot in never else NEVER), *origins[slot + 1 :])
            self.rejects(lowered, slots, marked)

    def test_a_register_that_is_an_index_is_not_used_otherwise(self) -> None:
        lowered = self.form_of(COPIED.format(mask=3, shift=0) + "r0 = *(u8 *)(r3 + 0)\nr0 += r7\nexit")
        slot = max(slot for slot, found in decoded(lowered.program.slots).items() if found.opcode == 0x0F)
        data = bytearray(lowered.program.slots)
        data[8 * slot + 1] = 0x30
        self.rejects(lowered, bytes(data), lowered.origins)


class OneProgram(LoweringTest):
    def test_a_program_that_is_rejected_all_the_same(self) -> None:
        """What is reported is the plain form, without what was added."""
        text = COPIED.format(mask=7, shift=0) + "r6 = *(u8 *)(r3 + 0)\nr1 = r6\ncall g\nr0 += r5\nexit"
        lowered = self.lowered(object_of(f=text, g="r0 = r1\nexit"))
        self.assertEqual((lowered.refused, lowered.steps), ((11, 23), ("calls",)))

    def test_nothing_is_added_to_an_accepted_program(self) -> None:
        found = object_of(f="r0 = *(u32 *)(r1 + 0)\nr2 = r0\nif r2 > 5 goto +1\nr0 = 1\nexit")
        lowered = self.accepted(found)
        self.assertEqual(lowered.program, ObjectProgram("socket", "f", only(found).slots, (), only(found).lines))
