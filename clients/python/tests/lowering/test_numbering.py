"""Numbers of values: on random programs registers with one number hold one value, which is in its range and has its zeros."""

from __future__ import annotations

import random
import struct

from bpfhost.lowering.instructions import Instruction, decoded
from bpfhost.lowering.numbering import Known, Numbers
from bpfhost.lowering.ranges import Range
from bpfhost.lowering.values import State
from bpfhost.objects import ObjectProgram
from tests.lowering.common import LoweringTest, decoded_functions, object_of
from tests.lowering.interpreter import Machine

PROGRAMS = 300
_OPERATORS = (0x0, 0x1, 0x2, 0x4, 0x5, 0x6, 0x7, 0xA, 0xB)
_EXIT = bytes.fromhex("9500000000000000")


class Random(LoweringTest):
    def test_registers_with_one_number_hold_one_value(self) -> None:
        chance = random.Random(92)
        pairs = zeros = 0
        for _ in range(PROGRAMS):
            numbers = Numbers()
            known = Known(State(), numbers.at_entry())
            code = [self.instruction(chance) for _ in range(12)]
            for each in code:
                known.apply(numbers, each)
            for _ in range(4):
                registers = [chance.choice((chance.getrandbits(64), chance.getrandbits(8), 1 << 32)) for _ in range(11)]
                Machine((), b"").follow(ObjectProgram("s", "f", b"".join(each.to_bytes() for each in code) + _EXIT, (), ()), registers)
                for register in range(10):
                    for other in known.same_as(register):
                        self.assertEqual(registers[register], registers[other] if other != 10 else None, code)
                        pairs += 1
                    among = known.range_of(register)
                    self.assertTrue(among is None or among.lo <= registers[register] <= among.hi, code)
                    self.assertFalse(registers[register] & (1 << min(numbers.zeros(known.names[register]), 64)) - 1, code)
                    zeros += numbers.zeros(known.names[register]) > 0
        self.assertGreater(min(pairs, zeros), PROGRAMS)

    @staticmethod
    def instruction(chance: random.Random) -> Instruction:
        """Arithmetic of 64 or 32 bits on few registers: copies, shifts by 32, masks, sums."""
        dst, src, kind = chance.randrange(3), chance.randrange(3), chance.choice((4, 7))
        if chance.random() < 0.3:
            return Instruction(0xB8 | kind - 4 | 4, dst, src, 0, 0)
        if chance.random() < 0.3:
            return Instruction(chance.choice((0x67, 0x77)), dst, 0, 0, chance.choice((32, 32, 3)))
        operator, is_register = chance.choice(_OPERATORS), chance.random() < 0.3
        constant = chance.choice((255, 65535, 40, -8, 4, chance.randrange(30))) if operator not in (6, 7) else chance.randrange(31)
        return Instruction(operator << 4 | kind | 8 * is_register, dst, src if is_register else 0, 0, 0 if is_register else constant)


class Same(LoweringTest):
    def after(self, text: str) -> tuple[Known, Numbers]:
        numbers = Numbers()
        known = Known(State(), numbers.at_entry())
        for found in list(decoded_functions(object_of(f=f"{text}\nexit"))[0].instructions.values())[:-1]:
            known.apply(numbers, found)
        return known, numbers

    def same(self, is_same: bool, text: str) -> None:
        known, _ = self.after(text)
        self.assertEqual(2 in known.same_as(1), is_same, text)

    def test_copies(self) -> None:
        self.same(True, "r1 = *(u32 *)(r1 + 0)\nr2 = r1")
        self.same(True, "r1 = *(u32 *)(r1 + 0)\nw2 = w1")
        self.same(False, "r1 = *(u64 *)(r10 - 8)\nw2 = w1")
        self.same(False, "r1 = *(u32 *)(r1 + 0)\nr2 = r1\nr1 += 1")
        self.same(False, "r2 = r1\ncall 1")

    def test_what_is_computed_twice(self) -> None:
        self.same(True, "r1 = *(u32 *)(r1 + 0)\nr2 = r1\nr2 <<= 32\nr2 >>= 32")
        self.same(False, "r1 = *(u64 *)(r10 - 8)\nr2 = r1\nr2 <<= 32\nr2 >>= 32")
        self.same(True, "r1 = *(u64 *)(r10 - 8)\nr2 = r1\nr2 <<= 32\nr2 >>= 32\nw1 = w1")
        self.same(True, "w1 += -40\nw2 = w1\nw2 &= 255\nr1 &= 255")
        self.same(True, "r2 = 7\nr1 = 7 ll")
        self.same(False, "r2 = *(u32 *)(r1 + 0)\nr1 = *(u32 *)(r1 + 0)")

    def test_joins(self) -> None:
        (one, numbers), entry = self.after("r1 = 1\nr2 = 1"), None
        other = Known(State(), numbers.at_entry())
        numbers.apply(other.names, Instruction(0xBF, 1, 2, 0, 0))
        joined = one.joined(numbers, "block", other)
        self.assertEqual(joined.names[1], joined.names[2])
        self.assertNotEqual(joined.names[3], joined.names[1])
        self.assertIs(one.joined(numbers, "block", entry), one)

    def test_maps_and_zeros(self) -> None:
        load = Instruction.at(struct.pack("<BBhi", 0x18, 0x11, 0, 4) + bytes(8), 0)
        known, numbers = self.after("r2 = *(u32 *)(r10 - 8)\nr2 <<= 3\nr3 = 8\nr3 += r2")
        numbers.apply(known.names, load)
        self.assertEqual((numbers.map_of(known.names[1]), numbers.map_of(known.names[2])), (4, None))
        self.assertEqual([numbers.zeros(known.names[each]) for each in (2, 3)], [3, 3])
        self.assertEqual(known.range_of(2), Range(0, (1 << 35) - 8))
        self.assertEqual(len(decoded(load.to_bytes())), 1)
