"""Ranges: operators on numbers compared with the host, which computes them by the proved equations; and ranges compared with their members."""

from __future__ import annotations

import random

from bpfhost import Host, assemble
from bpfhost.lowering import instructions as op
from bpfhost.lowering.instructions import Instruction
from bpfhost.lowering.ranges import ANY_NUMBER, Range, constant, full, hull, refine, result
from bpfhost.lowering.values import State, edges
from tests.common import PROGRAM, HostTest

CODES = (op.ADD, op.SUB, op.MUL, op.DIV, op.OR, op.AND, op.LSH, op.RSH, op.MOD, op.XOR, op.MOV, op.ARSH)
COMPARISONS = (op.JEQ, op.JGT, op.JGE, op.JSET, op.JNE, op.JSGT, op.JSGE, op.JLT, op.JLE, op.JSLT, op.JSLE)
EDGES = (0, 1, 2, 3, 7, 31, 32, 63, 64, 2**31 - 1, 2**31, 2**32 - 1, 2**32, 2**63 - 1, 2**63, 2**64 - 1)


def _wide(register: int, number: int) -> bytes:
    low, high = number % (1 << 32), number >> 32
    return bytes([0x18, register, 0, 0]) + low.to_bytes(4, "little") + bytes(4) + high.to_bytes(4, "little")


class Numbers(HostTest):
    """Each operator and comparison on numbers returns what the host returns."""

    def setUp(self) -> None:
        super().setUp()
        self.chance = random.Random(9669)
        host = Host(PROGRAM)
        self.addCleanup(host.close)
        self.tenant = host.tenant()
        self.shift = assemble(PROGRAM, "r0 >>= 32\nexit\n")
        self.end = assemble(PROGRAM, "exit\n")

    def number(self) -> int:
        return self.chance.choice((*EDGES, self.chance.randrange(2**64), self.chance.randrange(100)))

    def ran(self, slots: bytes) -> int:
        """The 64 bits of the result, by two programs."""
        low, high = (self.result(slots + end) for end in (self.end, self.shift))
        return low | high << 32

    def result(self, slots: bytes) -> int:
        descriptor = self.tenant.prog_load(slots)
        found = self.tenant.prog_test_run(descriptor)
        self.tenant.close(descriptor)
        return found

    def test_operators(self) -> None:
        for _ in range(400):
            kind, code = self.chance.choice((op.ALU, op.ALU64)), self.chance.choice((*CODES, op.NEG))
            is_register = self.chance.random() < 0.5
            a, b = self.number(), self.number()
            k = b % (1 << 31)
            source = 8 if is_register and code != op.NEG else 0
            found = Instruction(code | source | kind, 0, 1 if source else 0, 0, 0 if source or code == op.NEG else k)
            state = State()
            slots = _wide(0, a) + _wide(1, b)
            for at in (0, 16):
                state.apply(Instruction.at(slots, at // 8))
            state.apply(found)
            self.assertEqual(state.registers[0], constant(self.ran(slots + found.to_bytes())), (found, a, b))

    def test_sign_extensions(self) -> None:
        for _ in range(100):
            kind, width = self.chance.choice(((op.ALU, 8), (op.ALU, 16), (op.ALU64, 8), (op.ALU64, 16), (op.ALU64, 32)))
            b = self.number()
            found = Instruction(op.MOV | 8 | kind, 0, 1, width, 0)
            state, slots = State(), _wide(1, b)
            state.apply(Instruction.at(slots, 0))
            state.apply(found)
            self.assertEqual(state.registers[0], constant(self.ran(slots + found.to_bytes())), (found, b))

    def test_comparisons(self) -> None:
        for _ in range(400):
            kind, code = self.chance.choice((op.JMP, op.JMP32)), self.chance.choice(COMPARISONS)
            is_register = self.chance.random() < 0.5
            a, b = self.number(), self.number()
            if kind == op.JMP32:
                a, b = a % (1 << 32), b % (1 << 32)
            k = b % (1 << 32) - (1 << 31)
            found = Instruction(code | (8 if is_register else 0) | kind, 0, 1 if is_register else 0, 1, 0 if is_register else k)
            state, slots = State(), _wide(0, a) + _wide(1, b)
            for at in (0, 2):
                state.apply(Instruction.at(slots, at))
            jumped = self.result(slots + found.to_bytes() + assemble(PROGRAM, "goto +2\nr0 = 1\nexit\nr0 = 0\nexit\n"))
            taken, fallen = edges(state, found)
            self.assertEqual((taken is not None, fallen is not None), (bool(jumped), not jumped), (found, a, b))


class Members(HostTest):
    """The result of every two members is in the range of the results, and on the edge that they take."""

    def setUp(self) -> None:
        super().setUp()
        self.chance = random.Random(8)

    def range(self, bits: int) -> Range:
        most = 1 << bits
        a, b = sorted(self.chance.choice((*EDGES, self.chance.randrange(most), self.chance.randrange(200))) % most for _ in range(2))
        return Range(a, b) if self.chance.random() < 0.8 else Range(a, a)

    def member(self, of: Range) -> int:
        return self.chance.choice((of.lo, of.hi, self.chance.randint(*of), self.chance.randint(*of)))

    def test_operators(self) -> None:
        for _ in range(6000):
            bits, code = self.chance.choice((32, 64)), self.chance.choice((*CODES, op.NEG))
            a, b = self.range(64), self.range(64)
            found = result(code, a, b, bits)
            x, y = self.member(a), self.member(b)
            exact = result(code, constant(x), constant(y), bits).lo
            self.assertTrue(found.lo <= exact <= found.hi, (code, bits, a, b, x, y, found, exact))

    def test_edges(self) -> None:
        for _ in range(6000):
            bits, code = self.chance.choice((32, 64)), self.chance.choice(COMPARISONS)
            a, b = self.range(bits), self.range(bits)
            x, y = self.member(a), self.member(b)
            taken, _ = refine(code, constant(x), constant(y), bits)
            found = refine(code, a, b, bits)[0 if taken else 1]
            assert found is not None, (code, bits, a, b, x, y)
            self.assertTrue(found[0].lo <= x <= found[0].hi and found[1].lo <= y <= found[1].hi, (code, bits, a, b, x, y, found))

    def test_hull_and_full(self) -> None:
        self.assertEqual(hull(Range(1, 4), Range(9, 9)), Range(1, 9))
        self.assertEqual((full(8), ANY_NUMBER), (Range(0, 255), Range(0, 2**64 - 1)))

    def test_worked_ranges(self) -> None:
        """Some rows of the table of docs/VERIFIER.md."""
        for code, a, b, wanted in (
            (op.ADD, Range(1, 5), Range(2, 3), Range(3, 8)),
            (op.ADD, Range(1, 2**64 - 1), Range(2, 3), ANY_NUMBER),
            (op.SUB, Range(7, 9), Range(1, 2), Range(5, 8)),
            (op.MUL, Range(2, 3), Range(4, 5), Range(8, 15)),
            (op.DIV, Range(8, 20), Range(2, 4), Range(2, 10)),
            (op.MOD, Range(0, 99), Range(1, 10), Range(0, 9)),
            (op.AND, Range(0, 99), Range(0, 7), Range(0, 7)),
            (op.OR, Range(4, 9), Range(1, 2), Range(4, 15)),
            (op.XOR, Range(4, 9), Range(1, 2), Range(0, 15)),
            (op.LSH, Range(1, 3), constant(4), Range(16, 48)),
            (op.RSH, Range(16, 50), constant(4), Range(1, 3)),
            (op.ARSH, Range(16, 50), constant(4), Range(1, 3)),
        ):
            self.assertEqual(result(code, a, b, 64), wanted, (code, a, b))

    def test_signed_comparisons(self) -> None:
        """A number of both signs, compared with a number of one: of the negative ones the unsigned numbers are the greatest."""
        low, most = constant(-(1 << 31), 32).lo, full(32).hi
        for code, a, b, taken, fallen in (
            (op.JSLT, full(32), constant(0), Range(low, most), Range(0, low - 1)),
            (op.JSGE, full(32), constant(0), Range(0, low - 1), Range(low, most)),
            (op.JSGT, full(32), constant(15), Range(16, low - 1), full(32)),
            (op.JSLE, full(32), constant(-5, 32), Range(low, most - 4), full(32)),
            (op.JSGT, Range(3, low + 9), constant(-1, 32), Range(3, low - 1), Range(low, low + 9)),
            (op.JSGT, Range(3, low - 1), constant(-1, 32), Range(3, low - 1), None),
            (op.JSLT, Range(low, most), constant(7), Range(low, most), None),
        ):
            found = refine(code, a, b, 32)
            self.assertEqual([each and each[0] for each in found], [taken, fallen], (code, a, b))
