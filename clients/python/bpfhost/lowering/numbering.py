"""Which registers hold the same number: each value has a number of its own, by how it is computed (value numbering).

Two registers with the same number hold the same value on every run, since an instruction of a graph without a cycle runs at most once. A sum
that is computed twice from the same numbers has one number, and so has a number of 32 bits that is copied or extended with zeros. What a
load or a call gives has a new number.
"""

from __future__ import annotations

from collections.abc import Iterable, Sequence
from dataclasses import dataclass

from bpfhost.lowering import instructions as op
from bpfhost.lowering.instructions import FRAME_POINTER, Instruction
from bpfhost.lowering.ranges import ANY_NUMBER, Range, constant, full, hull, result
from bpfhost.lowering.values import State

_Key = tuple[object, ...]
_CONSTANT, _LOW, _JOINED, _WIDE, _NEW = "constant", "low half", "joined", "wide load", "new"
_HALF = 32
_MANY = 64


@dataclass(frozen=True)
class _Made:
    """How a value is made, the range that it is always in, and how many of its lowest bits are always 0."""

    key: _Key
    range: Range
    zeros: int


class Numbers:
    """The numbers of the values of one program."""

    def __init__(self) -> None:
        self._numbers: dict[_Key, int] = {}
        self._made: list[_Made] = []

    def at_entry(self) -> list[int]:
        """The numbers of the registers before the first instruction."""
        return [self._new(ANY_NUMBER) for _ in range(FRAME_POINTER + 1)]

    def zeros(self, number: int) -> int:
        """How many of the lowest bits of a value are always 0."""
        return self._made[number].zeros

    def map_of(self, number: int) -> int | None:
        """The map that a value is, as its wide load names it; None if it is something else."""
        key = self._made[number].key
        return int(str(key[2])) if key[:2] == (_WIDE, 1) else None

    def apply(self, names: list[int], found: Instruction) -> None:
        """The effect of an instruction that is not a jump on the numbers of the registers."""
        if found.kind in (op.ALU, op.ALU64):
            names[found.dst] = self._computed(found, names)
        elif found.kind == op.LD:
            names[found.dst] = self._wide(found)
        else:
            loaded = full(8 * found.size) if found.kind == op.LDX and found.opcode & 0xE0 != op.SIGNED_LOAD else ANY_NUMBER
            for register in op.writes(found):
                names[register] = self._new(loaded)

    def joined(self, place: object, a: Sequence[int], b: Sequence[int]) -> list[int]:
        """The numbers at a place at which edges meet."""
        return [one if one == other else self._join(place, one, other) for one, other in zip(a, b)]

    def _join(self, place: object, a: int, b: int) -> int:
        one, other = self._made[a], self._made[b]
        return self._number((_JOINED, place, a, b), hull(one.range, other.range), min(one.zeros, other.zeros))

    def _number(self, key: _Key, among: Range, zeros: int = 0) -> int:
        if key not in self._numbers:
            self._numbers[key] = len(self._made)
            self._made.append(_Made(key, among, zeros))
        return self._numbers[key]

    def _new(self, among: Range) -> int:
        return self._number((_NEW, len(self._made)), among)

    def _constant(self, value: int, bits: int) -> int:
        among = constant(value, bits)
        return self._number((_CONSTANT, among.lo), among, (among.lo & -among.lo).bit_length() - 1 if among.lo else _MANY)

    def _wide(self, found: Instruction) -> int:
        if found.src:
            return self._number((_WIDE, found.src, found.constant, found.second), ANY_NUMBER)
        return self._constant(found.constant % (1 << _HALF) | int.from_bytes(found.second[4:], "little") << _HALF, 64)

    def _low(self, number: int) -> int:
        """The lower half of a value, extended with zeros."""
        made = self._made[number]
        if made.range.hi < 1 << _HALF:
            return number
        return self._number((_LOW, number), full(_HALF), made.zeros)

    def _computed(self, found: Instruction, names: Sequence[int]) -> int:
        bits = 64 if found.kind == op.ALU64 else _HALF
        if found.code == op.END:
            width = found.constant if found.constant in (16, 32) else 64
            return self._number((found.opcode, found.constant, names[found.dst]), full(width))
        b = names[found.src] if found.from_register else self._constant(found.constant, bits)
        if found.code == op.MOV and not found.offset:
            return b if bits == 64 else self._low(b)
        a = self._constant(0, bits) if found.code == op.MOV else names[found.dst]
        if found.code == op.AND and bits == 64 and not found.from_register and found.constant >= 0:
            bits = _HALF
        if bits == _HALF:
            a, b = self._low(a), self._low(b)
        return self._of_operands(found, bits, a, b)

    def _of_operands(self, found: Instruction, bits: int, a: int, b: int) -> int:
        one, other = self._made[a], self._made[b]
        if found.code == op.RSH and bits == 64 and other.range == (_HALF, _HALF) and one.key[:3] == (op.LSH, 64, 0) and one.key[4] == b:
            return self._low(int(str(one.key[3])))
        among = result(found.code, one.range, other.range, bits, found.offset)
        return self._number((found.code, bits, found.offset, a, b), among, _zeros(found.code, one, other, bits))


def _zeros(code: int, a: _Made, b: _Made, bits: int) -> int:
    """How many of the lowest bits of a result are always 0."""
    if code in (op.ADD, op.SUB, op.OR, op.XOR):
        return min(a.zeros, b.zeros)
    if code == op.AND:
        return max(a.zeros, b.zeros)
    if code == op.MUL:
        return min(a.zeros + b.zeros, bits)
    return min(a.zeros + b.range.lo, bits) if code == op.LSH and b.range.is_constant and b.range.lo < bits else 0


@dataclass
class Known:
    """What is known before an instruction: ranges and places (`values`), and the numbers of the registers."""

    state: State
    names: list[int]

    def copy(self) -> Known:
        """A copy that can be changed."""
        return Known(self.state.copy(), self.names.copy())

    def apply(self, numbers: Numbers, found: Instruction) -> None:
        """The effect of an instruction that is not a jump."""
        self.state.apply(found)
        numbers.apply(self.names, found)

    def joined(self, numbers: Numbers, place: object, other: Known | None) -> Known:
        """What is known at a place at which edges meet."""
        if other is None:
            return self
        return Known(self.state.joined(other.state), numbers.joined(place, self.names, other.names))

    def range_of(self, register: int) -> Range | None:
        """The range of a register, if it is a number that is known."""
        value = self.state.registers[register]
        return value if isinstance(value, Range) else None

    def same_as(self, register: int) -> Iterable[int]:
        """The other registers that hold the same value."""
        return [each for each, number in enumerate(self.names) if number == self.names[register] and each != register]
