"""Ranges of 64-bit numbers: the results of operators and comparisons, by the tables of docs/VERIFIER.md ("Ranges").

If that page does not define an operator, its result is any number. A signed comparison says more than on that page.
"""

from __future__ import annotations

from typing import NamedTuple

from bpfhost.lowering import instructions as op


class Range(NamedTuple):
    """All integers from `lo` to `hi`, both included."""

    lo: int
    hi: int

    @property
    def is_constant(self) -> bool:
        """Whether it has one member."""
        return self.lo == self.hi


Refined = tuple[Range, Range] | None


def full(bits: int) -> Range:
    """All numbers of so many bits."""
    return Range(0, (1 << bits) - 1)


ANY_NUMBER = full(64)


def constant(number: int, bits: int = 64) -> Range:
    """The range of one number, modulo 2^bits."""
    number %= 1 << bits
    return Range(number, number)


def hull(a: Range, b: Range) -> Range:
    """The smallest range that includes both."""
    return Range(min(a.lo, b.lo), max(a.hi, b.hi))


def cut(a: Range, bits: int) -> Range:
    """The members modulo 2^bits."""
    if a.hi < 1 << bits:
        return a
    return constant(a.lo, bits) if a.is_constant else full(bits)


def signed(number: int, bits: int) -> int:
    """A number of so many bits, read as signed."""
    return number - (1 << bits) if number >> bits - 1 else number


def result(code: int, a: Range, b: Range, bits: int, offset: int = 0) -> Range:
    """The results of an operator, by its code, on 64 or 32 bits; the operands are cut to them. `offset` is the instruction's."""
    a, b = cut(a, bits), cut(b, bits)
    if offset:
        # A sign extension, a signed operator, or an offset that no instruction has.
        return _extended(b, offset, bits) if code == op.MOV and offset in (8, 16, 32) else full(bits)
    if code == op.MOV:
        return b
    if a.is_constant and b.is_constant:
        return constant(_computed(code, a.lo, b.lo, bits), bits)
    return _of_ranges(code, a, b, bits)


def _extended(b: Range, width: int, bits: int) -> Range:
    """The result of a move with sign extension from so many bits."""
    if b.is_constant:
        return constant(signed(b.lo % (1 << width), width), bits)
    return b if b.hi < 1 << width - 1 else full(bits)


def _computed(code: int, a: int, b: int, bits: int) -> int:
    """The result of an operator on two numbers, before it is taken modulo 2^bits."""
    match code:
        case op.ADD:
            return a + b
        case op.SUB:
            return a - b
        case op.MUL:
            return a * b
        case op.DIV:
            return a // b if b else 0
        case op.MOD:
            return a % b if b else a
        case op.OR:
            return a | b
        case op.AND:
            return a & b
        case op.XOR:
            return a ^ b
        case op.LSH:
            return a << b % bits
        case op.RSH:
            return a >> b % bits
        case op.ARSH:
            return signed(a, bits) >> b % bits
    return -a


def _of_ranges(code: int, a: Range, b: Range, bits: int) -> Range:
    most = (1 << bits) - 1
    match code:
        case op.ADD:
            return _wrapped(a.lo + b.lo, a.hi + b.hi, bits)
        case op.SUB:
            return _wrapped(a.lo - b.hi, a.hi - b.lo, bits)
        case op.MUL:
            return Range(a.lo * b.lo, a.hi * b.hi) if a.hi * b.hi <= most else full(bits)
        case op.DIV:
            return Range(a.lo // b.hi, a.hi // b.lo) if b.lo else Range(0, a.hi)
        case op.MOD:
            return Range(0, min(a.hi, b.hi - 1)) if b.lo else Range(0, a.hi)
        case op.AND:
            return Range(0, min(a.hi, b.hi))
        case op.OR | op.XOR:
            return Range(max(a.lo, b.lo) if code == op.OR else 0, (1 << max(a.hi, b.hi).bit_length()) - 1)
    return _shifted(code, a, b, bits)


def _wrapped(lo: int, hi: int, bits: int) -> Range:
    """A range of sums or differences, if none of them wraps or all do."""
    size = 1 << bits
    return Range(lo % size, hi % size) if lo // size == hi // size else full(bits)


def _shifted(code: int, a: Range, b: Range, bits: int) -> Range:
    if not b.is_constant:
        is_right = code == op.RSH or code == op.ARSH and a.hi < 1 << bits - 1
        return Range(0, a.hi) if is_right else full(bits)
    count = b.lo % bits
    if code == op.LSH and a.hi << count < 1 << bits:
        return Range(a.lo << count, a.hi << count)
    if code == op.RSH or code == op.ARSH and a.hi < 1 << bits - 1:
        return Range(a.lo >> count, a.hi >> count)
    return full(bits)


def refine(code: int, a: Range, b: Range, bits: int) -> tuple[Refined, Refined]:
    """The ranges of two operands if a comparison is true, and if it is false; None if that is impossible."""
    if bits == 32 and max(a.hi, b.hi) >= 1 << 32:
        return (a, b), (a, b)
    if code in _AS_UNSIGNED:
        code = _AS_UNSIGNED[code]
        if not _same_sign(a, b, bits):
            return _by_signs(code, a, b, bits)
    if code == op.JSET:
        return _tested(a, b)
    return _held(code, a, b), _held(op.OPPOSITE[code], a, b)


_AS_UNSIGNED = {op.JSGT: op.JGT, op.JSGE: op.JGE, op.JSLT: op.JLT, op.JSLE: op.JLE}


def _same_sign(a: Range, b: Range, bits: int) -> bool:
    """Whether all members of both have the same sign, so that a signed comparison equals the unsigned one."""
    least_negative = 1 << bits - 1
    return max(a.hi, b.hi) < least_negative or min(a.lo, b.lo) >= least_negative


def _by_signs(code: int, a: Range, b: Range, bits: int) -> tuple[Refined, Refined]:
    """A signed comparison of numbers of both signs: of those of one sign as an unsigned one; of two signs the negative one is less."""
    taken: Refined = None
    fallen: Refined = None
    for x in _of_each_sign(a, bits):
        for y in _of_each_sign(b, bits):
            if _same_sign(x, y, bits):
                taken, fallen = _either(taken, _held(code, x, y)), _either(fallen, _held(op.OPPOSITE[code], x, y))
            elif (x.lo < y.lo) == (code in (op.JGT, op.JGE)):
                taken = _either(taken, (x, y))
            else:
                fallen = _either(fallen, (x, y))
    return taken, fallen


def _of_each_sign(a: Range, bits: int) -> list[Range]:
    """The members that are not negative, and those that are, if there are any."""
    least_negative = 1 << bits - 1
    parts = (Range(a.lo, min(a.hi, least_negative - 1)), Range(max(a.lo, least_negative), a.hi))
    return [part for part in parts if part.lo <= part.hi]


def _either(a: Refined, b: Refined) -> Refined:
    """The ranges that include both."""
    return b if a is None else a if b is None else (hull(a[0], b[0]), hull(a[1], b[1]))


def _tested(a: Range, b: Range) -> tuple[Refined, Refined]:
    """A test of common bits: decided only for constants."""
    both = a, b
    if not (a.is_constant and b.is_constant):
        return both, both
    return (both, None) if a.lo & b.lo else (None, both)


def _held(code: int, a: Range, b: Range) -> Refined:
    """The ranges if an unsigned comparison is true."""
    match code:
        case op.JEQ:
            common = Range(max(a.lo, b.lo), min(a.hi, b.hi))
            return (common, common) if common.lo <= common.hi else None
        case op.JNE:
            left, right = _without(a, b), _without(b, a)
            return None if left is None or right is None else (left, right)
        case op.JGT:
            return None if a.hi <= b.lo else (Range(max(a.lo, b.lo + 1), a.hi), Range(b.lo, min(b.hi, a.hi - 1)))
        case op.JGE:
            return None if a.hi < b.lo else (Range(max(a.lo, b.lo), a.hi), Range(b.lo, min(b.hi, a.hi)))
    held = _held(op.JGT if code == op.JLT else op.JGE, b, a)
    return held and (held[1], held[0])


def _without(a: Range, b: Range) -> Range | None:
    """The range without a number, if the other operand is a constant; None if it has no other member."""
    if not b.is_constant or b.lo not in (a.lo, a.hi):
        return a
    if a.is_constant:
        return None
    return Range(a.lo + 1, a.hi) if b.lo == a.lo else Range(a.lo, a.hi - 1)
