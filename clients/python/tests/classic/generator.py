"""Random classic programs and packets, from a seed: programs with every code that pass the kernel's checks, and some that may fail them."""

from __future__ import annotations

import random
from collections.abc import Sequence

from bpfhost.classic import Instruction
from bpfhost.classic.instructions import ANCILLARY, FORMS, Form, Kind, Operator
from tests.classic.interpreter import ANCILLARY as WORDS

_CODES = sorted(FORMS)
# Offsets that filters load from.
_USUAL = (0, 6, 9, 12, 14, 16, 18, 20, 23, 26, 30, 34, 36, 38, 46, 54, 56)
_FAR = (2**31 - 1, 2**31 - 2, 2**31, 2**31 + 14, 2**32 - 1, 2**32 - 4, 2**32 - 20, 65_535, 65_536)
_NUMBERS = (0, 1, 2, 5, 6, 17, 20, 31, 32, 33, 0x45, 0x0800, 0x86DD, 0xFFFF, 0x10000, 2**31, 2**32 - 1)
_ALL = 0xFFFF
MOST = 40


class Generator:
    """Draws programs and packets."""

    def __init__(self, seed: int | str, *, has_ancillary: bool = False) -> None:
        self._draw = random.Random(seed)
        self._has_ancillary = has_ancillary

    def program(self) -> list[Instruction]:
        """A program that passes the kernel's checks."""
        count = self._draw.randint(1, MOST)
        at_target, stored, found = [_ALL] * count, 0, list[Instruction]()
        for at in range(count):
            stored &= at_target[at]
            instruction = self._return() if at == count - 1 else self._instruction(count - at - 2, stored)
            found.append(instruction)
            form = FORMS[instruction.code]
            if form.kind is Kind.STORE:
                stored |= 1 << instruction.k
            elif form.kind in (Kind.JUMP, Kind.BRANCH):
                for far in (instruction.k,) if form.kind is Kind.JUMP else (instruction.jt, instruction.jf):
                    at_target[at + 1 + far] &= stored
                stored = _ALL
        return found

    def _return(self) -> Instruction:
        return Instruction(self._draw.choice((0x06, 0x16)), 0, 0, self._number())

    def _instruction(self, farthest: int, stored: int) -> Instruction:
        """An instruction, after which a jump skips at most so many, if these words of scratch memory are stored."""
        code = self._draw.choice(_CODES)
        form = FORMS[code]
        words = [word for word in range(16) if stored >> word & 1]
        if form.kind is Kind.SCRATCH and not words or form.kind is Kind.RETURN and self._draw.random() < 0.8:
            return self._instruction(farthest, stored)
        jumps = (0, 0)
        if form.kind is Kind.BRANCH:
            jumps = (self._far(farthest), self._far(farthest))
        return Instruction(code, *jumps, self._k(form, farthest, words))

    def _far(self, farthest: int) -> int:
        return self._draw.randint(0, min(farthest, self._draw.choice((0, 1, 3, 255))))

    def _k(self, form: Form, farthest: int, words: Sequence[int]) -> int:
        match form.kind:
            case Kind.ABSOLUTE if self._has_ancillary and self._draw.random() < 0.3:
                return ANCILLARY + self._draw.choice([*WORDS, 40])
            case Kind.ABSOLUTE:
                return min(self._offset(), 2**31 + 14)
            case Kind.INDIRECT | Kind.HEADER_LENGTH:
                return self._offset()
            case Kind.SCRATCH:
                return self._draw.choice(words)
            case Kind.STORE:
                return self._draw.randrange(16)
            case Kind.JUMP:
                return self._far(farthest)
            case Kind.OPERATE if not form.is_x and form.operator in (Operator.DIV, Operator.MOD):
                return self._number() or 3
            case Kind.OPERATE if not form.is_x and form.operator in (Operator.LSH, Operator.RSH):
                return self._draw.randrange(32)
        return self._number()

    def _offset(self) -> int:
        return self._draw.choice((self._draw.choice(_USUAL), self._draw.choice(_USUAL), self._draw.randrange(80), self._draw.choice(_FAR)))

    def _number(self) -> int:
        return self._draw.choice((self._draw.choice(_NUMBERS), self._draw.randrange(256), self._draw.randrange(2**32)))

    def any_program(self) -> list[Instruction]:
        """A program that the checks may refuse: one with some fields changed, or without some instructions."""
        found = self.program()
        for _ in range(self._draw.randint(1, 3)):
            at = self._draw.randrange(len(found))
            change = self._draw.randrange(6)
            if change == 0 and len(found) > 1:
                del found[at]
            elif change == 1:
                found[at] = found[at]._replace(code=self._draw.choice((self._draw.randrange(256), self._draw.randrange(2**16))))
            elif change == 2:
                found[at] = found[at]._replace(k=self._draw.choice((self._number(), ANCILLARY + self._draw.randrange(70))))
            elif change == 3:
                found[at] = found[at]._replace(jt=self._draw.randrange(256))
            elif change == 4:
                found[at] = found[at]._replace(jf=self._draw.randrange(256))
            else:
                found.insert(at, found[at]._replace(k=self._number()))
        return found

    def packet(self) -> bytes:
        """A packet whose first bytes are often those of Ethernet and IPv4, and which may end anywhere."""
        body = bytearray(self._draw.randbytes(self._draw.randint(14, 140)))
        if self._draw.random() < 0.7:
            body[12:15] = self._draw.choice((b"\x08\x00\x45", b"\x08\x00\x46", b"\x86\xdd\x60", b"\x81\x00\x00"))
        return bytes(body[: self._draw.choice((len(body), len(body), self._draw.randint(0, len(body))))])
