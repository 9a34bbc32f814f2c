"""Classic BPF instructions, by their codes (linux/bpf_common.h; McCanne and Jacobson, 1993, "The BSD Packet Filter")."""

from __future__ import annotations

from collections.abc import Iterator, Mapping
from dataclasses import dataclass
from enum import Enum
from typing import NamedTuple

# The most instructions of a program, and the words of its scratch memory (BPF_MAXINSNS, BPF_MEMWORDS).
MOST_INSTRUCTIONS = 4096
SCRATCH_WORDS = 16
# The first offset of ancillary loads, which load what the kernel knows of a packet and none of its bytes, and the first offsets that are
# relative to the network header and to the link header (SKF_AD_OFF, SKF_NET_OFF, SKF_LL_OFF of linux/filter.h).
ANCILLARY, NETWORK_HEADER, LINK_HEADER = 0xFFFFF000, 0xFFF00000, 0xFFE00000


class Instruction(NamedTuple):
    """One instruction: its code, how far it jumps if its test holds and if it does not, and its number."""

    code: int
    jt: int
    jf: int
    k: int


class Kind(Enum):
    """The kinds of instructions, without register, size and operator."""

    ABSOLUTE = "load of the packet at k"
    INDIRECT = "load of the packet at X + k"
    HEADER_LENGTH = "four times the low half of the packet's byte k"
    LENGTH = "load of the packet's length"
    NUMBER = "load of k"
    SCRATCH = "load of M[k]"
    STORE = "store in M[k]"
    OPERATE = "arithmetic with k or X"
    NEGATE = "negation of A"
    JUMP = "jump by k"
    BRANCH = "jump by a test of A with k or X"
    RETURN = "return of k or A"
    MOVE = "move between A and X"


class Operator(Enum):
    """The operators of arithmetic, by their bits in a code; 32-bit eBPF instructions have the same bits."""

    ADD, SUB, MUL, DIV, OR, AND, LSH, RSH, MOD, XOR = 0x00, 0x10, 0x20, 0x30, 0x40, 0x50, 0x60, 0x70, 0x90, 0xA0


class Test(Enum):
    """The tests of jumps, by their bits in a code: equal, greater, greater or equal, and a common bit, all unsigned."""

    EQ, GT, GE, SET = 0x10, 0x20, 0x30, 0x40


@dataclass(frozen=True)
class Form:
    """The fields of a code.

    In a load, a store or a move `is_x` is whether X is its register or its source, in all others whether X is its operand.
    """

    kind: Kind
    mnemonic: str
    is_x: bool = False
    size: int = 4
    operator: Operator | None = None
    test: Test | None = None


def _forms() -> Iterator[tuple[int, Form]]:
    for bits, size, letter in ((0x00, 4, ""), (0x08, 2, "h"), (0x10, 1, "b")):
        yield 0x20 | bits, Form(Kind.ABSOLUTE, f"ld{letter}", size=size)
        yield 0x40 | bits, Form(Kind.INDIRECT, f"ld{letter}", size=size)
    for kind, mode in ((Kind.NUMBER, 0x00), (Kind.SCRATCH, 0x60), (Kind.LENGTH, 0x80)):
        yield mode, Form(kind, "ld")
        yield mode | 1, Form(kind, "ldx", is_x=True)
    yield 0xB1, Form(Kind.HEADER_LENGTH, "ldxb", is_x=True, size=1)
    yield 0x02, Form(Kind.STORE, "st")
    yield 0x03, Form(Kind.STORE, "stx", is_x=True)
    for operator in Operator:
        for is_x in (False, True):
            yield 0x04 | operator.value | 8 * is_x, Form(Kind.OPERATE, operator.name.lower(), is_x, operator=operator)
    yield 0x84, Form(Kind.NEGATE, "neg")
    yield 0x05, Form(Kind.JUMP, "ja")
    for test in Test:
        for is_x in (False, True):
            yield 0x05 | test.value | 8 * is_x, Form(Kind.BRANCH, "j" + test.name.lower(), is_x, test=test)
    yield 0x06, Form(Kind.RETURN, "ret")
    yield 0x16, Form(Kind.RETURN, "ret", is_x=True)
    yield 0x07, Form(Kind.MOVE, "tax")
    yield 0x87, Form(Kind.MOVE, "txa", is_x=True)


# The known codes, those of the kernel's `chk_code_allowed`. In a return, `is_x` is whether A is returned.
FORMS: Mapping[int, Form] = dict(_forms())
