"""The kernel's checks of a classic program (net/core/filter.c, `bpf_check_classic`), each refusal in one sentence."""

from __future__ import annotations

from collections.abc import Sequence

from bpfhost.classic.ancillary import is_known
from bpfhost.classic.errors import ClassicError
from bpfhost.classic.instructions import ANCILLARY, FORMS, MOST_INSTRUCTIONS, SCRATCH_WORDS, Instruction, Kind, Operator
from bpfhost.classic.listing import shown

_ALL = (1 << SCRATCH_WORDS) - 1


def refused_at(at: int, instruction: Instruction, why: str) -> ClassicError:
    """The refusal of a program for one of its instructions."""
    return ClassicError(f"instruction {at}, {' '.join(shown(at, instruction).split()[1:])}: {why}")


def check(instructions: Sequence[Instruction]) -> None:
    """Raises ClassicError if the kernel refuses the program, with the first instruction that breaks a rule.

    The rules: jumps stay inside and go forward, codes are known, no division is by the number 0 and no shift by 32 or more, scratch
    memory accesses are within its sixteen words, on all paths a word is stored before it is loaded, ancillary loads are known, and the
    program ends with a return.
    """
    count = len(instructions)
    if not count:
        raise ClassicError("it has no instruction")
    if count > MOST_INSTRUCTIONS:
        raise ClassicError(f"it has {count:,} instructions, and {MOST_INSTRUCTIONS:,} are the most")
    for at, instruction in enumerate(instructions):
        why = _fault(at, instruction, count)
        if why:
            raise refused_at(at, instruction, why)
    if FORMS[instructions[-1].code].kind is not Kind.RETURN:
        raise refused_at(count - 1, instructions[-1], "the last instruction is no return")
    _check_scratch(instructions)


def _fault(at: int, instruction: Instruction, count: int) -> str | None:
    """What is wrong with an instruction by itself."""
    code, jt, jf, k = instruction
    if not (0 <= code < 2**16 and 0 <= jt < 2**8 and 0 <= jf < 2**8 and 0 <= k < 2**32):
        return "a field has no room for its number: a code has 16 bits, jt and jf have 8, k has 32"
    form, behind = FORMS.get(code), count - at - 1
    if form is None:
        return f"no instruction has the code 0x{code:x}"
    if form.kind is Kind.OPERATE and not form.is_x:
        return _fault_of_operand(form.operator, k)
    if form.kind in (Kind.SCRATCH, Kind.STORE) and k >= SCRATCH_WORDS:
        return f"scratch memory has {SCRATCH_WORDS} words"
    if form.kind is Kind.JUMP and k >= behind:
        return _BACKWARD if k >= 2**31 else _OUT
    if form.kind is Kind.BRANCH and max(jt, jf) >= behind:
        return _OUT
    if form.kind is Kind.ABSOLUTE and k >= ANCILLARY and not is_known(k):
        return f"the kernel has no ancillary load at {k - ANCILLARY}"
    return None


_BACKWARD = (
    "it jumps backward, as protochain does, and a program that ends surely has jumps forward alone; "
    "proto in place of protochain tests the first header after that of IP"
)
_OUT = "it jumps out of the program"


def _fault_of_operand(operator: Operator | None, k: int) -> str | None:
    if operator in (Operator.DIV, Operator.MOD) and k == 0:
        return "it divides by 0"
    if operator in (Operator.LSH, Operator.RSH) and k > 31:
        return "it shifts by more than 31 bits"
    return None


def _check_scratch(instructions: Sequence[Instruction]) -> None:
    """Raises ClassicError if a word is loaded that some path has not stored (the kernel's `check_load_and_stores`)."""
    # For each instruction, the words that all jumps to it have stored, and those that the path from the instruction before it has stored.
    at_target, stored = [_ALL] * len(instructions), 0
    for at, instruction in enumerate(instructions):
        form = FORMS[instruction.code]
        stored &= at_target[at]
        if form.kind is Kind.STORE:
            stored |= 1 << instruction.k
        elif form.kind is Kind.SCRATCH and not stored >> instruction.k & 1:
            raise refused_at(at, instruction, f"M[{instruction.k}] is loaded, and not stored before on each path")
        elif form.kind in (Kind.JUMP, Kind.BRANCH):
            for distance in (instruction.k,) if form.kind is Kind.JUMP else (instruction.jt, instruction.jf):
                at_target[at + 1 + distance] &= stored
            stored = _ALL
