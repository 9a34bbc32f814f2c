"""Instructions by their fields (docs/INSTRUCTIONS.md, "Layout"): the registers that they read and write, and their successors."""

from __future__ import annotations

import struct
from collections.abc import Sequence
from typing import NamedTuple

from bpfhost.numbers import SLOT_SIZE
from bpfhost.slots import WIDE_LOAD, first_slots

FRAME_POINTER = 10
# Registers that a call preserves, by the calling convention.
CALLEE_SAVED = (6, 7, 8, 9)

# Classes, and the meaning of the upper bits of an opcode.
LD, LDX, ST, STX, ALU, JMP, JMP32, ALU64 = range(8)
_FROM_REGISTER = 0x08
GOTO, GOTO_LONG, CALL, CALL_FUNCTION, EXIT = 0x05, 0x06, 0x85, 1, 0x95
MOVE_64, ADD_64 = 0xBF, 0x07
STORE_64, LOAD_64 = 0x7B, 0x79
# Codes of arithmetic, without the source and the class.
ADD, SUB, MUL, DIV, OR, AND, LSH, RSH, NEG, MOD, XOR, MOV, ARSH, END = (16 * code for code in range(14))
# Codes of comparisons, in the same form.
JEQ, JGT, JGE, JSET, JNE, JSGT, JSGE, JLT, JLE, JSLT, JSLE = (16 * code for code in (1, 2, 3, 4, 5, 6, 7, 10, 11, 12, 13))
OPPOSITE = {JEQ: JNE, JGT: JLE, JGE: JLT, JSGT: JSLE, JSGE: JSLT}
OPPOSITE |= {opposite: code for code, opposite in OPPOSITE.items()}
_COMPARISONS = (*OPPOSITE, JSET)
_MOVE_MODES = {LDX: (0x60, 0x80), ST: (0x60,), STX: (0x60, 0xC0)}
SIZES = {0x00: 4, 0x08: 2, 0x10: 1, 0x18: 8}
ATOMIC = 0xC0
SIGNED_LOAD = 0x80
# Modes of LD that read the packet, at a constant and at a register plus a constant; the context is in register 6.
ABS, IND = 0x20, 0x40
PACKET_CONTEXT = 6
# Atomic operations that return the old value; in the first four the bit FETCH is set.
FETCH, EXCHANGE, COMPARE_EXCHANGE = 0x01, 0xE1, 0xF1
_FETCHING = (0x01, 0x41, 0x51, 0xA1, EXCHANGE, COMPARE_EXCHANGE)


class Instruction(NamedTuple):
    """An instruction by its fields; `second` is the second slot of a wide load, and empty for any other."""

    opcode: int
    dst: int
    src: int
    offset: int
    constant: int
    second: bytes = b""

    @classmethod
    def at(cls, slots: bytes | bytearray, slot: int) -> Instruction:
        """The instruction that begins with this slot; for a wide load that is cut off, the half that is there."""
        opcode, registers, offset, constant = struct.unpack_from("<BBhi", slots, SLOT_SIZE * slot)
        second = bytes(slots[SLOT_SIZE * (slot + 1) : SLOT_SIZE * (slot + 2)]) if opcode == WIDE_LOAD else b""
        return cls(opcode, registers & 15, registers >> 4, offset, constant, second)

    def to_bytes(self) -> bytes:
        """Its slots."""
        return struct.pack("<BBhi", self.opcode, self.dst | self.src << 4, self.offset, self.constant) + self.second

    @property
    def slots(self) -> int:
        """How many slots it has."""
        return 2 if self.second else 1

    @property
    def kind(self) -> int:
        """Its class."""
        return self.opcode & 7

    @property
    def code(self) -> int:
        """The code in the upper bits of its opcode: the operator of arithmetic, or which comparison."""
        return self.opcode & 0xF0

    @property
    def is_goto(self) -> bool:
        """Whether it is an unconditional jump."""
        return self.opcode in (GOTO, GOTO_LONG)

    @property
    def is_comparison(self) -> bool:
        """Whether it is a conditional jump."""
        return self.kind in (JMP, JMP32) and self.code in _COMPARISONS

    @property
    def is_exit(self) -> bool:
        """Whether it ends the program or the function."""
        return self.opcode == EXIT

    @property
    def calls_function(self) -> bool:
        """Whether it calls a function of the object."""
        return self.opcode == CALL and self.src == CALL_FUNCTION

    @property
    def from_register(self) -> bool:
        """Whether the second operand of arithmetic or of a comparison is a register."""
        return bool(self.opcode & _FROM_REGISTER)

    @property
    def reads_packet(self) -> bool:
        """Whether it is a legacy load of the packet (ABS, IND)."""
        return self.kind == LD and self.opcode & 0xE0 in (ABS, IND) and self.size < 8

    @property
    def fetches(self) -> bool:
        """Whether it is an atomic operation that returns the old value."""
        return self.kind == STX and self.opcode & 0xE0 == ATOMIC and self.size >= 4 and self.constant in _FETCHING

    @property
    def size(self) -> int:
        """How many bytes a load or a store accesses."""
        return SIZES[self.opcode & 0x18]

    def distance(self) -> int | None:
        """The distance of a jump's target from the next slot."""
        if self.opcode == GOTO_LONG:
            return self.constant
        return self.offset if self.opcode == GOTO or self.is_comparison else None

    def jumping(self, distance: int) -> Instruction:
        """A jump with another distance in its 16-bit offset, which a program of 4,096 slots never exceeds."""
        return self._replace(offset=distance)

    def opposite(self) -> Instruction | None:
        """The opposite comparison, if there is one."""
        code = OPPOSITE.get(self.code)
        return None if code is None else self._replace(opcode=self.opcode & 0x0F | code)


def goto(distance: int) -> Instruction:
    """An unconditional jump."""
    return Instruction(GOTO, 0, 0, distance, 0)


def decoded(slots: bytes) -> dict[int, Instruction]:
    """The instructions by their first slots, in order."""
    return {slot: Instruction.at(slots, slot) for slot in first_slots(slots)}


def is_known(found: Instruction) -> bool:
    """Whether RFC 9669 defines the instruction, judged by its opcode."""
    kind, code = found.kind, found.code
    if kind in (ALU, ALU64):
        return code <= END
    if kind in (JMP, JMP32):
        return found.opcode in (GOTO, GOTO_LONG, CALL, EXIT) or code in _COMPARISONS
    if kind == LD:
        return found.reads_packet or found.opcode == WIDE_LOAD and len(found.second) == SLOT_SIZE
    return found.opcode & 0xE0 in _MOVE_MODES[kind]


def reads(found: Instruction) -> tuple[int, ...]:
    """The registers that an instruction reads; for a call, those that may have arguments."""
    match found.kind:
        case 4 | 7:
            source = (found.src,) if _has_source(found) else ()
            return source if found.code == MOV else (found.dst, *source)
        case 0 if found.reads_packet:
            return (PACKET_CONTEXT, found.src) if found.opcode & 0xE0 == IND else (PACKET_CONTEXT,)
        case 1:
            return (found.src,)
        case 2:
            return (found.dst,)
        case 3:
            is_compared = found.fetches and found.constant == COMPARE_EXCHANGE
            return (found.dst, found.src, 0) if is_compared else (found.dst, found.src)
        case 5 | 6 if found.is_comparison:
            return (found.dst, found.src) if found.from_register else (found.dst,)
    if found.opcode == CALL:
        return (1, 2, 3, 4, 5)
    return (0,) if found.is_exit else ()


def writes(found: Instruction) -> tuple[int, ...]:
    """The registers that an instruction writes; a call, or a legacy load of the packet, invalidates those for arguments."""
    if found.opcode == CALL or found.reads_packet:
        return (0, 1, 2, 3, 4, 5)
    if found.kind in (LD, LDX, ALU, ALU64):
        return (found.dst,)
    if found.fetches:
        return (0 if found.constant == COMPARE_EXCHANGE else found.src,)
    return ()


def _has_source(found: Instruction) -> bool:
    """Whether arithmetic reads its second register: for a byte swap the field is a width."""
    return found.from_register and found.code != END


def renamed(found: Instruction, names: Sequence[int]) -> Instruction:
    """The same instruction with other registers: register r is `names[r]`.

    A legacy load of the packet gets the name of register 6, its context, in the field `dst`, which it does not use.
    """
    if found.opcode in (GOTO, GOTO_LONG, CALL, EXIT):
        return found
    if found.reads_packet:
        return found._replace(dst=names[PACKET_CONTEXT], src=names[found.src])
    if found.kind == LD:
        return found._replace(dst=names[found.dst])
    of_source = found.kind in (LDX, STX) or found.kind in (ALU, ALU64) and _has_source(found)
    has_source = of_source or found.is_comparison and found.from_register
    return found._replace(dst=names[found.dst], src=names[found.src] if has_source else found.src)
