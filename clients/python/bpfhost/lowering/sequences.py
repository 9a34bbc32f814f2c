"""Sequences: what an instruction that the host does not have becomes, by kind.

- packet: a legacy load of the packet (LD_ABS, LD_IND), with the context in register 6, becomes a call of bpf_skb_load_bytes into a word of
  the stack, a load from there, and a byte swap. If the packet is too short, the function ends with the result 0.
- fetch: an atomic addition, or, and, exclusive or, that returns the old value, becomes a load, the operation, and a store.
- exchange: an atomic exchange becomes a load and a store.
- compare: an atomic compare-and-exchange, with register 0, becomes a load, a comparison, and a store if the two are equal.

No other run goes on meanwhile, so a load and a store are as one operation. Sources: the kernel's bpf_gen_ld_abs (net/core/filter.c) for the
first, RFC 9669 (section 5.3) for the others.

An atomic operation needs one register more. It is one that is not needed later (`spare`), or else one that is saved in a word of the stack.
"""

from __future__ import annotations

from collections.abc import Mapping
from dataclasses import dataclass, field

from bpfhost.lowering import instructions as op
from bpfhost.lowering.instructions import FRAME_POINTER, Instruction
from bpfhost.numbers import SLOT_SIZE
from bpfhost.slots import first_slots

PACKET, FETCHED, EXCHANGED, COMPARED = KINDS = ("packet", "fetch", "exchange", "compare")
# What follows the last part of a sequence: the instruction after it, or the function's exit.
AFTER, EXIT = -1, -2
_LOAD_BYTES = 26
_SET, _SWAP = 0xB7, 0xDC
_OF_REGISTER = 0x08
_LOAD, _STORE = 0x61, 0x63
# The opcodes of instructions that may become a sequence: legacy loads, and atomic operations.
_OPCODES = frozenset((0x20, 0x28, 0x30, 0x40, 0x48, 0x50, 0xC3, 0xDB))
# The registers that a sequence may write.
_SPARES = (0, 1, 2, 3, 4, 5)


@dataclass(frozen=True)
class Stated:
    """A sequence of its parts. After part `last` the next instruction follows; the parts after it end the function.

    `taken` has, for each comparison, the part that it leads to if it is true.
    """

    kind: str
    parts: tuple[Instruction, ...]
    last: int
    taken: Mapping[int, int] = field(default_factory=dict)

    def following(self, part: int, is_taken: bool) -> int:
        """The part after one, or AFTER, or EXIT."""
        if is_taken:
            return self.taken[part]
        return AFTER if part == self.last else EXIT if part + 1 == len(self.parts) else part + 1


def kind_of(found: Instruction) -> str | None:
    """The kind of an instruction that becomes a sequence; None if it stays."""
    if found.opcode not in _OPCODES:
        return None
    if found.reads_packet:
        return PACKET
    if not found.fetches or found.dst == found.src:
        return None
    return {op.EXCHANGE: EXCHANGED, op.COMPARE_EXCHANGE: COMPARED}.get(found.constant, FETCHED)


def has_sequences(slots: bytes) -> bool:
    """Whether a program has an instruction that becomes a sequence."""
    if _OPCODES.isdisjoint(slots[::SLOT_SIZE]):
        return False
    return any(kind_of(Instruction.at(slots, slot)) is not None for slot in first_slots(slots))


def spare_of(found: Instruction, needed: frozenset[int]) -> int | None:
    """A register that a sequence may write, if those are needed later; None if there is none, and one is saved."""
    used = {*op.reads(found), *op.writes(found)}
    return next((register for register in _SPARES if register not in needed and register not in used), None)


def needs_room(found: Instruction, spare: int | None) -> bool:
    """Whether the sequence needs a word of the stack."""
    return found.reads_packet or spare is None


def stated(found: Instruction, spare: int | None, room: int, ending: tuple[Instruction, ...]) -> Stated:
    """The sequence of an instruction, whose registers have the program's names, as `op.renamed` gives them.

    `room` is the offset of a word of the stack, and `ending` is what ends the function, with its result in register 0.
    """
    if found.reads_packet:
        return _packet(found, room, ending)
    kind = kind_of(found) or ""
    used = {*op.reads(found), *op.writes(found)}
    register = next(each for each in _SPARES if each not in used) if spare is None else spare
    parts, taken = _WRITTEN[kind](found, register)
    if spare is not None:
        return Stated(kind, parts, len(parts) - 1, taken)
    saved = Instruction(op.STORE_64, FRAME_POINTER, register, room, 0)
    restored = Instruction(op.LOAD_64, register, FRAME_POINTER, room, 0)
    return Stated(kind, (saved, *parts, restored), len(parts) + 1, {at + 1: to + 1 for at, to in taken.items()})


def _packet(found: Instruction, room: int, ending: tuple[Instruction, ...]) -> Stated:
    """A load by bpf_skb_load_bytes: the context, an offset, a place in the stack, a size."""
    constant = Instruction(_SET, 2, 0, 0, found.constant)
    offset: tuple[Instruction, ...] = (constant,)
    if found.opcode & 0xE0 == op.IND:
        offset = (_moved(2, found.src), Instruction(op.ADD_64, 2, 0, 0, found.constant))
    call = (
        *offset,
        Instruction(op.MOVE_64, 1, found.dst, 0, 0),
        Instruction(op.MOVE_64, 3, FRAME_POINTER, 0, 0),
        Instruction(op.ADD_64, 3, 0, 0, room),
        Instruction(_SET, 4, 0, 0, found.size),
        Instruction(op.CALL, 0, 0, 0, _LOAD_BYTES),
    )
    loaded: tuple[Instruction, ...] = (Instruction(found.opcode & 0x18 | _LOAD, 0, FRAME_POINTER, room, 0),)
    if found.size > 1:
        loaded += (Instruction(_SWAP, 0, 0, 0, 8 * found.size),)
    is_short = Instruction(op.JNE | op.JMP, 0, 0, 0, 0)
    whole = (*call, is_short, *loaded)
    nothing = Instruction(_SET, 0, 0, 0, 0)
    return Stated(PACKET, (*whole, nothing, *ending), len(whole) - 1, {len(call): len(whole)})


_Written = tuple[tuple[Instruction, ...], Mapping[int, int]]


def _loaded(found: Instruction, register: int) -> Instruction:
    return Instruction(found.opcode & 0x18 | _LOAD, register, found.dst, found.offset, 0)


def _stored(found: Instruction, register: int) -> Instruction:
    return Instruction(found.opcode & 0x18 | _STORE, found.dst, register, found.offset, 0)


def _moved(to: int, register: int) -> Instruction:
    return Instruction(op.MOVE_64, to, register, 0, 0)


def _fetched(found: Instruction, register: int) -> _Written:
    operation = Instruction(found.constant & 0xF0 | _OF_REGISTER | op.ALU64, register, found.src, 0, 0)
    return (_moved(register, found.src), _loaded(found, found.src), operation, _stored(found, register)), {}


def _exchanged(found: Instruction, register: int) -> _Written:
    return (_loaded(found, register), _stored(found, found.src), _moved(found.src, register)), {}


def _compared(found: Instruction, register: int) -> _Written:
    kind = op.JMP if found.size == 8 else op.JMP32
    differs = Instruction(op.JNE | _OF_REGISTER | kind, register, 0, 0, 0)
    return (_loaded(found, register), differs, _stored(found, found.src), _moved(0, register)), {1: 3}


_WRITTEN = {FETCHED: _fetched, EXCHANGED: _exchanged, COMPARED: _compared}
