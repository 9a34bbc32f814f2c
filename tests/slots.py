"""The model's decoder of a program's slots: its wide loads and its atomic operations; and damaged slots of these."""

from __future__ import annotations

import random
import struct
from collections.abc import Iterator
from dataclasses import dataclass

from atomics import OPERATIONS

WIDE, ATOMIC_WORD, ATOMIC_DOUBLE = 0x18, 0xC3, 0xDB
# No instruction has these opcodes: an atomic operation on one byte or on two.
NO_ATOMICS = (0xCB, 0xD3)
NUMBERS = [it.number for it in OPERATIONS]
FETCH, EXCHANGE, COMPARE = 0x01, 0xE1, 0xF1


@dataclass(frozen=True)
class Slot:
    """The fields of an instruction's first slot, by the number of the slot, and the bytes of the next one."""

    slot: int
    opcode: int
    dst: int
    src: int
    off: int
    imm: int
    second: bytes


class WideLoad(Slot):
    def is_of_map(self) -> bool:
        return self.src in (1, 2)

    def is_direct(self) -> bool:
        """Whether it loads the address of a value."""
        return self.src == 2

    def offset_in_value(self) -> int:
        return int.from_bytes(self.second[4:], "little")

    def misspelled(self) -> int:
        """The reason for which its slots are not a valid instruction, or 0."""
        if self.src > 2 or self.off:
            return 102
        if self.dst > 10:
            return 103
        is_right = len(self.second) == 8 and not any(self.second[:4]) and (self.src != 1 or not self.offset_in_value())
        return 0 if is_right else 104


class Atomic(Slot):
    def misspelled(self) -> int:
        if self.opcode in NO_ATOMICS:
            return 101
        if self.imm not in NUMBERS:
            return 102
        return 103 if max(self.dst, self.src) > 10 else 0


def first_slots(slots: bytes) -> Iterator[Slot]:
    """The first slots of all instructions; a last one that is cut off lacks its second slot."""
    at = 0
    while at < len(slots):
        opcode, registers, off, imm = struct.unpack("<BBHI", slots[at : at + 8])
        yield Slot(at // 8, opcode, registers % 16, registers // 16, off, imm, slots[at + 8 : at + 16])
        at += 16 if opcode == WIDE else 8


def wide_loads(slots: bytes) -> list[WideLoad]:
    return [WideLoad(**vars(it)) for it in first_slots(slots) if it.opcode == WIDE]


def atomics(slots: bytes) -> list[Atomic]:
    """The atomic operations, and slots that are almost one."""
    return [Atomic(**vars(it)) for it in first_slots(slots) if it.opcode in (ATOMIC_WORD, ATOMIC_DOUBLE, *NO_ATOMICS)]


def misspelled(slots: bytes) -> list[tuple[int, int]]:
    """The reasons for which slots are not a valid instruction, or 0, in the order of the slots."""
    found: list[WideLoad | Atomic] = [*wide_loads(slots), *atomics(slots)]
    return sorted((it.slot, it.misspelled()) for it in found)


# Damaged slots.


def spoiled(draw: random.Random, slots: bytes) -> bytes:
    """The slots with one wide load or one atomic operation that is wrong in a field."""
    found = atomics(slots)
    if found and draw.random() < 0.7:
        return with_wrong_atomic(draw, slots, draw.choice(found))
    return with_wrong_load(draw, slots, draw.choice(wide_loads(slots)))


def with_wrong_load(draw: random.Random, slots: bytes, load: WideLoad) -> bytes:
    """A wrong field of a wide load, or the frame pointer as its destination, or its second slot cut off."""
    at, wrong = 8 * load.slot, bytearray(slots)
    if draw.random() < 0.1:
        return slots[: at + 8]
    if draw.random() < 0.4:
        wrong[at + 1] = draw.choice((load.src * 16 + draw.randrange(10, 16), draw.randrange(3, 16) * 16 + load.dst))
    else:
        wrong[at + draw.choice((2, 3, 8, 9, 10, 11))] = draw.randrange(1, 256)
    return bytes(wrong)


def with_wrong_atomic(draw: random.Random, slots: bytes, atomic: Atomic) -> bytes:
    """The number of none of the operations, now and then a size of one byte or two, or a register above 10."""
    at, wrong, draws = 8 * atomic.slot, bytearray(slots), draw.random()
    if draws < 0.15:
        wrong[at] = draw.choice(NO_ATOMICS)
    elif draws < 0.3:
        register = draw.randrange(11, 16)
        wrong[at + 1] = draw.choice((register * 16 + atomic.dst, atomic.src * 16 + register))
    else:
        numbers = [it + FETCH for it in NUMBERS] + [EXCHANGE, COMPARE, draw.choice(NUMBERS) + 256, draw.randrange(1 << 32)]
        number = draw.choice([it for it in numbers if it not in NUMBERS])
        wrong[at + 4 : at + 8] = number.to_bytes(4, "little")
    return bytes(wrong)
