"""eBPF slots, written one after another, with jumps to labels that are set later (RFC 9669; docs/INSTRUCTIONS.md)."""

from __future__ import annotations

import struct
from collections.abc import Hashable

from bpfhost.numbers import SLOT_SIZE

R0, R1, R2, R3, R4, R5, R10 = 0, 1, 2, 3, 4, 5, 10
# Opcodes: a `W` is a 32-bit operation, a `K` has a number as its operand, an `X` a register.
MOVE_K, MOVE_K_W, MOVE_X_W, MOVE_X, ADD_K, ADD_K_W, ADD_X = 0xB7, 0xB4, 0xBC, 0xBF, 0x07, 0x04, 0x0F
LEFT_K_W, OR_X_W, NEGATE_W, TO_BIG_ENDIAN = 0x64, 0x4C, 0x84, 0xDC
JUMP, CALL, EXIT = 0x05, 0x85, 0x95
JUMP_NOT_EQUAL_K, JUMP_ABOVE_K = 0x55, 0x25
STORE_WORD, STORE_WORD_K = 0x63, 0x62
LOAD = {4: 0x61, 2: 0x69, 1: 0x71}
LOAD_BYTES = 26


class SlotsWriter:
    """The slots of a program while they are written."""

    def __init__(self) -> None:
        self._slots: list[bytes] = []
        self._jumps: list[tuple[int, Hashable]] = []
        self._targets: set[Hashable] = set()
        self._labels: dict[Hashable, int] = {}

    def __len__(self) -> int:
        return len(self._slots)

    def put(self, opcode: int, to: int = 0, source: int = 0, *, offset: int = 0, number: int = 0) -> None:
        """Writes a slot; a number is taken modulo 2^32."""
        self._slots.append(struct.pack("<BBhI", opcode, to | source << 4, offset, number % 2**32))

    def jump(self, label: Hashable, opcode: int = JUMP, register: int = 0, source: int = 0, *, number: int = 0) -> None:
        """Writes a jump to a label."""
        self._jumps.append((len(self), label))
        self._targets.add(label)
        self.put(opcode, register, source, number=number)

    def label(self, label: Hashable) -> None:
        """Sets a label at the next slot."""
        self._labels[label] = len(self)

    def is_jumped_to(self, label: Hashable) -> bool:
        """Whether a jump to a label was written."""
        return label in self._targets

    def slots(self) -> bytes:
        """The slots, with the offsets of all jumps; of at most 4,096 slots, within which every jump offset fits."""
        found = bytearray(b"".join(self._slots))
        for at, label in self._jumps:
            struct.pack_into("<h", found, SLOT_SIZE * at + 2, self._labels[label] - at - 1)
        return bytes(found)
