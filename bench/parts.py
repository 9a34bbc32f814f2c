"""The instructions of a program as parts of sequences, as crates/insn_codec/src/sequences.rt numbers them."""

from __future__ import annotations

import re
import struct
from collections.abc import Iterator, Sequence

# The parts of a sequence.
Parts = tuple[int, ...]

SLOT = 8
# The second slot of a wide load; a wide load of an address in a value, and one of a map, which has no opcode of its own.
SECOND, LDDW_VALUE, LDDW_MAP = 0x00, 0x18, 0x19
ADD64_K, MOV64_K, LDXH, JEQ32_K, MOV32_K = 0x07, 0xB7, 0x69, 0x16, 0xB4
# The number of the helper that loads bytes of the packet.
LOAD_BYTES_NUMBER = 26
MOV32, MOV64, BE16, ATOMIC_ADD, CALL, EXIT, JA, JAL = 0xBC, 0xBF, 0xDC, 0xDB, 0x85, 0x95, 0x05, 0x06
# Parts that have no opcode of their own, as of them more is known: a call of the helper that loads bytes of the packet, the instructions
# that set its arguments, a load of two of these bytes with a jump, and the number that is returned. Each is also a part of another kind.
LOAD_BYTES, R3_FRAME, R3_ADD_K, R2_K, R4_K, R7_LDXH, R7_JEQ32_K, R0_MOV32_K = 0x86, 0xE0, 0xE1, 0xE2, 0xE3, 0xE4, 0xE5, 0xE6
ALSO = {
    LOAD_BYTES: CALL, R3_FRAME: MOV64, R3_ADD_K: ADD64_K, R2_K: MOV64_K, R4_K: MOV64_K, R7_LDXH: LDXH, R7_JEQ32_K: JEQ32_K,
    R0_MOV32_K: MOV32_K,
}
# The opcode, the registers and the immediate of each, as far as they are known.
KNOWN = {
    (CALL, 0, LOAD_BYTES_NUMBER): LOAD_BYTES, (MOV64, 0xA3, None): R3_FRAME, (ADD64_K, 3, None): R3_ADD_K, (MOV64_K, 2, None): R2_K,
    (MOV64_K, 4, None): R4_K, (LDXH, 0xA7, None): R7_LDXH, (JEQ32_K, 7, None): R7_JEQ32_K,
    (MOV32_K, 0, None): R0_MOV32_K,
}
_NAMES = {
    LDDW_VALUE: "LDDW_VALUE", LDDW_MAP: "LDDW_MAP", BE16: "BE16", ATOMIC_ADD: "ATOMIC_ADD", CALL: "CALL", LOAD_BYTES: "LOAD_BYTES",
    R3_FRAME: "R3_FRAME", R3_ADD_K: "R3_ADD_K", R2_K: "R2_K", R4_K: "R4_K", R7_LDXH: "R7_LDXH", R7_JEQ32_K: "R7_JEQ32_K",
    R0_MOV32_K: "R0_MOV32_K", EXIT: "EXIT", JA: "JA",
}
_ALU = ("ADD", "SUB", "MUL", "DIV", "OR", "AND", "LSH", "RSH", "NEG", "MOD", "XOR", "MOV", "ARSH", "BE")
_JUMPS = ("JA", "JEQ", "JGT", "JGE", "JSET", "JNE", "JSGT", "JSGE", "CALL", "EXIT", "JLT", "JLE", "JSLT", "JSLE")
_SIZES = ("W", "H", "B", "DW")
_CLASSES = ("LD", "LDX", "ST", "STX", "ALU32", "JMP64", "JMP32", "ALU64")


def table(text: str) -> list[Parts]:
    """The sequences of sequences.rt, in their order: a load marks a slot with the first one that begins there."""
    numbers = {name: int(value, 16) for name, value in re.findall(r"^(?:pub )?const (\w+): u8 = (0x\w+);", text, re.M)}
    found = re.findall(r"\(\s*0x\w+,\s*Parts::\w+\(([\w,\s]+)\),?\s*\)", text)
    return [tuple(numbers[name] for name in re.findall(r"\w+", names)) for names in found]


def parts_of(slots: bytes) -> list[int | None]:
    """The part that each slot is, of which most is known. None for an instruction in a form that no sequence has, as a move that extends
    the sign."""
    return list(_parts(slots))


def _parts(slots: bytes) -> Iterator[int | None]:
    for opcode, registers, offset, imm in struct.iter_unpack("<BBhi", slots):
        if opcode in (MOV32, MOV64) and offset:
            yield None
        elif opcode == LDDW_VALUE:
            yield {1: LDDW_MAP, 2: LDDW_VALUE}.get(registers >> 4)
        elif opcode in (BE16, ATOMIC_ADD):
            yield opcode if imm == (16 if opcode == BE16 else 0) else None
        else:
            yield KNOWN.get((opcode, registers, imm), KNOWN.get((opcode, registers, None), opcode))


def is_also(part: int | None, other: int) -> bool:
    """Whether a slot that is this part is the other one, too."""
    return part == other or part is not None and ALSO.get(part) == other


def begins(parts: Sequence[int | None], row: Parts) -> bool:
    """Whether some slots, with these parts, begin with a sequence."""
    return len(parts) >= len(row) and all(map(is_also, parts, row))


def is_last(part: int) -> bool:
    """Whether a sequence may only end with this part: a jump, a call or an exit."""
    return _CLASSES[part & 7].startswith("JMP")


def ahead(slots: bytes, at: int, length: int) -> list[int]:
    """The slots at which a run may continue after a turn of so many slots from this one on."""
    last = at + length - 1
    opcode, _, offset, imm = struct.unpack_from("<BBhi", slots, SLOT * last)
    after = last + 2 if opcode == LDDW_VALUE else last + 1
    if opcode == EXIT:
        return []
    if opcode in (JA, JAL):
        return [after + (offset if opcode == JA else imm)]
    return [after, after + offset] if is_last(opcode) and opcode != CALL else [after]


def names(parts: Parts) -> str:
    """The names of the instructions of a sequence, as sequences.rt has them."""
    return ", ".join(_name(part) for part in parts if part != SECOND)


def _name(part: int) -> str:
    if part in _NAMES:
        return _NAMES[part]
    kind, code = _CLASSES[part & 7], part >> 4
    if kind in ("LDX", "ST", "STX"):
        return f"{kind}{_SIZES[part >> 3 & 3]}"
    operations = _ALU if kind.startswith("ALU") else _JUMPS
    return f"{operations[code]}{kind[-2:]}{'' if part & 8 else '_K'}"
