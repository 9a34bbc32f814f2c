"""The instructions of RFC 9669, by opcode and by the field that distinguishes those of one opcode; and the text of each.

This is a second implementation of docs/INSTRUCTIONS.md and of the RFC's tables (sections 3 to 5), independent of the crates.
"""

from __future__ import annotations

import re
from dataclasses import dataclass

ALU, JMP, JMP32, ALU64 = 4, 5, 6, 7
ARITHMETIC = {0: "+=", 1: "-=", 2: "*=", 4: "|=", 5: "&=", 6: "<<=", 7: ">>=", 10: "^=", 12: "s>>="}
DIVISIONS = {(3, 0): "/=", (3, 1): "s/=", (9, 0): "%=", (9, 1): "s%="}
CONDITIONS = {1: "==", 2: ">", 3: ">=", 4: "&", 5: "!=", 6: "s>", 7: "s>=", 10: "<", 11: "<=", 12: "s<", 13: "s<="}
SIZES = {0x61: "u32", 0x69: "u16", 0x71: "u8", 0x79: "u64", 0x81: "s32", 0x89: "s16", 0x91: "s8"}
ATOMICS = {0x00: "+=", 0x40: "|=", 0x50: "&=", 0xA0: "^="}
FETCHING = {0x01: "+= with FETCH", 0x41: "|= with FETCH", 0x51: "&= with FETCH", 0xA1: "^= with FETCH", 0xE1: "exchange", 0xF1: "compare and exchange"}
WIDE = {0: "r = constant ll", 1: "r = map_fd FD ll", 2: "r = map_value FD + OFFSET ll"}
OTHER_WIDE = {3: "address of a variable", 4: "address of code", 5: "map by index", 6: "value of a map by index"}


@dataclass(frozen=True, order=True)
class Key:
    """An opcode, and the field that distinguishes its instructions if it has several: the offset, the imm or the source."""

    opcode: int
    field: int = 0

    def __str__(self) -> str:
        return f"`{self.opcode:02x}`"


@dataclass(frozen=True)
class Instruction:
    """An instruction of the RFC. `group` is its conformance group; base64 includes base32, so the two are one here."""

    key: Key
    text: str
    group: str
    is_here: bool = True


def key_of(slot: bytes) -> Key:
    """The instruction that begins with a slot."""
    opcode, src = slot[0], slot[1] >> 4
    offset, imm = int.from_bytes(slot[2:4], "little", signed=True), int.from_bytes(slot[4:8], "little")
    if opcode & 7 in (ALU, ALU64):
        code = opcode >> 4
        if code in (3, 9) or (code == 11 and opcode & 8):
            return Key(opcode, offset)
        return Key(opcode, imm) if code == 13 else Key(opcode)
    if opcode in (0xC3, 0xDB):
        return Key(opcode, imm)
    return Key(opcode, src) if opcode in (0x18, 0x85) else Key(opcode)


def arithmetic() -> list[Instruction]:
    found = []
    for kind, letter, bits in ((ALU, "w", 32), (ALU64, "r", 64)):
        for source, operand in ((0, "imm"), (8, letter)):
            found += [Instruction(Key(16 * code + source + kind), f"{letter} {sign} {operand}", f"divmul{bits}" if code == 2 else "base")
                      for code, sign in ARITHMETIC.items()]
            found += [Instruction(Key(16 * code + source + kind, offset), f"{letter} {sign} {operand}", f"divmul{bits}")
                      for (code, offset), sign in DIVISIONS.items()]
            found.append(Instruction(Key(0xB0 + source + kind), f"{letter} = {operand}", "base"))
        found += [Instruction(Key(0xB8 + kind, width), f"{letter} = (s{width}){letter}", "base") for width in (8, 16, 32) if width < bits]
        found.append(Instruction(Key(0x80 + kind), f"{letter} = -{letter}", "base"))
    for opcode, name in ((0xD4, "le"), (0xDC, "be"), (0xD7, "bswap")):
        found += [Instruction(Key(opcode, width), f"r = {name}{width} r", "base") for width in (16, 32, 64)]
    return found


def jumps() -> list[Instruction]:
    found = [Instruction(Key(0x05), "goto", "base"), Instruction(Key(0x06), "gotol", "base"), Instruction(Key(0x95), "exit", "base"),
             Instruction(Key(0x85, 0), "call of a helper", "base"), Instruction(Key(0x85, 1), "call within the program", "base", False),
             Instruction(Key(0x85, 2), "call of a helper by BTF id", "base", False)]
    for kind, letter in ((JMP, "r"), (JMP32, "w")):
        found += [Instruction(Key(16 * code + source + kind), f"if {letter} {sign} {operand} goto", "base")
                  for source, operand in ((0, "imm"), (8, letter)) for code, sign in CONDITIONS.items()]
    return found


def memory() -> list[Instruction]:
    found = [Instruction(Key(opcode), f"r = *({size} *)(r + off)", "base") for opcode, size in SIZES.items()]
    for opcode, size in list(SIZES.items())[:4]:
        found += [Instruction(Key(opcode + 1), f"*({size} *)(r + off) = imm", "base"), Instruction(Key(opcode + 2), f"*({size} *)(r + off) = r", "base")]
    for opcode, size, group in ((0xC3, "u32", "atomic32"), (0xDB, "u64", "atomic64")):
        found += [Instruction(Key(opcode, imm), f"lock *({size} *)(r + off) {sign} r", group) for imm, sign in ATOMICS.items()]
        found += [Instruction(Key(opcode, imm), f"{what}, {size}", group, False) for imm, what in FETCHING.items()]
    found += [Instruction(Key(0x18, src), text, "base") for src, text in WIDE.items()]
    found += [Instruction(Key(0x18, src), f"wide load: {text}", "base", False) for src, text in OTHER_WIDE.items()]
    return found + [Instruction(Key(mode + size), f"legacy packet load, {name}", "packet", False)
                    for mode, how in ((0x20, "by imm"), (0x40, "by register")) for size, name in ((0, f"u32 {how}"), (8, f"u16 {how}"), (16, f"u8 {how}"))]


INSTRUCTIONS = arithmetic() + jumps() + memory()
BY_KEY = {each.key: each for each in INSTRUCTIONS}
REGISTER, NUMBER = r"[rw](?:10|\d)", r"-? ?(?:0x[0-9a-fA-F]+|\d+)"
SIGNS = {sign: (code, 0) for code, sign in ARITHMETIC.items()} | {sign: pair for pair, sign in DIVISIONS.items()} | {"=": (11, 0)}
ALU_LINE = re.compile(rf"([rw])(?:10|\d) ?(s?[-+*/|&<>%^]*=) ?({REGISTER}|{NUMBER})")
JUMP_LINE = re.compile(rf"if ([rw])(?:10|\d) ?(s?[<>]=?|[=!]=|&) ?({REGISTER}|{NUMBER}) goto .*")
FIXED = [
    (re.compile(r"goto .*"), Key(0x05)), (re.compile(r"gotol .*"), Key(0x06)), (re.compile(r"exit"), Key(0x95)),
    (re.compile(r"call .*"), Key(0x85, 0)), (re.compile(r"w\d+ = -w\d+"), Key(0x84)), (re.compile(r"r\d+ = -r\d+"), Key(0x87)),
    (re.compile(rf"r\d+ ?= ?{NUMBER} ?ll"), Key(0x18, 0)), (re.compile(r"r\d+ ?= ?map_fd .* ?ll"), Key(0x18, 1)),
    (re.compile(r"r\d+ ?= ?map_value.*ll"), Key(0x18, 2)),
]
SWAPPED = re.compile(r"r\d+ = (le|be|bswap)(16|32|64) r\d+")
EXTENDED = re.compile(r"([rw])\d+ = \(s(8|16|32)\)[rw]\d+")
LOADED = re.compile(r"r\d+ = \*\( ?([us]\d+) ?\*\) ?\(.*\)")
STORED = re.compile(r"\*\( ?(u\d+) ?\*\) ?\(.*\) = (r?).*")
ATOMIC_SIGN = "|".join(re.escape(sign) for sign in ATOMICS.values())
ATOMIC = re.compile(rf"lock ?\* ?\( ?(u32|u64) ?\* ?\) ?\(.*\) ?({ATOMIC_SIGN}) ?r\d+")


def key_of_text(line: str) -> Key | None:
    """The instruction that a line of a program's text writes; None if it writes none, as a label."""
    line = " ".join(line.partition("//")[0].split())
    for pattern, key in FIXED:
        if pattern.fullmatch(line):
            return key
    if found := SWAPPED.fullmatch(line):
        return Key({"le": 0xD4, "be": 0xDC, "bswap": 0xD7}[found[1]], int(found[2]))
    if found := EXTENDED.fullmatch(line):
        return Key(0xBC if found[1] == "w" else 0xBF, int(found[2]))
    if found := ATOMIC.fullmatch(line):
        return Key(0xC3 if found[1] == "u32" else 0xDB, {sign: imm for imm, sign in ATOMICS.items()}[found[2]])
    opcodes = {size: opcode for opcode, size in SIZES.items()}
    if found := LOADED.fullmatch(line):
        return Key(opcodes[found[1]])
    if found := STORED.fullmatch(line):
        return Key(opcodes[found[1]] + (2 if found[2] else 1))
    if found := JUMP_LINE.fullmatch(line):
        code = {sign: code for code, sign in CONDITIONS.items()}[found[2]]
        return Key(16 * code + (8 if found[3][0] in "rw" else 0) + (JMP if found[1] == "r" else JMP32))
    if (found := ALU_LINE.fullmatch(line)) and found[2] in SIGNS:
        code, offset = SIGNS[found[2]]
        return Key(16 * code + (8 if found[3][0] in "rw" else 0) + (ALU64 if found[1] == "r" else ALU), offset)
    return None
