"""Programs of the bench as parts: slots that are repeated, with numbers that rise by equal steps, are written once."""

from __future__ import annotations

import struct
from typing import Any

from programs import Program
from worst_costs.cases import Part

Slots = list[list[int]]


def slots_of(program: Program) -> Slots:
    """A program, slot by slot."""
    found = []
    for each in program.slots:
        opcode, registers, off, imm = struct.unpack("<BBhi", each)
        found.append([opcode, registers & 15, registers >> 4, off, imm])
    return found


def steps_alike(slots: Slots, at: int, length: int, repetition: int) -> bool:
    """Whether a repetition differs from the one before it as the second one from the first."""
    here = at + repetition * length
    for inner in range(length):
        first, second, before, now = (slots[it + inner] for it in (at, at + length, here - length, here))
        if now[:3] != first[:3] or any(now[field] - before[field] != second[field] - first[field] for field in (3, 4)):
            return False
    return True


def repeats(slots: Slots, at: int, length: int) -> int:
    """How often the slots from one on are repeated, their numbers rising."""
    times = 1
    while at + (times + 1) * length <= len(slots) and steps_alike(slots, at, length, times):
        times += 1
    return times


def rising(slots: Slots, at: int, length: int, times: int) -> list[Any]:
    """A slot of a part."""
    slot: list[Any] = [*slots[at]]
    for field in (3, 4):
        step = slots[at + length][field] - slots[at][field] if times > 1 else 0
        if step:
            slot[field] = [slots[at][field], step, times]
    return slot


def joined(parts: list[Part]) -> list[Part]:
    """Parts that occur once, one after another, as one part."""
    found = list[Part]()
    for times, slots in parts:
        if found and times == found[-1][0] == 1:
            found[-1][1].extend(slots)
        else:
            found.append([times, list(slots)])
    return found


def parts_of(program: Program, longest: int = 80) -> list[Part]:
    """The parts of a program; no part has more slots than the longest."""
    slots, parts, at = slots_of(program), list[Part](), 0
    while at < len(slots):
        times, length = max(((repeats(slots, at, length), length) for length in range(1, longest)), key=lambda it: (it[0] - 1) * it[1])
        if (times - 1) * length < 4:
            times, length = 1, 1
        parts.append([times, [rising(slots, at + inner, length, times) for inner in range(length)]])
        at += times * length
    return joined(parts)
