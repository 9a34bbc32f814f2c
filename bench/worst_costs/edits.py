"""Random edits of cases: a search makes one case of another by them."""

from __future__ import annotations

import random
from collections.abc import Callable
from copy import deepcopy
from dataclasses import replace
from typing import Any

from worst_costs.cases import Case, Command, Part

# Numbers at which something changes: limits, powers of two, and those next to them.
NUMBERS = (0, 1, 2, 3, 4, 7, 8, 9, 15, 16, 17, 31, 32, 63, 64, 65, 128, 255, 256, 511, 512, 1024, 2047, 2048, 4095, 4096, 65_535, 65_536)
FAMILIES, WITH_SEED = ("counting", "random"), ("colliding", "crowd")
# Opcodes that many programs have: arithmetic, loads, stores, jumps, calls.
OPCODES = (0x07, 0x0F, 0xAF, 0x57, 0x67, 0x77, 0x24, 0xB7, 0xBF, 0x18, 0x71, 0x69, 0x61, 0x79, 0x72, 0x7A, 0x62, 0x63, 0x7B, 0xDB, 0x05,
           0x15, 0x25, 0x2D, 0x3D, 0x45, 0x55, 0x85, 0x95, 0x37, 0x97, 0x3F, 0x9F, 0xD4, 0xDC, 0x47, 0x4F, 0xC7, 0x6D, 0xC5)
Random = random.Random


def other_number(drawn: Random, number: int) -> int:
    """A number near another one, or a notable one."""
    chosen = drawn.random()
    if chosen < 0.4:
        return number + drawn.choice((-64, -16, -8, -4, -2, -1, 1, 2, 4, 8, 16, 64))
    if chosen < 0.6:
        return drawn.choice((number * 2, number // 2, -number))
    return drawn.choice(NUMBERS)


def edit_numbers(drawn: Random, case: Case) -> Case:
    """Changes a number of a command; a family of keys becomes another one."""
    command = drawn.choice([*case.before, case.step])
    at = drawn.randrange(1, len(command)) if len(command) > 1 else 0
    if at and isinstance(command[at], int):
        command[at] = max(0, other_number(drawn, command[at]))
    elif at and isinstance(command[at], str):
        command[at] = drawn.choice((*FAMILIES, *WITH_SEED) if case.knows_seed else FAMILIES)
    return case


def edit_commands(drawn: Random, case: Case) -> Case:
    """Copies, drops or moves a command."""
    before, at = case.before, drawn.randrange(len(case.before) + 1)
    chosen = drawn.random()
    if chosen < 0.4 and before:
        before.insert(at, deepcopy(drawn.choice(before)))
    elif chosen < 0.7 and at < len(before):
        del before[at]
    elif at < len(before):
        before.insert(drawn.randrange(len(before)), before.pop(at))
    return case


def programs_of(case: Case) -> list[Command]:
    return [command for command in (*case.before, case.step) if command[0] in ("load", "install")]


def edit_field(drawn: Random, slot: list[Any]) -> None:
    """Changes a field of a slot: the opcode, a register, or a number or how it rises."""
    at = drawn.randrange(5)
    if at == 0:
        slot[0] = drawn.choice(OPCODES)
    elif at < 3:
        slot[at] = drawn.randrange(11)
    elif isinstance(slot[at], list):
        inner = drawn.randrange(3)
        slot[at][inner] = other_number(drawn, slot[at][inner])
    elif drawn.random() < 0.2:
        slot[at] = [slot[at], drawn.choice((-8, -1, 1, 8)), drawn.choice((2, 8, 64, 4096))]
    else:
        slot[at] = other_number(drawn, slot[at])


def edit_slots(drawn: Random, parts: list[Part]) -> None:
    """Changes, copies, drops or moves a slot of a part."""
    slots = drawn.choice(parts)[1]
    if not slots:
        return
    at, chosen = drawn.randrange(len(slots)), drawn.random()
    if chosen < 0.5:
        edit_field(drawn, slots[at])
    elif chosen < 0.7:
        slots.insert(at, deepcopy(drawn.choice(slots)))
    elif chosen < 0.85 and len(slots) > 1:
        del slots[at]
    else:
        slots.insert(drawn.randrange(len(slots)), slots.pop(at))


def edit_parts(drawn: Random, parts: list[Part]) -> None:
    """Changes how often a part is repeated, or copies, drops or moves it."""
    at, chosen = drawn.randrange(len(parts)), drawn.random()
    if chosen < 0.5:
        parts[at][0] = max(0, other_number(drawn, parts[at][0]))
    elif chosen < 0.75:
        parts.insert(drawn.randrange(len(parts)), deepcopy(parts[at]))
    elif chosen < 0.9 and len(parts) > 1:
        del parts[at]
    else:
        parts.insert(drawn.randrange(len(parts)), parts.pop(at))


def edit_program(drawn: Random, case: Case) -> Case:
    programs = programs_of(case)
    if programs:
        edit = edit_slots if drawn.random() < 0.7 else edit_parts
        edit(drawn, drawn.choice(programs)[1])
    return case


Edit = Callable[[Random, Case], Case]


def edited(drawn: Random, case: Case) -> Case:
    """Another case: some edits, of the program if there is one, and else of the commands."""
    made = replace(case, before=deepcopy(case.before), step=deepcopy(case.step))
    edits: list[Edit] = [edit_numbers, edit_commands]
    if programs_of(case):
        edits += [edit_program] * (8 if case.kind == "load" else 3)
    for _ in range(drawn.choice((1, 1, 1, 2, 3))):
        made = drawn.choice(edits)(drawn, made)
    return made
