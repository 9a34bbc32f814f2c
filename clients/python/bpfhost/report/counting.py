"""Copies of a program that count how many runs go through each block.

A block gets three instructions more, at a place at which two registers are not needed: they add 1 to a number of a map of its own. The
results of the program stay the same. If one copy has no room for all blocks, several copies count some of them each.
"""

from __future__ import annotations

from collections.abc import Mapping, Sequence
from dataclasses import dataclass, replace

from bpfhost.lowering import instructions as op
from bpfhost.lowering.instructions import FRAME_POINTER, Instruction, decoded, reads, writes
from bpfhost.numbers import LONGEST_VALUE, MOST_MAPS, MOST_SLOTS, MapType
from bpfhost.objects import MapSlot, ObjectFile, ObjectMap, ObjectProgram
from bpfhost.report.blocks import BasicBlock
from bpfhost.slots import WIDE_LOAD

NAME = "packets of blocks"
_WORD = 8
# The most copies, each of which runs on all packets, and the slots that count a block.
_MOST_COPIES, _SLOTS = 16, 4
_SET, _ADD, _OF_VALUE = 0xB7, 0xDB, 2
# A slot, and two registers that are not needed before it.
_Place = tuple[int, tuple[int, int]]


@dataclass(frozen=True)
class Counting:
    """An object with a map more, its program that counts, and the blocks that it counts, in the order of the numbers in the map."""

    object_file: ObjectFile
    program: ObjectProgram
    counted: tuple[int, ...]

    def counts(self, value: bytes) -> dict[int, int]:
        """How many runs went through each block, by the value of the map."""
        numbers = [int.from_bytes(value[_WORD * at : _WORD * (at + 1)], "little") for at in range(len(self.counted))]
        return dict(zip(self.counted, numbers))


def countings(object_file: ObjectFile, program: ObjectProgram, blocks: Sequence[BasicBlock]) -> list[Counting]:
    """The copies that count; none if the object has no room for another map, or the program for more instructions."""
    found = decoded(program.slots)
    live = _live(found, blocks)
    places = {number: place for number, block in enumerate(blocks) if (place := _place(block, found, live)) is not None}
    counted = list(places)
    most = min((MOST_SLOTS - len(program.slots) // _WORD) // _SLOTS, LONGEST_VALUE // _WORD)
    if len(object_file.maps) >= MOST_MAPS or most <= 0:
        return []
    copies = [counted[at : at + most] for at in range(0, len(counted), most)][:_MOST_COPIES]
    return [_counting(object_file, program, found, {number: places[number] for number in each}) for each in copies]


def _counting(
    object_file: ObjectFile, program: ObjectProgram, found: dict[int, Instruction], places: Mapping[int, _Place]
) -> Counting:
    """The copy that counts the blocks of these numbers, at these places."""
    added = {slot: (registers, _WORD * at) for at, (slot, registers) in enumerate(places.values())}
    size = _WORD * len(places)
    declared = ObjectMap(NAME, MapType.ARRAY, 4, size, 1, None, None, bytes(size))
    longer = replace(object_file, maps=(*object_file.maps, declared))
    return Counting(longer, _written(program, found, added, len(object_file.maps)), tuple(places))


def _live(found: dict[int, Instruction], blocks: Sequence[BasicBlock]) -> dict[int, frozenset[int]]:
    """The registers that are needed before each slot; all jumps go forward."""
    live: dict[int, frozenset[int]] = {}
    for block in reversed(blocks):
        needed = frozenset[int]().union(*(live[blocks[each].slots[0]] for each in (block.taken, block.next) if each is not None))
        for slot in reversed(block.slots):
            needed = needed.difference(writes(found[slot])).union(reads(found[slot]))
            live[slot] = needed
    return live


def _place(block: BasicBlock, found: dict[int, Instruction], live: dict[int, frozenset[int]]) -> _Place | None:
    """The first slot of a block before which two registers are not needed, and these registers."""
    for slot in block.slots:
        free = [register for register in range(FRAME_POINTER) if register not in live[slot]]
        if len(free) > 1:
            return slot, (free[0], free[1])
    return None


def _written(
    program: ObjectProgram, found: dict[int, Instruction], added: Mapping[int, tuple[tuple[int, int], int]], number: int
) -> ObjectProgram:
    """The program with instructions that count before these slots."""
    begins: dict[int, int] = {}
    at = 0
    for slot, each in found.items():
        begins[slot] = at
        at += each.slots + (_SLOTS if slot in added else 0)
    pieces: list[bytes] = []
    map_slots = [MapSlot(begins[each.slot] + (_SLOTS if each.slot in added else 0), each.map) for each in program.map_slots]
    for slot, each in found.items():
        here = begins[slot]
        if slot in added:
            (base, one), offset = added[slot]
            map_slots.append(MapSlot(here, number))
            pieces += _counts(base, one, offset)
            here += _SLOTS
        distance = each.distance() if each.is_goto or each.is_comparison else None
        pieces.append((each if distance is None else each.jumping(begins[slot + 1 + distance] - here - 1)).to_bytes())
    lines = tuple(replace(line, slot=begins[line.slot]) for line in program.lines if line.slot in begins)
    ordered = tuple(sorted(map_slots, key=lambda each: each.slot))
    return replace(program, slots=b"".join(pieces), map_slots=ordered, lines=lines)


def _counts(base: int, one: int, offset: int) -> list[bytes]:
    load = Instruction(WIDE_LOAD, base, _OF_VALUE, 0, 0, bytes(4) + offset.to_bytes(4, "little"))
    return [each.to_bytes() for each in (load, Instruction(_SET, one, 0, 0, 1), Instruction(_ADD, base, one, 0, op.ADD))]
