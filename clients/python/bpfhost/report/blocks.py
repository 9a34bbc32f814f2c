"""The basic blocks of a form: slots, and the edges between blocks."""

from __future__ import annotations

from dataclasses import dataclass

from bpfhost.lowering.instructions import Instruction, decoded


@dataclass(frozen=True)
class BasicBlock:
    """Slots that run one after another, and the numbers of the blocks that follow: `taken` if a jump holds, `next` otherwise."""

    slots: tuple[int, ...]
    taken: int | None = None
    next: int | None = None


def blocks_of(slots: bytes) -> list[BasicBlock]:
    """The blocks in the order of their slots. An edge out of the program, or into the middle of an instruction, is left out."""
    found = decoded(slots)
    leaders = {0}
    for slot, each in found.items():
        if _distance(each) is not None or each.is_exit:
            leaders |= {slot + each.slots, slot + 1 + (_distance(each) or 0)}
    groups: list[list[int]] = []
    for slot in found:
        if slot in leaders or not groups:
            groups.append([])
        groups[-1].append(slot)
    numbers = {group[0]: number for number, group in enumerate(groups)}
    return [_block(group, found[group[-1]], numbers) for group in groups]


def _distance(found: Instruction) -> int | None:
    return found.distance() if found.is_goto or found.is_comparison else None


def _block(group: list[int], last: Instruction, numbers: dict[int, int]) -> BasicBlock:
    distance = _distance(last)
    after, target = numbers.get(group[-1] + last.slots), None if distance is None else numbers.get(group[-1] + 1 + distance)
    if last.is_exit:
        return BasicBlock(tuple(group))
    return BasicBlock(tuple(group), None, target) if last.is_goto else BasicBlock(tuple(group), target, after)
