"""The graph of a report: blocks as boxes, with the copies of an unrolled loop folded, and the middle of a long block."""

from __future__ import annotations

from collections.abc import Sequence
from dataclasses import dataclass

from bpfhost.lowering import Lowered
from bpfhost.report.blocks import BasicBlock

# How many instructions of a long block are shown at each end.
_ENDS = 2


@dataclass(frozen=True)
class Box:
    """A box of the graph: the numbers of its blocks, which are copies of one another, and which copies they are, of how many."""

    blocks: tuple[int, ...]
    first_copy: int
    copies: int

    @property
    def is_folded(self) -> bool:
        """Whether it has several copies."""
        return len(self.blocks) > 1


@dataclass(frozen=True)
class Edge:
    """An edge between two boxes, by their numbers."""

    begin: int
    end: int
    is_taken: bool


def boxes_of(blocks: Sequence[BasicBlock], lowered: Lowered) -> list[Box]:
    """The boxes in the order of their first slots: of blocks that are copies, the first is a box, and all others together are one."""
    groups: dict[tuple[object, ...], list[int]] = {}
    for number, block in enumerate(blocks):
        groups.setdefault(_key(number, block, lowered), []).append(number)
    found = []
    for group in groups.values():
        found.append(Box((group[0],), 1, len(group)))
        if len(group) > 1:
            found.append(Box(tuple(group[1:]), 2, len(group)))
    return sorted(found, key=lambda box: box.blocks[0])


def _key(number: int, block: BasicBlock, lowered: Lowered) -> tuple[object, ...]:
    """What the copies of a block have in common: the origins of their instructions."""
    kept = [slot for slot in block.slots if slot < len(lowered.origins) and not lowered.is_added(slot)]
    return tuple(lowered.origins[slot] for slot in kept) or (number,)


def edges_of(blocks: Sequence[BasicBlock], boxes: Sequence[Box]) -> list[Edge]:
    """The edges between boxes, each once; those between the copies in a box are left out."""
    place = {number: at for at, box in enumerate(boxes) for number in box.blocks}
    found: dict[Edge, None] = {}
    for number, block in enumerate(blocks):
        for target, is_taken in ((block.next, False), (block.taken, True)):
            if target is not None and (place[target] != place[number] or target == number):
                found[Edge(place[number], place[target], is_taken)] = None
    return list(found)


def shown_slots(block: BasicBlock, kept: Sequence[int] = ()) -> list[int | str]:
    """The slots of a block to show; for a long one those at its ends, and how many are left out; those of `kept` stay."""
    count, found = len(block.slots), list[int | str]()
    is_shown = [at < _ENDS or at >= count - _ENDS or block.slots[at] in kept for at in range(count)]
    at = 0
    while at < count:
        end = next(each for each in range(at, count) if is_shown[each])
        if end - at > 1:
            found.append(f"… {end - at} more")
            at = end
        found.append(block.slots[at])
        at += 1
    return found
