"""Control-flow graphs: a function as basic blocks, blocks in topological order, and the slots that they are written as."""

from __future__ import annotations

from collections.abc import Callable, Iterator, Mapping
from dataclasses import dataclass, replace
from typing import NamedTuple

from bpfhost.lowering.errors import Cycle
from bpfhost.lowering.instructions import Instruction, goto


# What is added before a part: a move between registers that hold the same number, a store of 0 at the start, a comparison of an index, a
# comparison with a number that is known; and what is only reached by the edge of such a comparison that is never taken.
EQUAL, ZERO, INDEX, KNOWN, NEVER = "equal", "zeros", "index", "known", "never"


class Origin(NamedTuple):
    """The origin of an instruction: the number of a frame, a slot of its function, and an index among the instructions that the slot became.

    `added` says what is added before this part; it is empty for the part itself.
    """

    frame: int
    slot: int
    part: int = 0
    added: str = ""


class Step(NamedTuple):
    """An instruction with its origin."""

    instruction: Instruction
    origin: Origin


@dataclass(frozen=True)
class Block:
    """Instructions that run one after another.

    After them, `jump` is a comparison: to block `taken` if it is true, and else to `next`. Without `jump` the block continues at `next`;
    without `next` its last instruction ends the program. `origin` is the place at which it begins.
    """

    origin: Origin
    steps: tuple[Step, ...]
    next: int | None = None
    jump: Step | None = None
    taken: int | None = None

    def successors(self) -> tuple[int, ...]:
        """The successors, the target of the jump first."""
        return tuple(each for each in (self.taken, self.next) if each is not None)

    def leading(self, to: Callable[[int], int]) -> Block:
        """The block with other numbers for its successors."""
        taken = None if self.taken is None else to(self.taken)
        return replace(self, next=None if self.next is None else to(self.next), taken=taken)

    @property
    def slots(self) -> int:
        """How many slots its instructions take, without unconditional jumps."""
        return sum(step.instruction.slots for step in self.steps) + (self.jump is not None)


# Blocks by their numbers; the first one is 0.
Graph = Mapping[int, Block]


class Written(NamedTuple):
    """Slots, with the origin of each, and the block."""

    slots: bytes
    origins: tuple[Origin, ...]
    blocks: tuple[int, ...]


def in_order(graph: Graph) -> list[int]:
    """The reachable blocks in topological order; of two successors, the one that is not jumped to follows as closely as possible.

    Raises Cycle if there is no such order.
    """
    finished: list[int] = []
    state = {0: False}
    path = [(0, iter(graph[0].successors()))]
    while path:
        block, following = path[-1]
        next_block = next(following, None)
        if next_block is None:
            state[block] = True
            finished.append(block)
            path.pop()
        elif next_block not in state:
            state[next_block] = False
            path.append((next_block, iter(graph[next_block].successors())))
        elif not state[next_block]:
            blocks = [each for each, _ in path]
            raise Cycle(blocks[blocks.index(next_block) :])
    return finished[::-1]


def without_empty(graph: Graph) -> dict[int, Block]:
    """The graph without empty blocks: edges to them lead to their successors."""
    to: dict[int, int] = {}
    for number, block in graph.items():
        passed = {number}
        target = number
        while not block.steps and block.jump is None and block.next is not None and block.next not in passed:
            target = block.next
            passed.add(target)
            block = graph[target]
        to[number] = target
    return {number: graph[target].leading(to.__getitem__) for number, target in to.items() if number in (0, target)}


def written(graph: Graph) -> Written:
    """The slots of a graph without a cycle and without empty blocks: all jumps go forward."""
    order = in_order(graph)
    places: dict[int, int] = {}
    targets: dict[int, int] = {}
    found: list[Step] = []
    blocks: list[int] = []
    for block, following in zip(order, [*order[1:], None]):
        places[block] = len(blocks)
        for step, target in _laid_out(graph, graph[block], following):
            if target is not None:
                targets[len(found)] = target
            found.append(step)
            blocks += [block] * step.instruction.slots
    return Written(*_linked(found, targets, places), tuple(blocks))


def _laid_out(graph: Graph, block: Block, following: int | None) -> Iterator[tuple[Step, int | None]]:
    """The instructions of a block, which the given block follows; each has the block that it jumps to."""
    yield from ((step, None) for step in block.steps)
    otherwise = block.next
    if block.jump is not None:
        opposite = block.jump.instruction.opposite()
        if block.taken == following != otherwise and opposite is not None:
            yield Step(opposite, block.jump.origin), otherwise
            return
        yield block.jump, block.taken
    if otherwise is not None and otherwise != following:
        # A jump has the origin of the place at which the run continues.
        yield Step(goto(0), graph[otherwise].origin), otherwise


def _linked(steps: list[Step], targets: Mapping[int, int], places: Mapping[int, int]) -> tuple[bytes, tuple[Origin, ...]]:
    """The slots with the distances of jumps, and their origins: `targets` has the blocks that steps jump to, by their numbers."""
    pieces: list[bytes] = []
    origins: list[Origin] = []
    for number, (instruction, origin) in enumerate(steps):
        if number in targets:
            instruction = instruction.jumping(places[targets[number]] - len(origins) - 1)
        pieces.append(instruction.to_bytes())
        origins.append(origin)
        if instruction.second:
            origins.append(origin._replace(slot=origin.slot + 1))
    return b"".join(pieces), tuple(origins)


def place_after(graph: Graph, block: Block, at: int) -> Origin | None:
    """The place of the instruction after one of a block's steps; None after the last one of the program."""
    if at + 1 < len(block.steps):
        return block.steps[at + 1].origin
    if block.jump is not None:
        return block.jump.origin
    return None if block.next is None else graph[block.next].origin


def predecessors(graph: Graph) -> dict[int, list[int]]:
    """The predecessors of each block, once for each edge."""
    found: dict[int, list[int]] = {number: [] for number in graph}
    for number, block in graph.items():
        for following in block.successors():
            found[following].append(number)
    return found
