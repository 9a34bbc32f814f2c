"""Known numbers: a comparison says what the verifier has forgotten or does not conclude, and one of its edges is never taken.

The verifier keeps no ranges of numbers in the stack, and a signed comparison of numbers of both signs says nothing to it. So a number that
is loaded from the stack is compared with the greatest and the least one that it may be: after `r1 = *(u32 *)(r10 - 8)` of a stored 5 come
`if r1 > 5 goto never` and `if r1 < 5 goto never`. The same follows a signed comparison. At `never` the program ends with the result 0.
"""

from __future__ import annotations

from collections.abc import Iterator

from bpfhost.lowering import instructions as op
from bpfhost.lowering.graph import KNOWN, NEVER, Block, Graph, Origin, Step, in_order, place_after
from bpfhost.lowering.instructions import Instruction
from bpfhost.lowering.ranges import Range, full
from bpfhost.lowering.values import State, edges

# The greatest number that a comparison has as its constant.
_GREATEST = (1 << 31) - 1
_ABOVE, _BELOW = op.JGT | op.JMP, op.JLT | op.JMP
_SIGNED = (op.JSGT, op.JSGE, op.JSLT, op.JSLE)
_END = (Instruction(0xB7, 0, 0, 0, 0), Instruction(op.EXIT, 0, 0, 0, 0))


def with_known(graph: Graph) -> tuple[dict[int, Block], int] | None:
    """The graph with comparisons of which one edge is never taken, and how many there are; None if there is none."""
    return _Knowing(graph).graph()


class _Knowing:
    """Follows the blocks in topological order, and splits them after what is compared."""

    def __init__(self, graph: Graph) -> None:
        self._graph = graph
        self._arrived: dict[int, State] = {0: State()}
        self._found: dict[int, Block] = {}
        self._never = max(graph) + 1
        self._next = self._never + 1
        self._count = 0

    def graph(self) -> tuple[dict[int, Block], int] | None:
        """All blocks, and the one that is never reached."""
        for number in in_order(self._graph):
            self._follow(number, self._graph[number], self._arrived.pop(number).copy())
        if not self._count:
            return None
        place = Origin(0, 0, 0, NEVER)
        self._found[self._never] = Block(place, tuple(Step(each, place) for each in _END))
        return self._found, self._count

    def _follow(self, number: int, block: Block, state: State) -> None:
        origin, steps = block.origin, list[Step]()
        for at, step in enumerate(block.steps):
            steps.append(step)
            state.apply(step.instruction)
            place = place_after(self._graph, block, at)
            if place is None:
                continue
            for compare in _after_load(step.instruction, state):
                following = self._fresh()
                self._compare(number, Block(origin, tuple(steps), following), compare, place)
                number, origin, steps = following, place, []
        after = self._edges(block, state)
        self._found[number] = Block(origin, tuple(steps), after[0], block.jump, after[1])

    def _edges(self, block: Block, state: State) -> tuple[int | None, int | None]:
        """Follows the edges at the end of a block; returns the blocks that they lead to, the one that is not jumped to first."""
        if block.next is None:
            return None, None
        if block.jump is None or block.taken is None:
            return self._edge(block.next, state, ()), None
        compared = block.jump.instruction
        taken, fallen = (self._edge(target, after or state, _after_comparison(compared, state, after)) for target, after in zip(
            block.successors(), edges(state, compared)
        ))
        return fallen, taken

    def _edge(self, target: int, state: State, compares: tuple[Instruction, ...]) -> int:
        self._arrived[target] = state.joined(self._arrived.get(target))
        place = self._graph[target].origin
        for compare in compares:
            number = self._fresh()
            self._compare(number, Block(place, (), target), compare, place)
            target = number
        return target

    def _compare(self, number: int, block: Block, compare: Instruction, place: Origin) -> None:
        """Ends a block with a comparison, one edge of which is never taken."""
        self._count += 1
        step = Step(compare, place._replace(added=KNOWN))
        self._found[number] = Block(block.origin if block.steps else step.origin, block.steps, block.next, step, self._never)

    def _fresh(self) -> int:
        self._next += 1
        return self._next - 1


def _after_load(found: Instruction, state: State) -> Iterator[Instruction]:
    """The comparisons after a load from the stack of a number of which more is known than its size."""
    if found.kind != op.LDX:
        return
    known = state.registers[found.dst]
    if isinstance(known, Range) and known.hi <= _GREATEST and known != full(8 * found.size):
        yield from _limits(found.dst, known, full(8 * found.size))


def _after_comparison(found: Instruction, before: State, after: State | None) -> tuple[Instruction, ...]:
    """The comparisons on an edge of a signed comparison with a constant."""
    if after is None or found.code not in _SIGNED or found.from_register:
        return ()
    was, known = before.registers[found.dst], after.registers[found.dst]
    if not (isinstance(was, Range) and isinstance(known, Range)) or known.hi > _GREATEST:
        return ()
    return tuple(_limits(found.dst, known, was))


def _limits(register: int, known: Range, was: Range) -> Iterator[Instruction]:
    """The comparisons with the greatest and the least number, if these say more than was known."""
    if known.hi < was.hi:
        yield Instruction(_ABOVE, register, 0, 0, known.hi)
    if known.lo > was.lo:
        yield Instruction(_BELOW, register, 0, 0, known.lo)
