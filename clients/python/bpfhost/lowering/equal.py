"""Copies of numbers: a comparison of one register says something about each register that holds the same number.

The verifier does not know that two registers are the same. So a move copies the register that was compared to the others, with the range
that the comparison gave it: `w2 = w1; if w2 > 63 goto end` is followed by `r1 = r2`. A register that is computed again is copied from the
one that was compared too.
"""

from __future__ import annotations

from collections.abc import Iterator

from bpfhost.lowering.graph import EQUAL, Block, Graph, Origin, Step, in_order, place_after
from bpfhost.lowering.instructions import MOVE_64, Instruction, reads, writes
from bpfhost.lowering.numbering import Known, Numbers
from bpfhost.lowering.values import State, edges

# Greater numbers may be addresses, whose ranges nobody needs.
_GREATEST = (1 << 32) - 1


def with_moves(graph: Graph) -> dict[int, Block] | None:
    """The graph with moves between registers that hold the same number; None if no move says more."""
    found = _Moving(graph).graph()
    return found if any(step.origin.added == EQUAL for block in found.values() for step in block.steps) else None


def live_registers(graph: Graph, order: list[int]) -> dict[int, frozenset[int]]:
    """The registers that each block, or one after it, reads before it writes them; for a graph without a cycle."""
    found: dict[int, frozenset[int]] = {}
    for number in reversed(order):
        block = graph[number]
        live = frozenset[int]().union(*(found[each] for each in block.successors()))
        for step in reversed([*block.steps, *([block.jump] if block.jump else [])]):
            live = live.difference(writes(step.instruction)).union(reads(step.instruction))
        found[number] = live
    return found


class _Moving:
    """Follows the blocks in topological order."""

    def __init__(self, graph: Graph) -> None:
        self._graph = graph
        self._numbers = Numbers()
        self._order = in_order(graph)
        self._live = live_registers(graph, self._order)
        self._arrived: dict[int, Known] = {0: Known(State(), self._numbers.at_entry())}
        self._found: dict[int, Block] = {}
        self._next = max(graph)

    def graph(self) -> dict[int, Block]:
        """All blocks, with moves."""
        for number in self._order:
            self._found[number] = self._block(self._graph[number], self._arrived.pop(number))
        return self._found

    def _block(self, block: Block, known: Known) -> Block:
        known = known.copy()
        steps: list[Step] = []
        for at, step in enumerate(block.steps):
            steps.append(step)
            known.apply(self._numbers, step.instruction)
            place = place_after(self._graph, block, at)
            if place is not None:
                steps += self._computed_again(step.instruction, known, place)
        if block.next is None:
            return Block(block.origin, tuple(steps))
        if block.jump is None:
            self._arrive(block.next, known)
            return Block(block.origin, tuple(steps), block.next)
        assert block.taken is not None
        taken, fallen = edges(known.state, block.jump.instruction)
        jumped = self._edge(block.taken, known, taken, block.jump.instruction)
        return Block(block.origin, tuple(steps), self._edge(block.next, known, fallen, block.jump.instruction), block.jump, jumped)

    def _computed_again(self, found: Instruction, known: Known, place: Origin) -> Iterator[Step]:
        """A move to the register that an instruction has written, from one with the same number and a smaller range."""
        for register in writes(found)[:1]:
            for other in known.same_as(register):
                if _says_more(known, other, register):
                    yield self._move(register, other, known, place)

    def _edge(self, target: int, known: Known, state: State | None, found: Instruction) -> int:
        """Follows an edge of a comparison: with moves to it in a block of their own, if there are any."""
        after = Known((state or known.state).copy(), known.names.copy())
        place = self._graph[target].origin
        compared = (found.dst, found.src) if found.from_register else (found.dst,)
        steps = [
            self._move(other, register, after, place)
            for register in compared
            for other in after.same_as(register)
            if other in self._live[target] and state is not None and _says_more(after, register, other)
        ]
        self._arrive(target, after)
        if not steps:
            return target
        self._next += 1
        self._found[self._next] = Block(steps[0].origin, tuple(steps), target)
        return self._next

    def _move(self, to: int, register: int, known: Known, place: Origin) -> Step:
        move = Instruction(MOVE_64, to, register, 0, 0)
        known.apply(self._numbers, move)
        return Step(move, place._replace(added=EQUAL))

    def _arrive(self, target: int, known: Known) -> None:
        self._arrived[target] = known.joined(self._numbers, target, self._arrived.get(target))


def _says_more(known: Known, register: int, other: int) -> bool:
    """Whether more is known of a register than of another one that holds the same number."""
    a, b = known.range_of(register), known.range_of(other)
    return a is not None and b is not None and a != b and b.lo <= a.lo and a.hi <= b.hi and a.hi <= _GREATEST
