"""Variable indices into the stack: an access becomes comparisons of the index, and an access at a constant place for each of its numbers.

The verifier moves a pointer into the stack only by a constant. So a register that is such a pointer plus a number holds only the number
here: `r3 += r2` becomes `r3 = r2`. A load or a store through r3 becomes a tree of comparisons of r3, whose leaves are the same load or store
at a constant offset from register 10. The number has a range of at most 64, as known from comparisons and masks.
"""

from __future__ import annotations

from collections.abc import Mapping
from dataclasses import dataclass

from bpfhost.lowering import instructions as op
from bpfhost.lowering.graph import INDEX, Block, Graph, Origin, Step, in_order, place_after, without_empty
from bpfhost.lowering.instructions import FRAME_POINTER, Instruction
from bpfhost.lowering.numbering import Known, Numbers
from bpfhost.lowering.ranges import Range, signed
from bpfhost.lowering.values import STACK_SIZE, Place, State, edges
from bpfhost.numbers import MOST_SLOTS

# The most numbers that an index may be.
MOST = 64
_GREATER = op.JGT | op.JMP
_ADD = 0x0F
_ARGUMENTS = {1: 2, 2: 4, 3: 2, 26: 4}


class TooLarge(Exception):
    """An index has too many numbers, or its register is used in another way than by an access."""


class Bases:
    """The registers that are pointers into the stack plus a number: each holds the number, and has the offset of the pointer.

    The offset is None if the paths that meet differ: then the register is not used.
    """

    def __init__(self, known: Mapping[int, int | None] | None = None) -> None:
        self.known = dict(known or {})

    def joined(self, other: Bases | None) -> Bases:
        """The registers at a place at which edges meet."""
        if other is None:
            return Bases(self.known)
        both = self.known.keys() | other.known.keys()
        return Bases({each: self.known.get(each) if self.known.get(each) == other.known.get(each) else None for each in both})

    def becomes(self, found: Instruction, known: Known) -> Instruction | None:
        """What an instruction that is no access becomes, with its effect on the registers; None if it is an access through one of them.

        Raises TooLarge if it uses one in another way.
        """
        moved = self._moved(found, known)
        if moved is not None:
            self.known[found.dst] = moved
            is_move = found.opcode == op.MOVE_64
            copied = found.src if found.from_register and not isinstance(known.state.registers[found.src], Place) else found.dst
            return found if is_move else Instruction(op.MOVE_64, found.dst, copied, 0, 0)
        if self.base_of(found) is not None:
            return None
        if any(register in self.known for register in _used(found)):
            raise TooLarge
        self.forget(found)
        return found

    def forget(self, found: Instruction) -> None:
        """Forgets the registers that an instruction writes."""
        for register in op.writes(found):
            self.known.pop(register, None)

    def base_of(self, found: Instruction) -> int | None:
        """The offset of the pointer through which an instruction loads or stores, if it is one of these."""
        register = found.src if found.kind == op.LDX else found.dst if found.kind in (op.ST, op.STX) else None
        is_stored = found.kind == op.STX and (found.src in self.known or found.opcode & 0xE0 == op.ATOMIC)
        return None if register is None or is_stored else self.known.get(register)

    def _moved(self, found: Instruction, known: Known) -> int | None:
        """The offset of the pointer in the register that an instruction writes, if it makes such a pointer, moves or copies it."""
        if found.opcode == op.MOVE_64 and not found.offset:
            return self.known.get(found.src)
        if found.opcode == op.ADD_64:
            base = self.known.get(found.dst)
            return None if base is None else base + found.constant
        if found.opcode != _ADD:
            return None
        a, b = known.state.registers[found.dst], known.state.registers[found.src]
        if found.src in self.known or found.dst in self.known:
            return None
        place, number = (a, b) if isinstance(a, Place) else (b, a)
        is_number = isinstance(number, Range) and not number.is_constant and number.hi - number.lo < MOST and number.hi < STACK_SIZE
        return place.offset if isinstance(place, Place) and is_number else None


def _used(found: Instruction) -> tuple[int, ...]:
    """The registers that an instruction reads; of a call the arguments of its helper."""
    if found.opcode == op.CALL:
        return tuple(range(1, _ARGUMENTS.get(found.constant, 5) + 1))
    return op.reads(found)


def numbers_of(known: Known, numbers: Numbers, register: int) -> list[int]:
    """The numbers that an index may be. Raises TooLarge if they are too many."""
    among, step = known.range_of(register), 1 << min(numbers.zeros(known.names[register]), 9)
    if among is None or among.hi - among.lo >= MOST:
        raise TooLarge
    return list(range(-(-among.lo // step) * step, among.hi + 1, step))


def at_constant(found: Instruction, place: int) -> Instruction:
    """An access at a constant place in the stack."""
    is_load = found.kind == op.LDX
    return found._replace(offset=place, src=FRAME_POINTER) if is_load else found._replace(offset=place, dst=FRAME_POINTER)


def with_trees(graph: Graph) -> tuple[dict[int, Block], int] | None:
    """The graph with trees of comparisons, and how many accesses became one; None if there is none, or if one is too large."""
    try:
        return _Indexing(graph).graph()
    except TooLarge:
        return None


@dataclass
class _Point:
    """What is known at a place, and the registers that are indices."""

    known: Known
    bases: Bases


class _Indexing:
    """Follows the blocks in topological order, and splits them at accesses that become trees."""

    def __init__(self, graph: Graph) -> None:
        self._graph = graph
        self._numbers = Numbers()
        self._arrived: dict[int, _Point] = {0: _Point(Known(State(), self._numbers.at_entry()), Bases())}
        self._found: dict[int, Block] = {}
        self._next = max(graph) + 1
        self._count = 0
        self._slots = 0

    def graph(self) -> tuple[dict[int, Block], int] | None:
        """All blocks."""
        for number in in_order(self._graph):
            self._follow(number, self._graph[number], self._arrived.pop(number))
        return (without_empty(self._found), self._count) if self._count else None

    def _follow(self, number: int, block: Block, point: _Point) -> None:
        point = _Point(point.known.copy(), Bases(point.bases.known))
        origin, steps = block.origin, list[Step]()
        for at, step in enumerate(block.steps):
            found = point.bases.becomes(step.instruction, point.known)
            if found is not None:
                steps.append(step._replace(instruction=found))
                point.known.apply(self._numbers, found)
                continue
            following = self._fresh()
            self._add(number, Block(origin, tuple(steps), self._tree(step, point, following)))
            number, origin, steps = following, place_after(self._graph, block, at) or step.origin, []
        self._add(number, Block(origin, tuple(steps), block.next, block.jump, block.taken))
        self._leave(block, point)

    def _add(self, number: int, block: Block) -> None:
        self._slots += block.slots
        if self._slots > MOST_SLOTS:
            raise TooLarge
        self._found[number] = block

    def _leave(self, block: Block, point: _Point) -> None:
        states: tuple[State | None, ...] = (point.known.state,)
        if block.jump is not None:
            if any(register in point.bases.known for register in op.reads(block.jump.instruction)):
                raise TooLarge
            states = edges(point.known.state, block.jump.instruction)
        for target, state in zip(block.successors(), states):
            before = self._arrived.get(target)
            known = Known((state or point.known.state).copy(), point.known.names)
            joined = known.joined(self._numbers, target, before.known if before else None)
            self._arrived[target] = _Point(joined, point.bases.joined(before.bases if before else None))

    def _fresh(self) -> int:
        self._next += 1
        return self._next - 1

    def _tree(self, step: Step, point: _Point, following: int) -> int:
        """The first block of a tree; afterwards the point is after the access."""
        found = step.instruction
        register, base = found.src if found.kind == op.LDX else found.dst, point.bases.base_of(found)
        assert base is not None
        self._count += 1
        before = point.known
        values = numbers_of(before, self._numbers, register)
        leaves = [at_constant(found, base + signed(value, 64) + found.offset) for value in values]
        if any(leaf.offset % found.size or not -STACK_SIZE <= leaf.offset <= -found.size for leaf in leaves):
            raise TooLarge
        after: Known | None = None
        for leaf in leaves:
            each = before.copy()
            each.apply(self._numbers, leaf)
            after = each.joined(self._numbers, following, after)
        assert after is not None
        point.known = after
        point.bases.forget(found)
        return self._node(step.origin, register, list(zip(values, leaves)), following)

    def _node(self, origin: Origin, register: int, leaves: list[tuple[int, Instruction]], following: int) -> int:
        """A node of a tree: a comparison with the greatest number of its left half, or an access."""
        number = self._fresh()
        if len(leaves) == 1:
            self._add(number, Block(origin, (Step(leaves[0][1], origin),), following))
            return number
        half = len(leaves) // 2
        compare = Step(Instruction(_GREATER, register, 0, 0, leaves[half - 1][0]), origin._replace(added=INDEX))
        left = self._node(origin, register, leaves[:half], following)
        right = self._node(origin, register, leaves[half:], following)
        self._add(number, Block(compare.origin, (), left, compare, right))
        return number
