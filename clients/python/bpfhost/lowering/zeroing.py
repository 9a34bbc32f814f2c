"""Bytes of the stack that a program reads before it writes them, as the padding of a key: they are set to 0 at the start.

A kernel lets a privileged program read them, with whatever they hold. Here they are 0 in each run.
"""

from __future__ import annotations

from collections.abc import Sequence

from bpfhost.lowering import instructions as op
from bpfhost.lowering.graph import ZERO, Block, Graph, Origin, Step, in_order
from bpfhost.lowering.instructions import FRAME_POINTER, Instruction
from bpfhost.lowering.numbering import Known, Numbers
from bpfhost.lowering.values import STACK_SIZE, Place, State, edges
from bpfhost.objects.model import ObjectMap

_WORD = 8
_STORE_ZERO = 0x7A
_LOAD_BYTES, _UPDATE = 26, 2
_OF_MAPS = (1, 2, 3)
# Bytes that an instruction reads, and bytes that it writes: bit 0 is the lowest byte of the stack.
_Bytes = tuple[int, int]


def zero_store(offset: int) -> Instruction:
    """The instruction that sets a word of the stack to 0."""
    return Instruction(_STORE_ZERO, FRAME_POINTER, 0, offset, 0)


def with_zeros(graph: Graph, maps: Sequence[ObjectMap]) -> tuple[dict[int, Block], int] | None:
    """The graph with stores of 0 at its start, and how many words they fill; None if no byte is read before it is written."""
    live = _Reading(graph, maps).at_start()
    words = [word for word in range(STACK_SIZE // _WORD) if live >> _WORD * word & 0xFF]
    if not words:
        return None
    first, start = graph[0], Origin(0, 0, 0, ZERO)
    zeros = tuple(Step(zero_store(_WORD * word - STACK_SIZE), start) for word in words)
    return {**graph, 0: Block(start, (*zeros, *first.steps), first.next, first.jump, first.taken)}, len(words)


class _Reading:
    """Finds what the instructions of a graph without a cycle read and write in the stack."""

    def __init__(self, graph: Graph, maps: Sequence[ObjectMap]) -> None:
        self._graph = graph
        self._maps = maps
        self._numbers = Numbers()

    def at_start(self) -> int:
        """The bytes that are read on some path before they are written."""
        order = in_order(self._graph)
        accesses = self._accesses(order)
        live: dict[int, int] = {}
        for number in reversed(order):
            bytes_read = 0
            for each in self._graph[number].successors():
                bytes_read |= live[each]
            for reads, writes in reversed(accesses[number]):
                bytes_read = bytes_read & ~writes | reads
            live[number] = bytes_read
        return live[0]

    def _accesses(self, order: list[int]) -> dict[int, list[_Bytes]]:
        arrived = {0: Known(State(), self._numbers.at_entry())}
        found: dict[int, list[_Bytes]] = {}
        for number in order:
            block, known = self._graph[number], arrived.pop(number).copy()
            found[number] = []
            for step in block.steps:
                found[number].append(self._access(step.instruction, known))
                known.apply(self._numbers, step.instruction)
            states = edges(known.state, block.jump.instruction) if block.jump else (known.state,)
            for target, state in zip(block.successors(), states):
                edge = Known(state or known.state, known.names)
                arrived[target] = edge.joined(self._numbers, target, arrived.get(target))
        return found

    def _access(self, found: Instruction, known: Known) -> _Bytes:
        registers = known.state.registers
        if found.kind == op.LDX:
            return _bytes(registers[found.src], found.offset, found.size), 0
        if found.kind in (op.ST, op.STX):
            written = _bytes(registers[found.dst], found.offset, found.size)
            return (written, 0) if found.opcode & 0xE0 == op.ATOMIC else (0, written)
        return self._called(found.constant, known) if found.opcode == op.CALL else (0, 0)

    def _called(self, helper: int, known: Known) -> _Bytes:
        registers = known.state.registers
        number = self._numbers.map_of(known.names[1])
        if helper in _OF_MAPS and number is not None and number < len(self._maps):
            key = _bytes(registers[2], 0, self._maps[number].key_size)
            return key | (_bytes(registers[3], 0, self._maps[number].value_size) if helper == _UPDATE else 0), 0
        length = known.range_of(4)
        return 0, _bytes(registers[3], 0, length.lo) if helper == _LOAD_BYTES and length is not None else 0


def _bytes(base: object, offset: int, size: int) -> int:
    """So many bytes of the stack from a place on; none if the base is no place in it."""
    if not isinstance(base, Place) or not -STACK_SIZE <= base.offset + offset <= -size:
        return 0
    return (1 << size) - 1 << base.offset + offset + STACK_SIZE
