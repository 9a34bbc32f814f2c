"""The scratch words of the context, `skb->cb`, which a kernel's program may write: they become words of the stack.

In the kernel they are 0 when a socket filter begins, and nothing else reads them. So the words of the stack are set to 0 at the start. They
are below all that the program and its inlined functions use.
"""

from __future__ import annotations

from collections.abc import Sequence

from bpfhost.lowering import instructions as op
from bpfhost.lowering.code import Function
from bpfhost.lowering.frames import Frames
from bpfhost.lowering.graph import ZERO, Block, Graph, Origin, Step, in_order
from bpfhost.lowering.indexing import at_constant
from bpfhost.lowering.instructions import Instruction
from bpfhost.lowering.numbering import Numbers
from bpfhost.lowering.values import STACK_SIZE
from bpfhost.lowering.zeroing import zero_store

# The bytes of the context that are `cb` (linux/bpf.h, struct __sk_buff), and the bytes of the stack for them.
_BEGIN, _END = 48, 68
_ROOM, _WORD = 24, 8
# The register that has the context at the start.
CONTEXT = 1


def room_of(functions: Sequence[Function], frames: Frames) -> int | None:
    """The offset of the words below all that is used of the stack; None if there is no room. `functions` has the function of each frame."""
    room = -_ROOM - max(frame.depth + function.stack for frame, function in zip(frames, functions))
    return room if room >= -STACK_SIZE else None


def words_of(room: int) -> tuple[int, ...]:
    """The offsets of the words."""
    return tuple(range(room, room + _ROOM, _WORD))


def base_of(found: Instruction) -> int | None:
    """The register through which an instruction would access `cb`, if it held the context."""
    is_atomic = found.kind == op.STX and found.opcode & 0xE0 == op.ATOMIC
    if found.kind not in (op.LDX, op.ST, op.STX) or is_atomic or not _BEGIN <= found.offset <= _END - found.size:
        return None
    return found.src if found.kind == op.LDX else found.dst


def in_stack(found: Instruction, room: int) -> Instruction:
    """The access to `cb` as one to the stack."""
    return at_constant(found, room + found.offset - _BEGIN)


def with_scratch(graph: Graph, room: int | None) -> tuple[dict[int, Block], int] | None:
    """The graph with accesses to the stack in place of those to `cb`, and how many there are; None if there is none, or no room."""
    if room is None:
        return None
    numbers, count = Numbers(), 0
    at_entry = numbers.at_entry()
    arrived, found = {0: at_entry}, dict[int, Block]()
    for number in in_order(graph):
        block, names, steps = graph[number], arrived.pop(number).copy(), list[Step]()
        for step in block.steps:
            base = base_of(step.instruction)
            if base is not None and names[base] == at_entry[CONTEXT]:
                step = step._replace(instruction=in_stack(step.instruction, room))
                count += 1
            steps.append(step)
            numbers.apply(names, step.instruction)
        for target in block.successors():
            arrived[target] = numbers.joined(target, names, arrived[target]) if target in arrived else names
        found[number] = Block(block.origin, tuple(steps), block.next, block.jump, block.taken)
    if not count:
        return None
    first, start = found[0], Origin(0, 0, 0, ZERO)
    zeros = tuple(Step(zero_store(word), start) for word in words_of(room))
    return {**found, 0: Block(start, (*zeros, *first.steps), first.next, first.jump, first.taken)}, count
