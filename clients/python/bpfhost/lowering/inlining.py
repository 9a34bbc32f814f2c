"""The graph of a program, with the functions that it calls inlined, and sequences for what the host does not have."""

from __future__ import annotations

from collections.abc import Sequence

from bpfhost.lowering.code import Function
from bpfhost.lowering.frames import Frames, ending, moved, restoring, saving
from bpfhost.lowering.graph import Block, Origin, Step
from bpfhost.lowering.instructions import Instruction, renamed
from bpfhost.lowering.sequences import AFTER, EXIT, stated

# A block by its frame, its first slot, and a part of the sequence of this slot.
_Leader = tuple[int, int, int]


def inlined(functions: Sequence[Function], frames: Frames) -> dict[int, Block]:
    """The reachable blocks; the program's first one is block 0."""
    return _Inlining(functions, frames).graph()


class _Inlining:
    """Builds blocks by their leaders: a call of a function continues in its frame, and its exit after the call."""

    def __init__(self, functions: Sequence[Function], frames: Frames) -> None:
        self._frames = frames
        self._functions = [functions[frame.function] for frame in frames]
        self._inner = {(frame.caller, frame.call): number for number, frame in enumerate(frames)}
        leaders = {number: _leaders(functions[number]) for number in {frame.function for frame in frames}}
        self._leaders = [leaders[frame.function] for frame in frames]
        self._numbers: dict[_Leader, int] = {}
        self._waiting: list[_Leader] = []

    def graph(self) -> dict[int, Block]:
        """All blocks from the program's first on."""
        blocks: dict[int, Block] = {}
        self._number((0, 0, 0))
        while self._waiting:
            leader = self._waiting.pop()
            blocks[self._numbers[leader]] = self._block(*leader)
        return blocks

    def _number(self, leader: _Leader) -> int:
        if leader not in self._numbers:
            self._numbers[leader] = len(self._numbers)
            self._waiting.append(leader)
        return self._numbers[leader]

    def _block(self, frame: int, slot: int, part: int) -> Block:
        function, steps = self._functions[frame], list[Step]()
        origin, spares = Origin(frame, slot, part), function.spares
        while True:
            found = function.instructions[slot]
            if slot in spares:
                block = self._stated(origin, Origin(frame, slot, part), steps)
                if block is not None:
                    return block
                part = 0
            elif found.is_comparison:
                (jump,) = self._steps(frame, slot)
                taken, fallen = (frame, function.target(slot), 0), (frame, function.after(slot), 0)
                return Block(origin, tuple(steps), self._number(fallen), jump, self._number(taken))
            elif found.is_goto:
                return Block(origin, tuple(steps), self._number((frame, function.target(slot), 0)))
            elif slot in function.calls:
                inner = self._inner[frame, slot]
                steps += _numbered(frame, slot, saving(self._frames[inner]))
                return Block(origin, tuple(steps), self._number((inner, 0, 0)))
            elif found.is_exit:
                is_program = self._frames[frame].caller is None
                last = self._steps(frame, slot) if is_program else _numbered(frame, slot, restoring(self._frames[frame]))
                return self._ended(origin, frame, [*steps, *last])
            else:
                steps += self._steps(frame, slot)
            slot = function.after(slot)
            if slot in self._leaders[frame]:
                return Block(origin, tuple(steps), self._number((frame, slot, 0)))

    def _stated(self, origin: Origin, place: Origin, steps: list[Step]) -> Block | None:
        """Adds the parts of a sequence to the steps of a block; returns the block if it ends in the sequence."""
        frame, slot, part = place.frame, place.slot, place.part
        function, here = self._functions[frame], self._frames[frame]
        room = -here.depth - function.stack
        sequence = stated(renamed(function.instructions[slot], here.registers), function.spares[slot], room, ending(here))
        while part != AFTER:
            if steps and part in sequence.taken.values():
                return Block(origin, tuple(steps), self._number((frame, slot, part)))
            step, following = Step(sequence.parts[part], Origin(frame, slot, part)), sequence.following(part, False)
            if part in sequence.taken:
                taken = self._number((frame, slot, sequence.taken[part]))
                return Block(origin, tuple(steps), self._number((frame, slot, following)), step, taken)
            steps.append(step)
            if following == EXIT:
                return self._ended(origin, frame, steps)
            part = following
        return None

    def _ended(self, origin: Origin, frame: int, steps: list[Step]) -> Block:
        """A block at whose end the function exits: the program ends there, or its caller continues."""
        here = self._frames[frame]
        if here.caller is None:
            return Block(origin, tuple(steps))
        behind = self._functions[here.caller].after(here.call)
        return Block(origin, tuple(steps), self._number((here.caller, behind, 0)))

    def _steps(self, frame: int, slot: int) -> list[Step]:
        return _numbered(frame, slot, moved(self._functions[frame].instructions[slot], self._frames[frame]))


def _numbered(frame: int, slot: int, instructions: Sequence[Instruction]) -> list[Step]:
    return [Step(each, Origin(frame, slot, part)) for part, each in enumerate(instructions)]


def _leaders(function: Function) -> set[int]:
    """The slots at which blocks begin."""
    found = {0}
    for slot, instruction in function.instructions.items():
        if instruction.is_goto or instruction.is_comparison:
            found |= {function.target(slot), function.after(slot)}
    return found
