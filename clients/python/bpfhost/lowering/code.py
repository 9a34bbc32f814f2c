"""The functions of a program, decoded: what follows each instruction, and which registers are needed later."""

from __future__ import annotations

from collections.abc import Mapping, Sequence
from dataclasses import dataclass
from functools import cached_property

from bpfhost.lowering.errors import LoweringError
from bpfhost.lowering.instructions import CALLEE_SAVED, FRAME_POINTER, Instruction, decoded, is_known, reads, writes
from bpfhost.lowering.sequences import kind_of, needs_room, spare_of
from bpfhost.lowering.values import STACK_SIZE, stack_used
from bpfhost.objects.model import ObjectFile, ObjectProgram

_WORD = 8


@dataclass(frozen=True)
class Function:
    """A function with its instructions by their slots, and the functions that it calls, by their numbers in `functions_of`.

    `linked` has its slots, with the numbers of maps in the object.
    """

    declared: ObjectProgram
    linked: bytes
    instructions: Mapping[int, Instruction]
    calls: Mapping[int, int]

    def where(self, slot: int) -> str:
        """The line of the source that a slot comes from, or else function and slot."""
        line = self.declared.line_of(slot)
        return f"{self.declared.name}, slot {slot}" if line is None else str(line)

    def after(self, slot: int) -> int:
        """The slot after an instruction."""
        return slot + self.instructions[slot].slots

    def target(self, slot: int) -> int:
        """The slot that a jump leads to."""
        distance = self.instructions[slot].distance()
        assert distance is not None
        return slot + 1 + distance

    @cached_property
    def successors(self) -> Mapping[int, tuple[int, ...]]:
        """The slots that may follow each instruction."""
        return {slot: self._successors(slot, found) for slot, found in self.instructions.items()}

    def _successors(self, slot: int, found: Instruction) -> tuple[int, ...]:
        if found.is_exit:
            return ()
        if found.is_goto:
            return (self.target(slot),)
        return (self.after(slot), self.target(slot)) if found.is_comparison else (self.after(slot),)

    @cached_property
    def stack(self) -> int:
        """How many bytes of the stack it uses; the lowest word is for sequences, if they need one."""
        used = stack_used(self.instructions, self.successors)
        has_room = any(needs_room(self.instructions[slot], spare) for slot, spare in self.spares.items())
        if used is None or used + _WORD * has_room > STACK_SIZE:
            raise LoweringError(f"function {self.declared.name} uses more of the stack than a program has, {STACK_SIZE} bytes")
        return used + _WORD * has_room

    @cached_property
    def spares(self) -> Mapping[int, int | None]:
        """The instructions that become sequences, by their slots: with a register that is not needed later, or None if each one is."""
        slots = [slot for slot, found in self.instructions.items() if kind_of(found) is not None]
        if not slots:
            return {}
        needed = self._live(frozenset(range(FRAME_POINTER)))
        return {slot: spare_of(self.instructions[slot], needed.get(self.after(slot), frozenset())) for slot in slots}

    @cached_property
    def live(self) -> Mapping[int, frozenset[int]]:
        """For each instruction, the callee-saved registers that are live before it."""
        return self._live(frozenset(CALLEE_SAVED))

    def _live(self, registers: frozenset[int]) -> Mapping[int, frozenset[int]]:
        """For each instruction, those of some registers that are live before it."""
        found: dict[int, frozenset[int]] = {slot: frozenset() for slot in self.instructions}
        before: dict[int, list[int]] = {slot: [] for slot in self.instructions}
        for slot, following in self.successors.items():
            for each in following:
                before[each].append(slot)
        waiting = list(self.instructions)
        while waiting:
            slot = waiting.pop()
            behind = frozenset().union(*(found[each] for each in self.successors[slot]))
            live = (behind - set(writes(self.instructions[slot]))) | set(reads(self.instructions[slot])) & registers
            if live != found[slot]:
                found[slot] = live
                waiting.extend(before[slot])
        return found


def functions_of(object_file: ObjectFile, program: ObjectProgram) -> tuple[Function, ...]:
    """The program, followed by the functions of its object; maps are named by their numbers in the object.

    Raises LoweringError for an invalid instruction, or for a jump out of the function.
    """
    numbers = range(len(object_file.maps))
    needed = _needed(object_file, program)
    return tuple(_function(each, numbers, number in needed) for number, each in enumerate((program, *object_file.functions), -1))


def _needed(object_file: ObjectFile, program: ObjectProgram) -> set[int]:
    """The numbers in the object of the functions that are called, and -1 for the program."""
    needed, waiting = {-1}, [program]
    while waiting:
        called = {call.function for call in waiting.pop().calls} - needed
        needed |= called
        waiting.extend(object_file.functions[number] for number in called)
    return needed


def _function(declared: ObjectProgram, maps: Sequence[int], is_needed: bool) -> Function:
    linked = declared.linked(maps)
    function = Function(declared, linked, decoded(linked), {call.slot: call.function + 1 for call in declared.calls})
    if is_needed:
        _check(function)
    return function


def _check(function: Function) -> None:
    """Raises LoweringError for the first instruction that is invalid or jumps out of the function."""
    for slot, found in function.instructions.items():
        if not is_known(found) or max(found.dst, found.src) > 10:
            raise LoweringError(f"{function.where(slot)}: there is no valid instruction at slot {slot} of {function.declared.name}")
        for following in function._successors(slot, found):
            if following not in function.instructions:
                raise LoweringError(f"{function.where(slot)}: {_leads_nowhere(function, slot, following)}")


def _leads_nowhere(function: Function, slot: int, following: int) -> str:
    name = function.declared.name
    if following == function.after(slot) and not function.instructions[slot].is_goto:
        return f"the last instruction of {name}, slot {slot}, can continue past its end"
    inside = following - 1 in function.instructions and following < function.after(following - 1)
    target = "the second half of a wide load" if inside else "a slot outside of the function"
    return f"the jump at slot {slot} of {name} leads to slot {following}, {target}"
