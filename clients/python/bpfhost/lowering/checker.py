"""The checker of a form: each path of it is a path of the original program, with the same instructions, or with what they may become.

It takes from the steps that wrote the form only what they state: where each slot of the form comes from, and how each inlined call renames
its registers and its stack (`Frame`). It decodes the form again, and reads it from the first slot on, in the order of the slots, since all
jumps have to go forward. At the same time it follows the original program (`original`), at the place that each slot names:

- Each instruction of the form is the instruction at that place, renamed for its frame; or a part of the sequence that it becomes
  (`sequences`), which the form has in order.
- Each edge of the form leads to a slot that names the place at which the program continues. In between, the program may pass what has no
  slots in the form: jumps, calls and exits of inlined functions for which nothing is saved, and comparisons that are decided by the numbers
  known on this edge (`values`).
- A slot that is added, before the instruction at its place, changes nothing: a move between registers that hold the same number
  (`numbering`); a store of 0 into the stack, before anything else; a comparison of an index, after which both edges go on at the same place;
  a comparison that is decided by the numbers known before it, whose other edge leads anywhere. To slots that are only reached by such edges
  no path leads, so they may have any instructions.
- A register that is a pointer into the stack plus an index holds the index (`indexing`); an access through it is one at a constant place,
  if the index can have only one value there.
- An access to the scratch words of the context is one to words of the stack, which are set to 0 before anything else (`scratch`).

A frame is right if its registers are other names of the same registers, if its stack and its saved registers are below its caller's stack,
and if each of the registers 6 to 9 that it writes and its caller reads later is saved before it and restored after it. A sequence is right
if the register that it uses besides is not read later, or is saved, and if its word of the stack is below what the function uses.
"""

from __future__ import annotations

from collections.abc import Mapping, Sequence
from dataclasses import dataclass

from bpfhost.lowering import instructions as op
from bpfhost.lowering.code import Function
from bpfhost.lowering.frames import Frames
from bpfhost.lowering.graph import EQUAL, INDEX, KNOWN, NEVER, ZERO, Origin
from bpfhost.lowering.indexing import Bases, TooLarge, at_constant, numbers_of
from bpfhost.lowering.instructions import CALLEE_SAVED, FRAME_POINTER, Instruction, decoded
from bpfhost.lowering.numbering import Known, Numbers
from bpfhost.lowering.original import Original, WrongForm, is_read
from bpfhost.lowering.ranges import signed
from bpfhost.lowering.scratch import CONTEXT, base_of, in_stack, room_of, words_of
from bpfhost.lowering.values import STACK_SIZE, State, edges
from bpfhost.lowering.zeroing import zero_store
from bpfhost.numbers import MOST_SLOTS, SLOT_SIZE

__all__ = ["WrongForm", "check"]


def check(functions: Sequence[Function], frames: Frames, slots: bytes, origins: Sequence[Origin]) -> None:
    """Raises WrongForm if the form of these slots is another program than function 0 with all that it calls."""
    if len(slots) % SLOT_SIZE or not 1 <= len(slots) // SLOT_SIZE <= MOST_SLOTS or len(origins) != len(slots) // SLOT_SIZE:
        raise WrongForm(f"{len(slots)} bytes with {len(origins)} origins are no program")
    program = Original(functions, frames)
    program.check_frames()
    form = decoded(slots)
    _Walk(program, form, origins).check()
    _check_registers(program, form, origins)


@dataclass
class _Facts:
    """What is known before an instruction of a form. The numbers and the indices are followed only if something is added."""

    state: State
    names: list[int]
    bases: Bases

    @property
    def known(self) -> Known:
        """The ranges and the numbers."""
        return Known(self.state, self.names)


class _Walk:
    """One pass over a form, with what is known before each of its instructions."""

    def __init__(self, program: Original, form: Mapping[int, Instruction], origins: Sequence[Origin]) -> None:
        self._program = program
        self._form = form
        self._origins = origins
        self._facts: dict[int, _Facts] = {}
        self._numbers = Numbers()
        self._has_added = any(origin.added for origin in origins)
        # Whether there was an instruction besides stores of 0, and the words that these set.
        self._has_begun = False
        self._zeros: set[int] = set()
        self._scratch = room_of(program.functions, program.frames)
        self._at_entry = self._numbers.at_entry()

    def check(self) -> None:
        """Checks each instruction and each edge."""
        self._arrive(0, Origin(0, 0), _Facts(State(), self._at_entry, Bases()))
        for slot, found in self._form.items():
            facts, origin = self._facts.pop(slot, None), self._origins[slot]
            if (facts is None) != (origin.added == NEVER):
                raise WrongForm(f"{'a path leads' if facts else 'no path leads'} to slot {slot}")
            if facts is None:
                continue
            if found.second and self._origins[slot + 1] != origin._replace(slot=origin.slot + 1):
                raise WrongForm(f"the second half of slot {slot} is of something else")
            self._has_begun |= origin.added != ZERO
            if found.is_goto:
                self._go(slot + 1 + (found.distance() or 0), slot, origin._replace(added=""), facts)
            elif origin.added:
                self._pass(slot, found, origin, facts)
            else:
                self._follow(slot, found, facts)

    def _pass(self, slot: int, found: Instruction, origin: Origin, facts: _Facts) -> None:
        """A slot that is added changes nothing, and the program goes on at its place."""
        place = origin._replace(added="")
        if max(found.dst, found.src) > FRAME_POINTER:
            raise WrongForm(f"slot {slot} is added, and has no such registers")
        is_index = found.kind == op.JMP and found.is_comparison and not found.from_register
        if origin.added == KNOWN and is_index:
            self._pass_known(slot, found, place, facts)
            return
        if origin.added == INDEX and is_index:
            for distance, known in zip((found.offset, 0), edges(facts.state, found)):
                self._go(slot + 1 + distance, slot, place, _Facts(known or facts.state.copy(), facts.names, facts.bases))
            return
        is_move = found == Instruction(op.MOVE_64, found.dst, found.src, 0, 0) and facts.names[found.dst] == facts.names[found.src]
        is_zero = found == zero_store(found.offset) and found.offset % 8 == 0 and -STACK_SIZE <= found.offset < 0 and not self._has_begun
        if not (origin.added == EQUAL and is_move or origin.added == ZERO and is_zero):
            raise WrongForm(f"slot {slot} is added, and changes something")
        self._zeros |= {found.offset} if is_zero else set()
        self._apply(facts, found)
        self._go(slot + 1, slot, place, facts)

    def _pass_known(self, slot: int, found: Instruction, place: Origin, facts: _Facts) -> None:
        """A comparison that is decided: the edge that is never taken is not followed."""
        taken, fallen = edges(facts.state, found)
        if (taken is None) == (fallen is None):
            raise WrongForm(f"slot {slot} is added, and compares what is not known")
        known = fallen if taken is None else taken
        assert known is not None
        self._go(slot + 1 + (0 if taken is None else found.offset), slot, place, _Facts(known, facts.names, facts.bases))

    def _apply(self, facts: _Facts, found: Instruction) -> None:
        facts.state.apply(found)
        if self._has_added:
            facts.names = facts.names.copy()
            self._numbers.apply(facts.names, found)

    def _follow(self, slot: int, found: Instruction, facts: _Facts) -> None:
        place = self._origins[slot]
        parts = self._program.becomes(place)
        if not 0 <= place.part < len(parts):
            raise WrongForm(f"slot {slot} is a part of {place} that there is not")
        if found.is_comparison:
            self._compare(slot, found, parts[place.part], facts)
            return
        wanted = self._wanted(slot, parts[place.part], facts) if self._has_added else parts[place.part]
        if found != wanted:
            raise WrongForm(f"slot {slot} is another instruction than that of {place}")
        behind = self._program.following(place, False)
        if behind is not None:
            self._apply(facts, found)
            self._go(slot + found.slots, slot, behind, facts)

    def _wanted(self, slot: int, found: Instruction, facts: _Facts) -> Instruction:
        """What an instruction becomes if some registers are indices: an access through one of them has one place."""
        facts.bases = Bases(facts.bases.known)
        base = base_of(found)
        if base is not None and facts.names[base] == self._at_entry[CONTEXT]:
            found = self._as_scratch(found)
        try:
            becomes = facts.bases.becomes(found, facts.known)
            if becomes is not None:
                return becomes
            base, register = facts.bases.base_of(found), found.src if found.kind == op.LDX else found.dst
            values = numbers_of(facts.known, self._numbers, register)
        except TooLarge:
            raise WrongForm(f"slot {slot} uses a register that is an index") from None
        if base is None or len(values) != 1:
            raise WrongForm(f"slot {slot} is an access with an index that is not known")
        facts.bases.forget(found)
        return at_constant(found, base + signed(values[0], 64) + found.offset)

    def _as_scratch(self, found: Instruction) -> Instruction:
        """An access to the scratch words of the context, as one to the stack if its words there were set to 0."""
        is_there = self._scratch is not None and self._zeros.issuperset(words_of(self._scratch))
        return in_stack(found, self._scratch) if self._scratch is not None and is_there else found

    def _compare(self, slot: int, found: Instruction, wanted: Instruction, facts: _Facts) -> None:
        """A comparison is the one at its place, or its opposite with the edges exchanged."""
        place = self._origins[slot]
        is_opposite = found.code != wanted.code
        if found.jumping(0) != ((wanted.opposite() or wanted) if is_opposite else wanted).jumping(0):
            raise WrongForm(f"slot {slot} is another comparison than that of {place}")
        if any(register in facts.bases.known for register in op.reads(found)):
            raise WrongForm(f"slot {slot} compares a register that is an index")
        for is_jump, known in zip((True, False), edges(facts.state, found)):
            behind = self._program.following(place, is_jump != is_opposite)
            target = slot + 1 + (found.offset if is_jump else 0)
            self._go(target, slot, behind, _Facts(known or facts.state.copy(), facts.names, facts.bases))

    def _go(self, target: int, slot: int, behind: Origin | None, facts: _Facts) -> None:
        """Checks an edge of the form, from the place at which the program continues."""
        if target <= slot or target not in self._form:
            raise WrongForm(f"slot {slot} leads to slot {target}, at which no later instruction begins")
        if behind is None:
            raise WrongForm(f"slot {slot} goes on, and the program ends there")
        self._arrive(target, behind, facts)

    def _arrive(self, target: int, behind: Origin, facts: _Facts) -> None:
        goal = self._origins[target]
        if not self._program.leads(behind, facts.state, goal._replace(added="") if goal.added else goal):
            raise WrongForm(f"slot {target} is of {goal}, and the program goes on at {behind}")
        before = self._facts.get(target)
        if before is None:
            self._facts[target] = facts
            return
        names = self._numbers.joined(target, facts.names, before.names) if self._has_added else facts.names
        self._facts[target] = _Facts(facts.state.joined(before.state), names, facts.bases.joined(before.bases))


def _check_registers(program: Original, form: Mapping[int, Instruction], origins: Sequence[Origin]) -> None:
    """Registers 6 to 9 that a frame writes and does not save are not read by its caller later."""
    written: list[set[int]] = [set() for _ in program.frames]
    for slot, found in form.items():
        if not origins[slot].added and not (program.instruction(origins[slot]).is_exit and found.opcode == op.LOAD_64):
            written[origins[slot].frame] |= set(op.writes(found)) & set(CALLEE_SAVED)
    for number in range(len(program.frames) - 1, 0, -1):
        frame = program.frames[number]
        caller = frame.caller or 0
        kept = written[number] - {register for register, _ in frame.saved}
        function, names = program.functions[caller], program.frames[caller].registers
        for register in CALLEE_SAVED:
            if names[register] in kept and is_read(function, function.after(frame.call), register):
                raise WrongForm(f"frame {number} writes register {names[register]}, which its caller reads later")
        written[caller] |= kept
