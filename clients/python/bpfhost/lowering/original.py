"""The original program as the checker follows it: its places, each call in a frame, and what the instruction at each place may become."""

from __future__ import annotations

from collections.abc import Sequence

from bpfhost.lowering import instructions as op
from bpfhost.lowering.code import Function
from bpfhost.lowering.errors import LoweringError
from bpfhost.lowering.frames import Frame, Frames
from bpfhost.lowering.graph import Origin
from bpfhost.lowering.instructions import CALLEE_SAVED, FRAME_POINTER, Instruction
from bpfhost.lowering.sequences import EXIT, Stated, stated
from bpfhost.lowering.values import STACK_SIZE, State, edges

_WORD = 8


class WrongForm(LoweringError):
    """The form is not the same program: a bug of this package. Nothing is loaded."""

    def __init__(self, what: str) -> None:
        super().__init__(f"a form is not loaded, as it is another program: {what}")


class Original:
    """The original program, with each call in a frame: its places, and the instruction at each, renamed as in a form."""

    def __init__(self, functions: Sequence[Function], frames: Frames) -> None:
        self.frames = frames
        if not frames or any(not 0 <= frame.function < len(functions) for frame in frames):
            raise WrongForm("a frame has no function")
        self.functions = [functions[frame.function] for frame in frames]
        self.inner = {(frame.caller, frame.call): number for number, frame in enumerate(frames)}
        self._parts: dict[tuple[int, int], tuple[Instruction, ...]] = {}
        self._sequences: dict[tuple[int, int], Stated] = {}

    def check_frames(self) -> None:
        """Frame 0 is the program itself, and the stack of each other frame is below its caller's."""
        if self.frames[0] != Frame(0, None, 0, tuple(range(FRAME_POINTER + 1)), 0, ()):
            raise WrongForm("the first frame is not that of the program")
        for number, frame in enumerate(self.frames[1:], 1):
            if frame.caller is None or not 0 <= frame.caller < number:
                raise WrongForm(f"frame {number} has no caller before it")
            self._check_frame(number, frame, self.frames[frame.caller])
        for number in range(len(self.frames)):
            self._check_sequences(number)

    def _check_sequences(self, number: int) -> None:
        """A sequence uses a register that is read no more, or saves it; and a word that nothing else uses."""
        function, frame = self.functions[number], self.frames[number]
        for slot, spare in function.spares.items():
            found = function.instructions[slot]
            if spare is not None and (spare in (*op.reads(found), *CALLEE_SAVED) or is_read(function, function.after(slot), spare)):
                raise WrongForm(f"the sequence of slot {slot} writes register {spare}, which is read later")
            names = frame.registers
            named = found._replace(dst=names[op.PACKET_CONTEXT if found.reads_packet else found.dst], src=names[found.src])
            ending = tuple(Instruction(op.LOAD_64, register, FRAME_POINTER, at, 0) for register, at in frame.saved)
            ending = (Instruction(op.EXIT, 0, 0, 0, 0),) if frame.caller is None else ending
            self._sequences[number, slot] = stated(named, spare, -frame.depth - function.stack, ending)

    def _check_frame(self, number: int, frame: Frame, caller: Frame) -> None:
        function = self.functions[frame.caller or 0]
        if function.calls.get(frame.call) != frame.function or self.inner[frame.caller, frame.call] != number:
            raise WrongForm(f"frame {number} is not of the call at its slot")
        others = tuple(register for register in range(FRAME_POINTER + 1) if register not in CALLEE_SAVED)
        same = len(frame.registers) == FRAME_POINTER + 1 and all(frame.registers[register] == register for register in others)
        if not same or sorted(frame.registers[register] for register in CALLEE_SAVED) != list(CALLEE_SAVED):
            raise WrongForm(f"frame {number} does not name each register once")
        bottom = caller.depth + function.stack
        places = sorted(place for _, place in frame.saved)
        between = all(-frame.depth <= place <= -bottom - _WORD and place % _WORD == 0 for place in places)
        if not between or len(set(places)) != len(places) or frame.depth < bottom or frame.depth % _WORD:
            raise WrongForm(f"frame {number} is not below its caller")
        if frame.depth + self.functions[number].stack > STACK_SIZE:
            raise WrongForm(f"frame {number} is outside of the stack")

    def instruction(self, place: Origin) -> Instruction:
        """The instruction at a place, as in the function. Raises WrongForm if there is none."""
        found = self.functions[place.frame].instructions.get(place.slot) if 0 <= place.frame < len(self.frames) else None
        if found is None:
            raise WrongForm(f"there is no instruction at {place}")
        return found

    def _called(self, place: Origin) -> int:
        """The frame of the call at a place."""
        called = self.inner.get((place.frame, place.slot))
        if called is None:
            raise WrongForm(f"the call at {place} has no frame")
        return called

    def becomes(self, place: Origin) -> tuple[Instruction, ...]:
        """What the instruction at a place becomes in a form: nothing for a jump; for calls and exits, the instructions that save registers."""
        at = place.frame, place.slot
        if at not in self._parts:
            self._parts[at] = self._sequences[at].parts if at in self._sequences else self._become(place)
        return self._parts[at]

    def _become(self, place: Origin) -> tuple[Instruction, ...]:
        found, frame = self.instruction(place), self.frames[place.frame]
        if found.is_goto:
            return ()
        if found.calls_function:
            inner = self.frames[self._called(place)]
            return tuple(Instruction(op.STORE_64, FRAME_POINTER, register, at, 0) for register, at in inner.saved)
        if found.is_exit and frame.caller is not None:
            return tuple(Instruction(op.LOAD_64, register, FRAME_POINTER, at, 0) for register, at in frame.saved)
        return _named(found, frame)

    def following(self, place: Origin, is_taken: bool) -> Origin | None:
        """The next place or part, if a comparison is true or false; None after the program's exit."""
        sequence = self._sequences.get((place.frame, place.slot))
        if sequence is not None:
            part = sequence.following(place.part, is_taken)
            if part >= 0:
                return place._replace(part=part)
            return self._left(place.frame) if part == EXIT else self._after(place)
        return place._replace(part=place.part + 1) if place.part + 1 < len(self.becomes(place)) else self._behind(place, is_taken)

    def _behind(self, place: Origin, is_taken: bool) -> Origin | None:
        """The place after an instruction that becomes no sequence."""
        found, function = self.instruction(place), self.functions[place.frame]
        if found.calls_function:
            return Origin(self._called(place), 0)
        if found.is_exit:
            return self._left(place.frame)
        return Origin(place.frame, function.target(place.slot)) if found.is_goto or is_taken else self._after(place)

    def _after(self, place: Origin) -> Origin:
        return Origin(place.frame, self.functions[place.frame].after(place.slot))

    def _left(self, number: int) -> Origin | None:
        """The place after a frame's exit."""
        frame = self.frames[number]
        return None if frame.caller is None else Origin(frame.caller, self.functions[frame.caller].after(frame.call))

    def leads(self, place: Origin | None, state: State, goal: Origin) -> bool:
        """Whether the program gets from one place to another without an instruction of the form, given what is known."""
        passed = set()
        while place is not None and place != goal:
            parts = self.becomes(place)
            is_comparison = bool(parts) and parts[place.part].is_comparison
            if place in passed or parts and not is_comparison:
                return False
            passed.add(place)
            is_taken = False
            if is_comparison:
                taken, fallen = edges(state, parts[place.part])
                if taken is not None and fallen is not None:
                    return False
                is_taken = fallen is None
            place = self.following(place, is_taken)
        return place == goal


def _named(found: Instruction, frame: Frame) -> tuple[Instruction, ...]:
    """An instruction that stays, renamed for its frame; this code is separate from the code that writes the form."""
    dst, src = found.dst, found.src
    is_operator = found.kind in (op.ALU, op.ALU64) and found.code != op.END
    if found.kind in (op.LDX, op.STX) or found.from_register and (is_operator or found.is_comparison):
        src = frame.registers[src]
    if found.opcode not in (op.CALL, op.EXIT):
        dst = frame.registers[dst]
    offset = found.offset
    if found.kind == op.LDX and found.src == FRAME_POINTER or found.kind in (op.ST, op.STX) and found.dst == FRAME_POINTER:
        offset -= frame.depth
    named = Instruction(found.opcode, dst, src, offset, found.constant, found.second)
    reads_frame = frame.depth and FRAME_POINTER in op.reads(found) and found.kind not in (op.LDX, op.ST, op.STX)
    stores_frame = frame.depth and found.kind == op.STX and found.src == FRAME_POINTER
    if stores_frame or reads_frame and (found.opcode != op.MOVE_64 or found.offset):
        raise WrongForm("an inlined function uses its frame pointer otherwise than by a copy")
    return (named, Instruction(op.ADD_64, dst, 0, 0, -frame.depth)) if reads_frame else (named,)


def is_read(function: Function, begin: int, register: int) -> bool:
    """Whether a path from a slot reads a register before it writes it."""
    seen, waiting = {begin}, [begin]
    while waiting:
        slot = waiting.pop()
        found = function.instructions[slot]
        if register in op.reads(found):
            return True
        if register not in op.writes(found):
            following = set(function.successors[slot]) - seen
            seen |= following
            waiting.extend(following)
    return False
