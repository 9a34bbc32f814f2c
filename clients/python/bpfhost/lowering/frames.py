"""Frames: the place of an inlined function's registers and stack.

A call of a function of the object keeps registers 6 to 9 and the caller's stack. The code of an inlined function shares them with its
caller. So its stack begins below its caller's. Its registers 6 to 9 are renamed such that it overwrites as few as possible of those that
its caller reads later; these few are saved below the caller's stack before the call, and restored after it.
"""

from __future__ import annotations

from collections.abc import Sequence
from dataclasses import dataclass

from bpfhost.lowering import instructions as op
from bpfhost.lowering.code import Function
from bpfhost.lowering.errors import LoweringError
from bpfhost.lowering.instructions import CALLEE_SAVED, FRAME_POINTER, Instruction
from bpfhost.lowering.values import STACK_SIZE
from bpfhost.numbers import MOST_SLOTS

_WORD = 8
# The deepest nesting of calls; the kernel, too, has eight frames.
DEEPEST = 32


@dataclass(frozen=True)
class Frame:
    """One call of a function, inlined; or the program itself, which has no caller.

    `function` is a number of `functions_of`, `caller` a frame and `call` the slot of the call in it. Register r of the function is register
    `registers[r]`, and its frame pointer is `depth` bytes below that of the program. `saved` has registers by the names of the program,
    each with its place in the stack as an offset from the program's frame pointer.
    """

    function: int
    caller: int | None
    call: int
    registers: tuple[int, ...]
    depth: int
    saved: tuple[tuple[int, int], ...]


Frames = tuple[Frame, ...]


def moved(found: Instruction, frame: Frame) -> tuple[Instruction, ...]:
    """An instruction of a frame's function with the names and the stack of the program."""
    renamed = op.renamed(found, frame.registers)
    if not frame.depth:
        return (renamed,)
    if found.opcode == op.MOVE_64 and found.src == FRAME_POINTER and not found.offset:
        return renamed, Instruction(op.ADD_64, renamed.dst, 0, 0, -frame.depth)
    base = found.src if found.kind == op.LDX else found.dst if found.kind in (op.ST, op.STX) else None
    return (renamed._replace(offset=renamed.offset - frame.depth),) if base == FRAME_POINTER else (renamed,)


def ending(frame: Frame) -> tuple[Instruction, ...]:
    """What ends a frame's function early: the program's exit, or what restores its caller's registers."""
    return (Instruction(op.EXIT, 0, 0, 0, 0),) if frame.caller is None else restoring(frame)


def _is_odd(found: Instruction) -> bool:
    """Whether an instruction uses the frame pointer other than in an address or as the source of a copy: no compiler writes that."""
    if found.kind == op.STX:
        return found.src == FRAME_POINTER
    is_copy = found.opcode == op.MOVE_64 and not found.offset
    return FRAME_POINTER in op.reads(found) and found.kind not in (op.LDX, op.ST) and not is_copy


def saving(frame: Frame) -> tuple[Instruction, ...]:
    """The instructions that save registers of the caller before a frame's code."""
    return tuple(Instruction(op.STORE_64, FRAME_POINTER, register, place, 0) for register, place in frame.saved)


def restoring(frame: Frame) -> tuple[Instruction, ...]:
    """The instructions that restore them after it."""
    return tuple(Instruction(op.LOAD_64, register, FRAME_POINTER, place, 0) for register, place in frame.saved)


@dataclass
class _Call:
    """A frame that has no place yet: its calls by their slots, and which of the registers 6 to 9 it writes."""

    function: int
    slot: int
    inner: list[_Call]
    writes: frozenset[int]
    # The names of registers 6 to 9 in the caller, and the registers of the caller that are saved.
    names: dict[int, int]
    saved: tuple[int, ...]


def frames_of(functions: Sequence[Function]) -> Frames:
    """The frames of the program, which is function 0, and of all that it calls, each caller before its callees.

    Raises LoweringError if a function calls itself, also indirectly, or if it takes too much stack or too many slots.
    """
    return tuple(_Placing(functions).frames(_Calls(functions).call(0, 0, ())))


class _Calls:
    """Follows calls, and counts the slots of the functions that they lead to."""

    def __init__(self, functions: Sequence[Function]) -> None:
        self._functions = functions
        self._slots = 0

    def call(self, number: int, slot: int, callers: tuple[int, ...]) -> _Call:
        """A call of a function, with all calls in it."""
        function = self._functions[number]
        self._slots += len(function.instructions)
        if self._slots > MOST_SLOTS:
            raise LoweringError(f"with the functions that it calls, {self._functions[0].declared.name} has more than {MOST_SLOTS:,} slots")
        if len(callers) > DEEPEST:
            raise LoweringError(f"{function.declared.name} is called inside of more than {DEEPEST} other functions")
        inner = []
        for at, callee in sorted(function.calls.items()):
            if callee in (*callers, number):
                raise LoweringError(self._recursion(function, at, (*callers, number, callee)))
            inner.append(self._named(function, self.call(callee, at, (*callers, number))))
        return _Call(number, slot, inner, _written(function, inner), {}, ())

    def _recursion(self, function: Function, slot: int, path: tuple[int, ...]) -> str:
        cycle = path[path.index(path[-1]) :]
        names = " calls ".join(self._functions[number].declared.name for number in cycle)
        return f"{function.where(slot)}: {names}, and a function that calls itself can't be inlined"

    def _named(self, caller: Function, call: _Call) -> _Call:
        """The call with names for its registers: as far as possible, it writes only registers that the caller does not need later."""
        needed = caller.live[caller.after(call.slot)]
        free = [register for register in CALLEE_SAVED if register not in needed]
        wanted = sorted(call.writes, key=lambda register: register not in free)
        for register in wanted:
            choice = register if register in free else free[0] if free else None
            if choice is not None:
                call.names[register] = choice
                free.remove(choice)
        rest = [register for register in CALLEE_SAVED if register not in call.names.values()]
        for register in sorted(set(CALLEE_SAVED) - call.names.keys(), key=lambda register: register not in call.writes):
            call.names[register] = register if register in rest else rest[0]
            rest.remove(call.names[register])
        call.saved = tuple(sorted({call.names[register] for register in call.writes} & needed))
        return call


def _written(function: Function, inner: Sequence[_Call]) -> frozenset[int]:
    """The registers 6 to 9 that are changed when the function ends."""
    own = {register for found in function.instructions.values() for register in op.writes(found)} & set(CALLEE_SAVED)
    return frozenset(own.union(*({call.names[register] for register in call.writes} - set(call.saved) for call in inner)))


class _Placing:
    """Gives frames their numbers and their places."""

    def __init__(self, functions: Sequence[Function]) -> None:
        self._functions = functions
        self._found: list[Frame] = []

    def frames(self, program: _Call) -> list[Frame]:
        """The frames, from the program's on."""
        self._add(program, Frame(0, None, 0, tuple(range(FRAME_POINTER + 1)), 0, ()))
        return self._found

    def _add(self, call: _Call, frame: Frame) -> None:
        number = len(self._found)
        self._found.append(frame)
        bottom = frame.depth + self._functions[frame.function].stack
        self._check_stack(frame, bottom)
        for each in call.inner:
            self._add(each, self._inner(each, number, frame, bottom))

    def _check_stack(self, frame: Frame, bottom: int) -> None:
        function = self._functions[frame.function]
        if bottom > STACK_SIZE:
            raise LoweringError(self._too_deep(frame, bottom))
        for slot, found in function.instructions.items() if frame.depth else ():
            if _is_odd(found):
                what = f"{function.declared.name} has no copy of its frame pointer here, and is not inlined"
                raise LoweringError(f"{function.where(slot)}: {what}")

    def _inner(self, call: _Call, caller: int, frame: Frame, bottom: int) -> Frame:
        registers = list(frame.registers)
        for register, name in call.names.items():
            registers[register] = frame.registers[name]
        saved = tuple((frame.registers[register], -bottom - _WORD * (at + 1)) for at, register in enumerate(call.saved))
        return Frame(call.function, caller, call.slot, tuple(registers), bottom + _WORD * len(saved), saved)

    def _too_deep(self, frame: Frame, bottom: int) -> str:
        function = self._functions[frame.function]
        called = "" if frame.caller is None else f"{self._functions[self._found[frame.caller].function].where(frame.call)}: "
        return f"{called}with those of its callers the stack of {function.declared.name} has {bottom} bytes, and a program has {STACK_SIZE}"
