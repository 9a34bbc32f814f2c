"""Writes the slots of each step, except for the jumps to its followers."""

from __future__ import annotations

from collections.abc import Hashable
from enum import Enum, auto

from bpfhost.classic import slots_writer as op
from bpfhost.classic.ancillary import ContextWord
from bpfhost.classic.instructions import Operator
from bpfhost.classic.knowledge import FARTHEST, Known, has_33_bits
from bpfhost.classic.slots_writer import SlotsWriter
from bpfhost.classic.stack import BUFFER, Layout, pieces, scratch
from bpfhost.classic.steps import (
    Copy,
    Headers,
    LoadContext,
    LoadHeader,
    LoadPacket,
    LoadScratch,
    Negate,
    Operate,
    Register,
    Return,
    SetNumber,
    Step,
    StoreScratch,
)

NUMBERS = {Register.A: 7, Register.X: 8, Register.MOVED: 4}
CONTEXT = 6
_ALU, _BY_REGISTER = 0x04, 0x08


class Context(Enum):
    """The place of the run's context at a step: the register in which it is passed, which a call changes, or another one in which it is saved."""

    PASSED = auto()
    # It is passed to a call, whose arguments save it.
    TO_SAVE = auto()
    SAVED = auto()

    @property
    def register(self) -> int:
        """The register that has it."""
        return CONTEXT if self is Context.SAVED else op.R1


class StepSlots:
    """Writes the slots of steps."""

    def __init__(self, writer: SlotsWriter, layout: Layout) -> None:
        self._writer = writer
        self._layout = layout

    def number(self, to: int, number: int) -> None:
        """Sets a register to a number."""
        self._writer.put(op.MOVE_K_W, to, number=number)

    def step(self, step: Step, context: Context, in_order: bool) -> None:
        """Writes a step that can't fail; if `in_order`, a load of the packet keeps the packet's byte order."""
        put = self._writer.put
        match step:
            case SetNumber(to=to, number=number):
                self.number(NUMBERS[to], number)
            case Copy(to=to, source=source):
                put(op.MOVE_X_W, NUMBERS[to], NUMBERS[source])
            case LoadContext(to=to, word=word):
                self._load_word(NUMBERS[to], context.register, word)
            case LoadScratch(to=to, word=each):
                put(op.LOAD[4], NUMBERS[to], op.R10, offset=scratch(each))
            case StoreScratch(word=each, value=int() as number):
                put(op.STORE_WORD_K, op.R10, offset=scratch(each), number=number)
            case StoreScratch(word=each, value=Register() as register):
                put(op.STORE_WORD, op.R10, NUMBERS[register], offset=scratch(each))
            case LoadHeader(to=to, offset=offset, size=size):
                self._load_stack(NUMBERS[to], self._layout.place(offset), size, in_order)
            case Operate(to=to, operator=operator, operand=int() as number):
                self._operate(NUMBERS[to], operator, number)
            case Operate(to=to, operator=operator, operand=Register() as register):
                put(_ALU | operator.value | _BY_REGISTER, NUMBERS[to], NUMBERS[register])
            case Negate():
                put(op.NEGATE_W, NUMBERS[Register.A])

    def _load_word(self, to: int, context: int, word: ContextWord) -> None:
        self._writer.put(op.LOAD[4], to, context, offset=word.offset)
        if word.is_packet_order:
            self._writer.put(op.TO_BIG_ENDIAN, to, number=16)

    def _load_stack(self, to: int, place: int, size: int, in_order: bool) -> None:
        """Loads bytes of the stack into one register, the first byte lowest; then their order is swapped."""
        (first, whole), *others = pieces(place, size)
        self._writer.put(op.LOAD[whole], to, op.R10, offset=first)
        for part, part_size in others:
            self._writer.put(op.LOAD[part_size], op.R5, op.R10, offset=part)
            self._writer.put(op.LEFT_K_W, op.R5, number=8 * (part - first))
            self._writer.put(op.OR_X_W, to, op.R5)
        if size > 1 and not in_order:
            self._writer.put(op.TO_BIG_ENDIAN, to, number=8 * size)

    def _operate(self, to: int, operator: Operator, number: int) -> None:
        self._writer.put(_ALU | operator.value, to, number=number)

    def end(self, step: Return, is_zero: bool) -> None:
        """Writes the end; with `is_zero` the register of the result is 0 already, from a call."""
        if isinstance(step.value, Register):
            self._writer.put(op.MOVE_X_W, op.R0, NUMBERS[step.value])
        elif step.value or step.may_follow_failure or not is_zero:
            self.number(op.R0, step.value)
        self._writer.put(op.EXIT)

    # Calls of the helper that copies bytes of the packet.
    #
    # The order of the arguments is that of sequences of instructions that the host's interpreter executes at once (docs/GUIDE.md): a move of
    # a register, the addition of a number to it and one more move; two moves of numbers and a call.

    def fetch(self, headers: Headers, context: Context, shorter: Hashable | None = None) -> None:
        """Copies headers to the stack; if the packet may end before them, a jump to a label follows for that case."""
        self._call_at(headers.first, context, self._layout.place(headers.first), headers.size)
        self._test_call(shorter)

    def load(self, step: LoadPacket, context: Context, known: Known, shorter: Hashable | None = None) -> None:
        """Bytes of the packet come to the buffer; if the packet may end before them, a jump to a label follows for that case."""
        if not step.is_behind_x:
            self._call_at(step.offset, context, BUFFER, step.size)
        elif not step.offset:
            self._call_at_register(NUMBERS[step.base], context, step.size)
        else:
            self._call_behind(step, context, known, shorter)
        self._test_call(shorter)

    def take(self, step: LoadPacket, in_order: bool) -> None:
        """Loads the bytes of the buffer into a register."""
        self._load_stack(NUMBERS[step.to], BUFFER, step.size, in_order)

    def _call_at(self, offset: int, context: Context, place: int, size: int) -> None:
        """Calls the helper with a known offset."""
        self._address(place)
        self._move_context(context)
        self._writer.put(op.MOVE_K, op.R2, number=offset)
        self._size_and_call(size)

    def _call_at_register(self, register: int, context: Context, size: int) -> None:
        """Calls the helper with a register as the offset: it has 32 bits, so all 64 bits of it are the same number."""
        self._address(BUFFER)
        self._writer.put(op.MOVE_X, op.R2, register)
        self._move_context(context)
        self._size_and_call(size)

    def _call_behind(self, step: LoadPacket, context: Context, known: Known, shorter: Hashable | None) -> None:
        """Calls the helper with the sum of a register and an offset: it reads 32 bits of the sum, so a larger one is refused first, unless it wraps."""
        self._writer.put(op.MOVE_X, op.R2, NUMBERS[step.base])
        self._writer.put(op.ADD_K, op.R2, number=step.offset)
        if shorter is not None and has_33_bits(step, known):
            self._writer.jump(shorter, op.JUMP_ABOVE_K, op.R2, number=FARTHEST)
        self._address(BUFFER)
        self._move_context(context)
        self._size_and_call(step.size)

    def _address(self, place: int) -> None:
        """Passes an address on the stack."""
        self._writer.put(op.MOVE_X, op.R3, op.R10)
        self._writer.put(op.ADD_K, op.R3, number=place)

    def _move_context(self, context: Context) -> None:
        """Passes the saved context, or saves it: a program begins with it in the register of the argument."""
        if context is Context.SAVED:
            self._writer.put(op.MOVE_X, op.R1, CONTEXT)
        else:
            self._writer.put(op.MOVE_X, CONTEXT, op.R1)

    def _size_and_call(self, size: int) -> None:
        self._writer.put(op.MOVE_K, op.R4, number=size)
        self._writer.put(op.CALL, number=op.LOAD_BYTES)

    def _test_call(self, shorter: Hashable | None) -> None:
        if shorter is not None:
            self.jump_if_short(shorter)

    def jump_if_short(self, shorter: Hashable) -> None:
        """A jump to a label if the last call has not found its bytes in the packet."""
        self._writer.jump(shorter, op.JUMP_NOT_EQUAL_K, op.R0)
