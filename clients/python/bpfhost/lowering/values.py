"""What is known of registers and of the stack before an instruction, for lowering: ranges of numbers, and offsets in the stack.

The verifier knows more (docs/VERIFIER.md): here a pointer to anything but the stack is any number. This module decides comparisons
(`edges`), and computes how much of the stack a function uses (`stack_used`).
"""

from __future__ import annotations

from collections.abc import Iterable, Mapping
from dataclasses import dataclass, field

from bpfhost.helpers import HELPERS
from bpfhost.lowering import instructions as op
from bpfhost.lowering.instructions import FRAME_POINTER, Instruction
from bpfhost.lowering.ranges import ANY_NUMBER, Range, constant, cut, full, hull, refine, result, signed

STACK_SIZE = 512
# A greater offset is not tracked: no stack is that large.
_FARTHEST = 1 << 29


@dataclass(frozen=True)
class Place:
    """A pointer into the stack, by its offset from the frame pointer."""

    offset: int


@dataclass(frozen=True)
class Unknown:
    """Any number, or any pointer, also one into the stack."""


UNKNOWN = Unknown()
Value = Range | Place | Unknown
# The lowest address: a smaller number is not a pointer.
_LEAST_ADDRESS = 1 << 32


def join(a: Value, b: Value) -> Value:
    """What is known if the value is either of two."""
    if a == b:
        return a
    return hull(a, b) if isinstance(a, Range) and isinstance(b, Range) else UNKNOWN


def _at_entry() -> list[Value]:
    return [*[ANY_NUMBER] * FRAME_POINTER, Place(0)]


@dataclass
class State:
    """The registers by their numbers, and the contents of the stack by offset and size in bytes."""

    registers: list[Value] = field(default_factory=_at_entry)
    stack: dict[tuple[int, int], Value] = field(default_factory=dict)

    def copy(self) -> State:
        """A copy that can be changed."""
        return State(self.registers.copy(), self.stack.copy())

    def joined(self, other: State | None) -> State:
        """What is known where edges with these states meet."""
        if other is None:
            return self
        registers = [join(a, b) for a, b in zip(self.registers, other.registers)]
        return State(registers, {key: join(self.stack[key], other.stack[key]) for key in self.stack.keys() & other.stack.keys()})

    def apply(self, found: Instruction) -> None:
        """The effect of an instruction that is not a jump."""
        match found.kind:
            case 4 | 7:
                self.registers[found.dst] = self._arithmetic(found)
            case 0:
                self.registers[found.dst] = _wide(found)
            case 1:
                self.registers[found.dst] = self._loaded(found)
            case 2 | 3:
                self._store(found)
            case 5 if found.opcode == op.CALL:
                self._call(found)

    def _operand(self, found: Instruction, bits: int) -> Value:
        return self.registers[found.src] if found.from_register else constant(found.constant, bits)

    def _arithmetic(self, found: Instruction) -> Value:
        bits = 64 if found.kind == op.ALU64 else 32
        if found.code == op.END:
            return full(found.constant if found.constant in (16, 32) else 64)
        a = self.registers[found.dst]
        b = constant(0) if found.code == op.NEG else self._operand(found, bits)
        if found.code == op.MOV and bits == 64 and not found.offset:
            return b
        if isinstance(a, Range) and isinstance(b, Range) or found.code == op.MOV and isinstance(b, Range):
            return result(found.code, a if isinstance(a, Range) else ANY_NUMBER, b, bits, found.offset)
        moved = _moved(found.code, a, b) if bits == 64 else None
        return moved or _below_addresses(result(found.code, _as_number(a), _as_number(b), bits, found.offset))

    def _loaded(self, found: Instruction) -> Value:
        base, size = self.registers[found.src], found.size
        whole: Value = UNKNOWN if size == 8 and not isinstance(base, Range) else full(8 * size)
        value = self.stack.get((base.offset + found.offset, size), whole) if isinstance(base, Place) else whole
        if found.opcode & 0xE0 == op.SIGNED_LOAD:
            is_positive = isinstance(value, Range) and value.hi < 1 << 8 * size - 1
            return value if is_positive else ANY_NUMBER
        return value

    def _store(self, found: Instruction) -> None:
        base = self.registers[found.dst]
        if isinstance(base, Range):
            return
        if isinstance(base, Unknown):
            self.stack.clear()
            return
        at = base.offset + found.offset
        self._forget(at, found.size)
        if found.opcode & 0xE0 == op.ATOMIC:
            return
        value = constant(found.constant) if found.kind == op.ST else self.registers[found.src]
        if isinstance(value, Range):
            self.stack[at, found.size] = cut(value, 8 * found.size)
        elif found.size == 8:
            self.stack[at, 8] = value

    def _forget(self, at: int, size: int) -> None:
        """Forgets what is known of so many bytes of the stack."""
        for other, length in [key for key in self.stack if key[0] < at + size and at < key[0] + key[1]]:
            del self.stack[other, length]

    def _fill(self, pointer: Value, length: Value) -> None:
        """Forgets what a helper may write over."""
        if isinstance(pointer, Place):
            self._forget(pointer.offset, length.hi if isinstance(length, Range) else STACK_SIZE)
        elif isinstance(pointer, Unknown):
            self.stack.clear()

    def _call(self, found: Instruction) -> None:
        if found.constant not in HELPERS:
            self.stack.clear()
        elif (room := HELPERS[found.constant]) is not None:
            self._fill(self.registers[room.pointer], self.registers[room.length])
        self.registers[:6] = [ANY_NUMBER] + [UNKNOWN] * 5


def _wide(found: Instruction) -> Value:
    """The result of a wide load: a number, or an address that is not in the stack."""
    return constant(found.constant % (1 << 32) | int.from_bytes(found.second[4:], "little") << 32) if not found.src else ANY_NUMBER


def _as_number(value: Value) -> Range:
    return value if isinstance(value, Range) else ANY_NUMBER


def _below_addresses(found: Range) -> Value:
    """A number that may have been an address before: its range is known if all of it is below the addresses."""
    return found if found.hi < _LEAST_ADDRESS else UNKNOWN


def _moved(code: int, a: Value, b: Value) -> Value | None:
    """A pointer into the stack, moved by a constant; None if it is something else."""
    if code == op.ADD and isinstance(b, Place):
        a, b = b, a
    if not isinstance(a, Place) or not isinstance(b, Range) or not b.is_constant or code not in (op.ADD, op.SUB):
        return None
    by = signed(b.lo, 64)
    offset = a.offset + (by if code == op.ADD else -by)
    return Place(offset) if abs(offset) < _FARTHEST else UNKNOWN


def edges(state: State, found: Instruction) -> tuple[State | None, State | None]:
    """The states if a comparison is true, and if it is false; None if that is impossible."""
    bits = 64 if found.kind == op.JMP else 32
    a = state.registers[found.dst]
    b: Value = state.registers[found.src] if found.from_register else constant(found.constant, bits)
    if not (isinstance(a, Range) and isinstance(b, Range)) or found.from_register and found.dst == found.src:
        return state.copy(), state.copy()
    taken, fallen = refine(found.code, a, b, bits)
    return tuple(None if ranges is None else _refined(state, found, *ranges) for ranges in (taken, fallen))  # type: ignore[return-value]


def _refined(state: State, found: Instruction, a: Range, b: Range) -> State:
    refined = state.copy()
    refined.registers[found.dst] = a
    if found.from_register:
        refined.registers[found.src] = b
    return refined


def stack_used(code: Mapping[int, Instruction], successors: Mapping[int, Iterable[int]]) -> int | None:
    """How many bytes below the frame pointer a function uses, rounded up to eight; None if more than there are.

    `successors` has the slots that can follow each slot. All offsets that a register may have are kept as a set, so that none is lost where
    edges meet.
    """
    places: dict[int, dict[int, frozenset[int]]] = {min(code): {FRAME_POINTER: frozenset({0})}}
    lowest, waiting = 0, [min(code)]
    while waiting:
        slot = waiting.pop()
        after, used = _places_after(code[slot], places[slot])
        lowest = min(lowest, used)
        if lowest < -STACK_SIZE:
            return None
        for following in successors[slot]:
            before = places.get(following)
            merged = after if before is None else _merged(before, after)
            if merged != before:
                places[following] = merged
                waiting.append(following)
    return -lowest + 7 & ~7


def _merged(a: dict[int, frozenset[int]], b: dict[int, frozenset[int]]) -> dict[int, frozenset[int]]:
    return {register: a.get(register, frozenset()) | b.get(register, frozenset()) for register in a.keys() | b.keys()}


def _places_after(found: Instruction, before: dict[int, frozenset[int]]) -> tuple[dict[int, frozenset[int]], int]:
    """The offsets that registers may have after an instruction, and the lowest byte of the stack that it names."""
    base = found.src if found.kind == op.LDX else found.dst if found.kind in (op.ST, op.STX) else None
    lowest = min((place + found.offset for place in before.get(base, ())), default=0) if base is not None else 0
    written = op.writes(found)
    if not written:
        return before, lowest
    after = {register: places for register, places in before.items() if register not in written}
    moved = _places_moved(found, before)
    if moved:
        after[found.dst] = moved
        lowest = min(lowest, *moved)
    return after, lowest


def _places_moved(found: Instruction, before: dict[int, frozenset[int]]) -> frozenset[int]:
    """The offsets that an instruction gives its register: a copy, or one moved down the stack by a constant."""
    if found.opcode == op.MOVE_64 and not found.offset:
        return before.get(found.src, frozenset())
    if found.kind != op.ALU64 or found.code not in (op.ADD, op.SUB):
        return frozenset()
    own = before.get(found.dst, frozenset())
    if found.from_register:
        # The distance is not known; an index goes up from the start of the object.
        return own | before.get(found.src, frozenset())
    by = found.constant if found.code == op.ADD else -found.constant
    # Offsets further away than the size of the stack are clamped: below it, all are too far.
    return frozenset(min(max(place + by, -STACK_SIZE - 1), STACK_SIZE) for place in own)
