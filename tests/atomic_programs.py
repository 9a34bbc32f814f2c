"""Random programs with atomic operations: on their stack, in values that they load directly, and in values that they look up.

Besides what the programs of direct_programs.py do, these write four slots of the stack and keep pointers in them. The last slot has the key
of a lookup. The operand of an operation is register 9, or a constant in register 3.
"""

from __future__ import annotations

import random
from collections.abc import Callable
from dataclasses import dataclass

from atomics import OPERATIONS, Kind, Operation, reason_of
from common import number
from direct_programs import LOOK_UP, POINTERS, SIZES, Direct, Place, Pointer, add, as_offset, map_load
from model import STACK, AtomicAsk, Ask, Map, Run, Wrong

# Slots of the stack, by the offsets of their first bytes.
CONTEXT, KEY, NOT_WRITTEN = -8, -48, -64
FRAME = (-24, -32, -40, KEY)
LONGEST_KEY = 8
ATOMIC_SIZES = (4, 8)
ALL_WRITTEN = 0xFF
# The share of right operands.
RIGHT_PLACES = 0.94
WRONG_PAIRS = [(base, source) for base in Kind for source in Kind if reason_of(base, source)]


class StackPlace(Place):
    """Bytes at a distance from the upper end of the stack, by register 10."""

    def of(self, run: Run) -> tuple[bytearray, int]:
        return run.stack, STACK + self.off

    def slot(self) -> int:
        return self.off // 8 * 8

    def mask(self) -> int:
        """The bytes within their slot."""
        return ((1 << self.size) - 1) << self.off % 8


@dataclass(frozen=True)
class FoundPlace(Place):
    """Bytes of the value of a key, if the map has it."""

    fd: int
    key: bytes

    def of(self, run: Run) -> tuple[bytearray, int]:
        return run.maps[self.fd].values[self.key], self.off

    def is_there(self, run: Run) -> bool:
        return self.key in run.maps[self.fd].values


@dataclass(frozen=True)
class Change:
    """An operation, and the register of its operand: what is known of it, and what it has in a run."""

    operation: Operation
    register: int
    source: Kind = Kind.NUMBER
    number: Callable[[Run], int] = lambda run: 0

    def do(self, run: Run, place: Place) -> None:
        place.write(run, self.operation.result(place.number(run), self.number(run)))


def keep_pointer(run: Run, slot: int, register: int) -> None:
    run.kept[slot] = run.pointers[register]


def take_pointer(run: Run, register: int, slot: int) -> None:
    run.pointers[register] = run.kept[slot]


class Atomics(Direct):
    def __init__(self, draw: random.Random, maps: dict[int, Map], draw_other: Callable[[], int]) -> None:
        # Which bytes of a slot are written, as a mask, or None if it has a pointer.
        self.frame: dict[int, int | None] = {CONTEXT: None, **dict.fromkeys(FRAME, 0)}
        self.kept: dict[int, Pointer] = {}
        super().__init__(draw, maps, draw_other)

    def parts(self) -> dict[Callable[[], None], float]:
        return {
            **super().parts(),
            self.change_value: 8,
            self.change_found: 6,
            self.change_stack: 10,
            self.write_stack: 4,
            self.read_stack: 2,
            self.keep: 4,
            self.take_back: 3,
            self.change_wrong: 0.4,
        }

    # The operands to draw.

    def change(self) -> Change:
        """An operation with a number, mostly."""
        operation = self.draw.choice(OPERATIONS)
        if not self.is_right():
            source = self.draw.choice([it for it in Kind if it not in (Kind.NUMBER, Kind.MAYBE_NULL)])
            return Change(operation, self.register_of(source, 3), source)
        if self.draw.random() < 0.3:
            return Change(operation, 9, number=lambda run: run.total)
        constant = self.draw.choice((1, 1 << 31, (1 << 32) - 1, (1 << 64) - 1, self.draw.getrandbits(64)))
        self.say(f"r3 = {constant} ll")
        return Change(operation, 3, number=lambda run: constant)

    def register_of(self, kind: Kind, free: int) -> int:
        """A register of this kind: the free one if there is no other."""
        if kind is Kind.MAP:
            self.say(map_load(free, self.called_map()[0]))
        elif kind is Kind.CONTEXT:
            self.say(f"r{free} = *(u64 *)(r10 - 8)")
        else:
            value = self.draw.choice(POINTERS)
            return {Kind.UNREADABLE: 5, Kind.NUMBER: 9, Kind.STACK: 10, Kind.VALUE: value, Kind.MAYBE_NULL: 0}[kind]
        return free

    def value_place(self) -> Place:
        """Bytes of a value for an operation, mostly at an offset that is a multiple of their size."""
        size = self.draw.choice(ATOMIC_SIZES)
        if self.draw.random() > RIGHT_PLACES:
            return self.place(size)
        if not self.pointers_for(size):
            self.load_address()
        register = self.draw.choice(self.pointers_for(size) or POINTERS)
        of = self.known[register]
        at = self.draw.randrange(max(self.value_size(of.fd) // size, 1)) * size
        return Place(register, as_offset(at - of.low), size)

    def pointers_for(self, size: int) -> list[int]:
        """The registers whose offset is known, in a value with so many bytes."""
        known = {it: self.known[it] for it in POINTERS}
        return [it for it, of in known.items() if of.low == of.high and self.value_size(of.fd) >= size]

    def stack_place(self) -> StackPlace:
        """Bytes of the stack for an operation: mostly written ones, and some are written if none are."""
        size = self.draw.choice(ATOMIC_SIZES)
        if self.draw.random() > RIGHT_PLACES:
            slot = self.draw.choice((*FRAME, CONTEXT, NOT_WRITTEN))
            off = self.draw.choice((-520, -516, -514, -4, 0, slot, slot + 4, slot + self.draw.randrange(8)))
            return StackPlace(10, off, size)
        every = [StackPlace(10, at, size) for slot in FRAME for at in range(slot, slot + 8, size)]
        written = [it for it in every if not self.reason_at(it)]
        if not written:
            written = [StackPlace(10, self.draw.choice(FRAME), size)]
            self.store_in_stack(StackPlace(10, written[0].off, 8), self.draw.randrange(-(1 << 31), 1 << 31))
        return self.draw.choice(written)

    def reason_at(self, place: StackPlace) -> int:
        """The reason for which an operation at this place is rejected, or 0."""
        if place.off < -STACK or place.off + place.size > 0:
            return 25
        if place.off % place.size:
            return 26
        written = self.frame.get(place.slot(), 0)
        if written is None:
            return 28
        return 0 if written & place.mask() == place.mask() else 27

    # Lines, and what they need.

    def lock(self, change: Change, place: Place, base: Kind, ask: Ask | Wrong) -> None:
        self.asks += [Wrong(self.slots, reason_of(base, change.source)), ask]
        self.say(f"lock {place.text()} {change.operation.sign} r{change.register}")

    def ask_at(self, place: Place) -> AtomicAsk:
        of = self.known[place.register]
        return AtomicAsk(self.slots, of.fd, of.low + place.off, of.high + place.off + place.size, place.size)

    def store_in_stack(self, place: StackPlace, constant: int | None = None) -> None:
        """Stores a constant, or register 9."""
        self.say(f"{place.text()} = {'r9' if constant is None else constant}")
        self.frame[place.slot()] = place.mask() | (self.frame[place.slot()] or 0)
        self.deeds.append(lambda run: place.write(run, run.total if constant is None else constant))

    def add_from_stack(self, place: StackPlace) -> None:
        self.say(f"r1 = {place.text()}")
        self.add_to_total(1)
        self.deeds.append(lambda run: add(run, place.number(run)))

    def look_up_key(self) -> tuple[int, int, bytes]:
        """A lookup with a key in the stack: the map's descriptor, the size of its values, and the key."""
        fitting = [fd for fd, on in self.maps.items() if on.key_size <= LONGEST_KEY]
        fd = self.draw.choice(fitting) if fitting else self.draw_other()
        on = self.maps.get(fd) or Map(0, 4, 8, 1)
        key = self.draw.randrange(min(on.most + 1, 4))
        self.store_in_stack(StackPlace(10, KEY, LONGEST_KEY), key)
        self.say("r2 = r10", f"r2 += {KEY}", map_load(1, fd), f"call {LOOK_UP}")
        return fd, on.value_size, number(key, LONGEST_KEY)[: on.key_size]

    # The parts of a program.

    def change_value(self) -> None:
        change, it = self.change(), self.value_place()
        self.lock(change, it, Kind.VALUE, self.ask_at(it))
        self.deeds.append(lambda run: change.do(run, it))

    def change_found(self) -> None:
        """An operation in a value that was looked up, which is read afterwards."""
        fd, value_size, key = self.look_up_key()
        change, size = self.change(), self.draw.choice([it for it in ATOMIC_SIZES if it <= value_size] or ATOMIC_SIZES)
        off = self.draw.randrange(max(value_size // size, 1)) * size
        it = FoundPlace(0, off if self.is_right() else off + self.draw.randint(-size, size), size, fd, key)
        self.say("if r0 == 0 goto +2")
        self.lock(change, it, Kind.VALUE, AtomicAsk(self.slots, fd, it.off, it.off + size, size))
        self.asks.append(Ask(self.slots, fd, it.off, it.off + size))
        self.say(f"r0 = {it.text()}")
        self.add_to_total(0)

        def deed(run: Run) -> None:
            is_there = it.is_there(run)
            if is_there:
                change.do(run, it)
            add(run, it.number(run) if is_there else 0)

        self.deeds.append(deed)

    def change_stack(self) -> None:
        """An operation on bytes of the stack, now and then through a moved pointer; their slot is read afterwards if possible."""
        change, it = self.change(), self.stack_place()
        through: Place = it
        if self.draw.random() < 0.3:
            by = -8 * self.draw.randrange(1, 9)
            self.say("r2 = r10", f"r2 += {by}")
            through = Place(2, it.off - by, it.size)
        self.lock(change, through, Kind.STACK, Wrong(self.slots, self.reason_at(it)))
        self.deeds.append(lambda run: change.do(run, it))
        if self.frame.get(it.slot()) == ALL_WRITTEN:
            self.add_from_stack(StackPlace(10, it.slot(), 8))

    def write_stack(self) -> None:
        size = self.draw.choice(SIZES)
        place = StackPlace(10, self.draw.choice(FRAME) + self.draw.randrange(0, 8, size), size)
        self.store_in_stack(place, self.draw.choice((None, self.draw.randrange(-(1 << 31), 1 << 31))))

    def read_stack(self) -> None:
        """Some bytes that are written, if there are any."""
        every = [StackPlace(10, at, size) for size in SIZES for slot in FRAME for at in range(slot, slot + 8, size)]
        written = [it for it in every if not self.reason_at(it)]
        if written:
            self.add_from_stack(self.draw.choice(written))

    def keep(self) -> None:
        """Stores a pointer to a slot; operations may change the slots next to it."""
        slot, register = self.draw.choice(FRAME), self.draw.choice(POINTERS)
        self.say(f"{StackPlace(10, slot, 8).text()} = r{register}")
        self.frame[slot], self.kept[slot] = None, self.known[register]
        self.deeds.append(lambda run: keep_pointer(run, slot, register))

    def take_back(self) -> None:
        """Loads a stored pointer, if there is one."""
        slots = [slot for slot in FRAME if self.frame[slot] is None]
        if not slots:
            return
        slot, register = self.draw.choice(slots), self.draw.choice(POINTERS)
        self.say(f"r{register} = {StackPlace(10, slot, 8).text()}")
        self.known[register] = self.kept[slot]
        self.deeds.append(lambda run: take_pointer(run, register, slot))

    def change_wrong(self) -> None:
        """An operation with an invalid base or source, or both: the verifier reports the first condition that fails."""
        base, source = self.draw.choice(WRONG_PAIRS)
        if Kind.MAYBE_NULL in (base, source):
            self.look_up_key()
        place = Place(self.register_of(base, 2), 0, self.draw.choice(ATOMIC_SIZES))
        change = Change(self.draw.choice(OPERATIONS), self.register_of(source, 3), source)
        self.lock(change, place, base, Wrong(self.slots, 0))
