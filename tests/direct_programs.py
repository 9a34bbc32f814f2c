"""Random programs that load addresses in the values of arrays, with what each needs and does.

Registers 6 to 8 point into such values; register 9 has a number that grows with all that is read, which is the result. The stack has the
context. What a program needs is computed as it is drawn: the map of each pointer, and its range of offsets.
"""

from __future__ import annotations

import random
from collections.abc import Callable
from dataclasses import dataclass

from common import number
from model import INDEX_0, WORD, Ask, Code, Map, Run, Wrong, answer_of

POINTERS = (6, 7, 8)
PARTS = range(2, 8)
SIZES = (1, 2, 4, 8)
LOOK_UP, UPDATE, DELETE = 1, 2, 3
EFAULT = 14
# The share of right operands: a map's descriptor, an offset of a load, the bytes of an access.
RIGHT = 0.98


@dataclass(frozen=True)
class Pointer:
    """What is known of a pointer: the descriptor of its map, and the least and the greatest offset."""

    fd: int
    low: int
    high: int

    def moved(self, low: int, high: int) -> Pointer:
        return Pointer(self.fd, self.low + low, self.high + high)


@dataclass(frozen=True)
class Place:
    """Bytes at a distance from a pointer, by its register."""

    register: int
    off: int
    size: int

    def text(self, letter: str = "u") -> str:
        sign = "-" if self.off < 0 else "+"
        return f"*({letter}{8 * self.size} *)(r{self.register} {sign} {abs(self.off)})"

    def of(self, run: Run) -> tuple[bytearray, int]:
        fd, at = run.pointers[self.register]
        return run.maps[fd].values[INDEX_0], at + self.off

    def read(self, run: Run) -> bytes:
        value, at = self.of(run)
        return bytes(value[at : at + self.size])

    def number(self, run: Run) -> int:
        return int.from_bytes(self.read(run), "little")

    def write(self, run: Run, what: int | bytes) -> None:
        value, at = self.of(run)
        value[at : at + self.size] = what if isinstance(what, bytes) else number(what % (1 << 8 * self.size), self.size)


def add(run: Run, what: int) -> None:
    run.total = (31 * run.total + what) % (WORD * WORD)


def point(run: Run, register: int, fd: int, off: int) -> None:
    run.pointers[register] = fd, off


def move(run: Run, register: int, by: int) -> None:
    fd, at = run.pointers[register]
    run.pointers[register] = fd, at + by


class Direct:
    """A program that is drawn part by part, for a tenant with these maps. `draw_other` draws any descriptor."""

    def __init__(self, draw: random.Random, maps: dict[int, Map], draw_other: Callable[[], int]) -> None:
        self.draw, self.maps, self.draw_other = draw, maps, draw_other
        self.lines: list[str] = []
        self.asks: list[Ask | Wrong] = []
        self.deeds: list[Callable[[Run], object]] = []
        self.slots = 0
        self.known: dict[int, Pointer] = {}
        self.draw_parts()

    def draw_parts(self) -> None:
        self.say("*(u64 *)(r10 - 8) = r1", "r9 = 0")
        for register in POINTERS:
            self.load_address(register)
        parts = self.parts()
        for part in self.draw.choices(list(parts), list(parts.values()), k=self.draw.choice(PARTS)):
            part()
        self.say("r0 = r9", "exit")

    def parts(self) -> dict[Callable[[], None], float]:
        """The kinds of parts, and how often each is drawn."""
        return {
            self.load: 4,
            self.store: 4,
            self.count: 3,
            self.keep_greatest: 3,
            self.look_up: 3,
            self.update: 3,
            self.delete: 1,
            self.copy_packet: 2,
            self.load_address: 3,
            self.load_one_of_two: 2,
            self.move: 2,
            self.move_by_byte: 2,
            self.spill: 2,
            self.test: 1,
        }

    def text(self) -> str:
        return "\n".join(self.lines) + "\n"

    def code(self) -> Code:
        deeds = tuple(self.deeds)

        def act(run: Run) -> int:
            for deed in deeds:
                deed(run)
            return run.total

        return Code(act, tuple(self.asks))

    # Lines, and what they need.

    def say(self, *lines: str) -> None:
        for line in lines:
            self.lines.append(line)
            self.slots += 2 if line.endswith(" ll") else 1

    def access(self, line: str, *places: Place) -> None:
        """A line that accesses these bytes."""
        for it in places:
            of = self.known[it.register]
            self.asks.append(Ask(self.slots, of.fd, of.low + it.off, of.high + it.off + it.size))
        self.say(line)

    def add_to_total(self, register: int) -> None:
        self.say("r9 *= 31", f"r9 += r{register}")

    # The operands to draw.

    def is_right(self) -> bool:
        return self.draw.random() < RIGHT

    def address(self) -> tuple[int, int]:
        """A map's descriptor and an offset in its value; now and then a wrong one."""
        single = [fd for fd, on in self.maps.items() if on.is_single()]
        fd = self.draw.choice(single) if single and self.is_right() else self.draw_other()
        return fd, self.offset(fd)

    def value_size(self, fd: int) -> int:
        return self.maps[fd].value_size if fd in self.maps else 8

    def offset(self, fd: int) -> int:
        size = self.value_size(fd)
        if not self.is_right():
            return self.draw.choice((size, size + 1, WORD // 2, WORD - 1))
        return self.draw.choice((0, self.draw.randrange(size) // 8 * 8, self.draw.randrange(size)))

    def room(self, register: int) -> int:
        """How many bytes of the value follow for each offset that the pointer may have."""
        of = self.known[register]
        return self.value_size(of.fd) - (of.high - of.low)

    def place(self, size: int = 0) -> Place:
        """Bytes at a pointer, a given number or a number that a load may have; mostly within the value."""
        register = self.draw.choice([it for it in POINTERS if self.room(it) >= max(size, 1)] or POINTERS)
        size = size or self.draw.choice([it for it in SIZES if it <= self.room(register)] or SIZES)
        of = self.known[register]
        first, last = -of.low, self.value_size(of.fd) - size - of.high
        is_inside = first <= last and self.is_right()
        off = self.draw.randint(first, last) if is_inside else self.draw.choice((first - 1, last + 1))
        return Place(register, as_offset(off), size)

    def called_map(self, reads_value: bool = False) -> tuple[int, Map]:
        """A map for a helper, mostly one that has a key, and a value if the helper reads one."""
        room = max(map(self.room, POINTERS))
        sizes = {fd: max(on.key_size, on.value_size * reads_value) for fd, on in self.maps.items()}
        fitting = [fd for fd, size in sizes.items() if size <= room]
        fd = self.draw.choice(fitting) if fitting and self.is_right() else self.draw_other()
        return fd, self.maps.get(fd) or Map(0, 4, 8, 1)

    # The parts of a program.

    def load_address(self, register: int = 0) -> None:
        register = register or self.draw.choice(POINTERS)
        fd, off = self.address()
        self.say(direct_load(register, fd, off))
        self.known[register] = Pointer(fd, off, off)
        self.deeds.append(lambda run: point(run, register, fd, off))

    def load_one_of_two(self) -> None:
        """A pointer to one of two offsets in a value, chosen by a bit that is read."""
        register, byte = self.draw.choice(POINTERS), self.place(1)
        fd, off = self.address()
        other = self.offset(fd)
        self.access(f"r1 = {byte.text()}", byte)
        self.say("if r1 & 1 goto +3", direct_load(register, fd, off), "goto +2", direct_load(register, fd, other))
        self.known[register] = Pointer(fd, min(off, other), max(off, other))
        self.deeds.append(lambda run: point(run, register, fd, other if byte.number(run) & 1 else off))

    def move(self) -> None:
        register, by = self.draw.choice(POINTERS), self.draw.randint(-8, 8)
        self.say(f"r{register} += {by}")
        self.known[register] = self.known[register].moved(by, by)
        self.deeds.append(lambda run: move(run, register, by))

    def move_by_byte(self) -> None:
        """A pointer moves forward by some low bits of a byte that is read."""
        register, byte, mask = self.draw.choice(POINTERS), self.place(1), self.draw.choice((1, 3, 7))
        self.access(f"r1 = {byte.text()}", byte)
        self.say(f"r1 &= {mask}", f"r{register} += r1")
        self.known[register] = self.known[register].moved(0, mask)
        self.deeds.append(lambda run: move(run, register, byte.number(run) & mask))

    def spill(self) -> None:
        """A pointer is stored to the stack and loaded into a register."""
        kept, register = self.draw.choice(POINTERS), self.draw.choice(POINTERS)
        self.say(f"*(u64 *)(r10 - 16) = r{kept}", f"r{register} = *(u64 *)(r10 - 16)")
        self.known[register] = self.known[kept]
        self.deeds.append(lambda run: point(run, register, *run.pointers[kept]))

    def test(self) -> None:
        """No pointer to a value is null: the code on the edge for a null pointer need not be valid."""
        register = self.draw.choice(POINTERS)
        self.say(f"if r{register} != 0 goto +1", f"r9 = *(u64 *)(r{register} + 9999)")

    def load(self) -> None:
        it = self.place()
        is_signed = it.size < 8 and self.draw.random() < 0.3
        self.access(f"r1 = {it.text('s' if is_signed else 'u')}", it)
        self.add_to_total(1)
        self.deeds.append(lambda run: add(run, int.from_bytes(it.read(run), "little", signed=is_signed)))

    def store(self) -> None:
        it, value = self.place(), self.draw.randrange(-(1 << 31), 1 << 31)
        if self.draw.random() < 0.5:
            self.access(f"{it.text()} = {value}", it)
            self.deeds.append(lambda run: it.write(run, value))
        else:
            self.access(f"{it.text()} = r9", it)
            self.deeds.append(lambda run: it.write(run, run.total))

    def count(self) -> None:
        it, by = self.place(), self.draw.randrange(1, 9)
        self.access(f"r1 = {it.text()}", it)
        self.say(f"r1 += {by}")
        self.access(f"{it.text()} = r1", it)
        self.deeds.append(lambda run: it.write(run, it.number(run) + by))

    def keep_greatest(self) -> None:
        """The greater of two numbers replaces the first one."""
        here = self.place()
        there = self.place(here.size)
        self.access(f"r1 = {here.text()}", here)
        self.access(f"r2 = {there.text()}", there)
        self.say("if r1 >= r2 goto +1")
        self.access(f"{here.text()} = r2", here)
        self.deeds.append(lambda run: here.write(run, max(here.number(run), there.number(run))))

    def copy_packet(self) -> None:
        size = self.draw.randrange(1, 9)
        to, offset = self.place(size), self.draw.choice((0, 1, 2, 5, 1 << 31))
        self.say("r1 = *(u64 *)(r10 - 8)", f"r2 = {offset} ll", *argument(3, to), f"r4 = {size}")
        self.access("call 26", to)
        self.add_to_total(0)

        def deed(run: Run) -> None:
            is_there = offset + size <= len(run.packet)
            to.write(run, run.packet[offset : offset + size] if is_there else bytes(size))
            add(run, 0 if is_there else -EFAULT)

        self.deeds.append(deed)

    def look_up(self) -> None:
        """The key is read through a pointer; a load of the value that was found follows."""
        fd, on = self.called_map()
        key, size = self.place(on.key_size), self.draw.choice([it for it in SIZES if it <= on.value_size])
        off = self.draw.randint(0, on.value_size - size) if self.is_right() else on.value_size - size + 1
        self.say(*argument(2, key), map_load(1, fd))
        self.access(f"call {LOOK_UP}", key)
        self.say("if r0 == 0 goto +1")
        self.asks.append(Ask(self.slots, fd, off, off + size))
        self.say(f"r0 = *(u{8 * size} *)(r0 + {off})")
        self.add_to_total(0)

        def deed(run: Run) -> None:
            found = run.maps[fd].values.get(key.read(run), b"")
            add(run, int.from_bytes(found[off : off + size], "little"))

        self.deeds.append(deed)

    def update(self) -> None:
        """Both the key and the value are read through pointers."""
        fd, on = self.called_map(reads_value=True)
        key, value, flags = self.place(on.key_size), self.place(on.value_size), self.draw.choice((0, 0, 0, 1, 2, 3))
        self.say(*argument(2, key), *argument(3, value), map_load(1, fd), f"r4 = {flags}")
        self.access(f"call {UPDATE}", key, value)
        self.add_to_total(0)

        def deed(run: Run) -> None:
            read = key.read(run), value.read(run)
            add(run, answer_of(lambda: run.maps[fd].update(*read, flags)))

        self.deeds.append(deed)

    def delete(self) -> None:
        fd, on = self.called_map()
        key = self.place(on.key_size)
        self.say(*argument(2, key), map_load(1, fd))
        self.access(f"call {DELETE}", key)
        self.add_to_total(0)

        def deed(run: Run) -> None:
            told = answer_of(lambda: run.maps[fd].delete(key.read(run)))
            run.maps[fd].deleted += not told
            add(run, told)

        self.deeds.append(deed)


def as_offset(distance: int) -> int:
    """The nearest distance that an instruction can have."""
    return max(-(1 << 15), min(distance, (1 << 15) - 1))


def signed(fd: int) -> int:
    return fd - WORD if fd >= WORD // 2 else fd


def direct_load(register: int, fd: int, off: int) -> str:
    return f"r{register} = map_value {signed(fd)} + {off} ll"


def map_load(register: int, fd: int) -> str:
    return f"r{register} = map_fd {signed(fd)} ll"


def argument(register: int, place: Place) -> tuple[str, str]:
    return f"r{register} = r{place.register}", f"r{register} += {place.off}"
