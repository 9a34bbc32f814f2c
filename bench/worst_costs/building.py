"""The stream of a case, as a script for worst.c."""

from __future__ import annotations

import struct
from collections.abc import Iterator
from dataclasses import dataclass, field
from functools import cache

from map_costs.keys import SEED, Keys, counting, crowd, ending_in, random_keys
from worst_costs.cases import Case, Command, Part

SLOTS, FIRST, DESCRIPTORS, LONGEST_PACKET = 4096, 3, 64, 65_536
# The most instructions of a bounded batch.
BOUND = 100_000
MAP_CREATE, LOOK_UP, UPDATE, DELETE, NEXT_KEY, PROG_LOAD, TEST_RUN, CLOSE = 0, 1, 2, 3, 4, 5, 10, 256
SOCKET_FILTER, CONTEXT = 1, tuple(range(1, 11))
KEY_COMMANDS = {"look-up": LOOK_UP, "delete": DELETE, "next": NEXT_KEY}
Number = int | list[int]


class NoCase(ValueError):
    """A case that has no stream: a command on a map that is not there, a program that is too long, and so on."""


def number_in(given: Number, repetition: int) -> int:
    if isinstance(given, int):
        return given
    first, step, count = given
    return first + step * (repetition % max(count, 1))


def slot_in(given: list[Number], repetition: int) -> bytes:
    opcode, dst, src, off, imm = (number_in(it, repetition) for it in given)
    off, imm = (off + 2**15) % 2**16 - 2**15, (imm + 2**31) % 2**32 - 2**31
    return struct.pack("<BBhi", opcode % 256, (src % 16) << 4 | dst % 16, off, imm)


def slots_of(parts: list[Part]) -> bytes:
    """The slots of a program. Parts that are repeated as often as there is room share it."""
    fixed = sum(times * len(slots) for times, slots in parts)
    open_slots = sum(len(slots) for times, slots in parts if not times)
    fits = max(0, SLOTS - fixed) // open_slots if open_slots else 0
    made: list[bytes] = []
    for times, slots in parts:
        made += [slot_in(each, repetition) for repetition in range(times or fits) for each in slots]
    if not 0 < len(made) <= SLOTS:
        raise NoCase(f"{len(made)} slots")
    return b"".join(made)


@cache
def family(name: str, size: int, entries: int) -> Keys:
    """At least so many keys of a size. Those of an author who knows the seed need more than eight bytes."""
    if name == "counting":
        return counting(size, min(entries, 256 ** min(size, 8)))
    if name == "random":
        return random_keys(size, min(entries, 256**size // 2 or 1))
    if name == "colliding" and size >= 16:
        return ending_in(SEED.factor, size, entries)
    if name == "crowd" and size >= 2:
        return crowd(SEED, size, entries)
    raise NoCase(f"keys {name} of {size} bytes")


@dataclass
class Builder:
    """The shapes of the maps that a tenant's descriptors name; None for a program."""

    shapes: dict[int, list[int] | None] = field(default_factory=dict)

    def opened(self, shape: list[int] | None) -> None:
        """A new object gets the lowest free descriptor."""
        for fd in range(FIRST, FIRST + DESCRIPTORS):
            if fd not in self.shapes:
                self.shapes[fd] = shape
                return

    def shape(self, fd: int) -> list[int]:
        shape = self.shapes.get(fd)
        if not shape:
            raise NoCase(f"{fd} names no map")
        return shape

    def key(self, fd: int, name: str, number: int) -> bytes:
        kind, size, _, entries = self.shape(fd)
        keys = family(name, size, entries)
        if not 0 <= number < len(keys):
            raise NoCase(f"no key {number}")
        return keys[number]

    def body(self, name: str, fd: int, keys: str, number: int) -> bytes:
        """The frame of a command on a key."""
        head, key = struct.pack("<I", fd), self.key(fd, keys, number)
        if name == "update":
            return struct.pack("<HH", 0, UPDATE) + head + bytes(8) + key + b"\x5a" * self.shape(fd)[2]
        return struct.pack("<HH", 0, KEY_COMMANDS[name]) + head + key

    def frame(self, command: Command) -> bytes:
        """The frame of a command that is one."""
        name, *words = command
        if name == "create":
            self.opened(list(words))
            return struct.pack("<HH5I", 0, MAP_CREATE, *words, 0)
        if name == "load":
            self.opened(None)
            return struct.pack("<HHI", 0, PROG_LOAD, SOCKET_FILTER) + slots_of(words[0])
        if name == "close":
            self.shapes.pop(words[0], None)
            return struct.pack("<HHI", 0, CLOSE, words[0])
        if name == "run":
            fd, length, byte = words
            return struct.pack("<HHI10I", 0, TEST_RUN, fd, *CONTEXT) + bytes([byte % 256]) * min(int(length), LONGEST_PACKET)
        fd, keys, number = words
        return self.body(name, fd, keys, number)

    def before(self, command: Command) -> Iterator[bytes]:
        """The records of a command before the step."""
        name, *words = command
        if name == "fill":
            fd, keys, count = words
            most = min(count, self.shape(fd)[3], len(family(keys, *self.shape(fd)[1::2])))
            for number in range(most):
                yield record("f", self.body("update", fd, keys, number))
        elif name == "put back":
            fd, keys, count, times = words
            frames = [self.body(word, fd, keys, number) for number in range(count) for word in ("delete", "update")]
            rounds, rest = divmod(times, count) if count else (0, 0)
            yield repeated(rounds, frames)
            yield repeated(1, frames[: 2 * rest])
        else:
            yield record("f", self.frame(command))

    def named(self) -> bytes:
        """The descriptors that a program is prepared for: those of maps."""
        maps = [struct.pack("<5I", fd, *shape) for fd, shape in self.shapes.items() if shape]
        return struct.pack("<I", len(maps)) + b"".join(maps)

    def step(self, command: Command) -> bytes:
        name, *words = command
        if name == "save":
            return record("S", struct.pack("<I", words[0]))
        if name in ("batch", "bounded"):
            fd, packets, length, byte, bound = [*words, 0][:5]
            if name == "bounded" and not 0 < bound <= BOUND:
                raise NoCase(f"a bound of {bound}")
            head = struct.pack("<III", fd, max(packets, 1), bound)
            return record("B", head + bytes([byte % 256]) * min(length, LONGEST_PACKET))
        if name == "install":
            return record("I", self.named() + slots_of(words[0]))
        return record("F", self.frame(command))


def record(letter: str, content: bytes) -> bytes:
    return letter.encode() + bytes(3) + struct.pack("<I", len(content)) + content


def repeated(times: int, frames: list[bytes]) -> bytes:
    return record("r", struct.pack("<I", times) + b"".join(struct.pack("<I", len(frame)) + frame for frame in frames))


def script(case: Case) -> bytes:
    """The script of a case: the seed, the frames before the step, and the step."""
    builder, records = Builder(), [struct.pack("<QQ", SEED.state, SEED.factor)]
    for command in case.before:
        records += builder.before(command)
    return b"".join([*records, builder.step(case.step)])


def packets_of(case: Case) -> int:
    """The packets of a batch; 1 for another step."""
    return max(int(case.step[2]), 1) if case.step[0] == "batch" else 1
