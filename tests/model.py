"""A model of docs/PROTOCOL.md in lists and dictionaries: no memory, no addresses, and each tenant separate.

It knows the effect of a run from a program's slots (`KNOWN`). It decides whether a program is accepted from its wide loads, its atomic
operations, and the bytes of values that it accesses; in all else the programs are right.
"""

from __future__ import annotations

import struct
from collections.abc import Callable, Iterable
from dataclasses import dataclass, field

from common import number
from bpfhost import Command, Errno, MapType, Reply, Update
from bpfhost.numbers import (
    FIRST_DESCRIPTOR,
    LARGEST_AREA,
    LARGEST_SUM,
    LONGEST_FRAME,
    LONGEST_KEY,
    LONGEST_PACKET,
    MOST_DESCRIPTORS,
    MOST_MAPS,
    NOBODY,
    SOCKET_FILTER,
)
from slots import WideLoad, misspelled, wide_loads

STACK = 512
WORD = 1 << 32
INDEX_0 = bytes(4)


class Refused(Exception):
    """The error number of a reply, and its payload."""

    def __init__(self, error: int, payload: bytes = b"") -> None:
        super().__init__(error)
        self.error, self.payload = error, payload


def demand(holds: object, error: int) -> None:
    if not holds:
        raise Refused(error)


def answer_of(call: Callable[[], object]) -> int:
    """The result of a helper's call: 0 or an error."""
    try:
        call()
    except Refused as refused:
        return -refused.error
    return 0


# Maps.


@dataclass(eq=False)
class Map:
    """Its keys with their values, in order; and how many keys runs have deleted."""

    kind: int
    key_size: int
    value_size: int
    most: int
    values: dict[bytes, bytearray] = field(default_factory=dict)
    deleted: int = 0

    def __post_init__(self) -> None:
        if self.kind == MapType.ARRAY:
            self.values = {number(at, 4): bytearray(self.value_size) for at in range(self.most)}

    def area(self) -> int:
        return self.most * ((self.value_size + 7) // 8 * 8)

    def is_single(self) -> bool:
        """Whether it is an array of one element, whose value may be loaded directly."""
        return self.kind == MapType.ARRAY and self.most == 1

    def update(self, key: bytes, value: bytes, flags: int) -> None:
        demand(flags <= Update.EXIST, Errno.EINVAL)
        is_there = key in self.values
        demand(is_there or self.kind == MapType.HASH, Errno.E2BIG)
        demand(not is_there or flags != Update.NOEXIST, Errno.EEXIST)
        demand(is_there or flags != Update.EXIST, Errno.ENOENT)
        demand(is_there or len(self.values) + self.deleted < self.most, Errno.E2BIG)
        if is_there:
            self.values[key][:] = value
        else:
            self.values[key] = bytearray(value)

    def delete(self, key: bytes) -> None:
        demand(self.kind == MapType.HASH, Errno.EINVAL)
        demand(key in self.values, Errno.ENOENT)
        del self.values[key]

    def next_key(self, key: bytes) -> bytes:
        keys = list(self.values)
        behind = keys[keys.index(key) + 1 :] if key in self.values else keys
        demand(behind, Errno.ENOENT)
        return behind[0]


# Programs.


@dataclass
class Run:
    """A run: the maps by the descriptors that name them in the program, the packet, registers and the stack.

    A pointer is a descriptor and an offset in a value; `kept` has those in the stack, by the offset of their slot.
    """

    maps: dict[int, Map]
    packet: bytes
    pointers: dict[int, tuple[int, int]] = field(default_factory=dict)
    kept: dict[int, tuple[int, int]] = field(default_factory=dict)
    stack: bytearray = field(default_factory=lambda: bytearray(STACK))
    total: int = 0


@dataclass(frozen=True)
class Ask:
    """Bytes of the values of a map that the instruction at a slot may access, from the first to the end of the last."""

    slot: int
    fd: int
    first: int
    end: int

    def refused(self, maps: dict[int, Map]) -> int:
        """The reason for which the instruction is rejected, or 0."""
        return 29 if self.first < 0 or self.end > maps[self.fd].value_size else 0


@dataclass(frozen=True)
class AtomicAsk(Ask):
    """The same for an atomic operation on so many bytes: its offset must be known, and a multiple of them."""

    size: int

    def refused(self, maps: dict[int, Map]) -> int:
        is_known = self.end == self.first + self.size
        return super().refused(maps) or (0 if is_known and self.first % self.size == 0 else 36)


@dataclass(frozen=True)
class Wrong:
    """What makes the instruction at a slot wrong whatever maps there are: the reason, or 0."""

    slot: int
    reason: int

    def refused(self, _maps: dict[int, Map]) -> int:
        return self.reason


@dataclass(frozen=True)
class Code:
    """The effect and the result of a program's run, and what it needs, in the order of the slots."""

    act: Callable[[Run], int]
    asks: tuple[Ask | Wrong, ...] = ()


KNOWN: dict[bytes, Code] = {}


def fault_of_shape(load: WideLoad, named: dict[int, Map | Program]) -> int:
    """The reason for which a program with this load is rejected for its form, or 0."""
    if load.dst == 10:
        return 6
    if not load.is_of_map():
        return 0
    if load.imm not in named:
        return 7
    on = named[load.imm]
    if not isinstance(on, Map):
        return 8
    has_byte = on.is_single() and load.offset_in_value() < on.value_size
    return 9 if load.is_direct() and not has_byte else 0


def refuse_first(reasons: Iterable[tuple[int, int]]) -> None:
    """Rejects a program at the first of these slots that has a reason."""
    for slot, reason in reasons:
        if reason:
            error = Errno.EBADF if reason == 7 else Errno.EACCES if reason == 6 or 20 <= reason <= 36 else Errno.EINVAL
            raise Refused(error, struct.pack("<IH", slot, reason))


@dataclass(eq=False)
class Program:
    """The effect of its runs, and the maps that it keeps, by the descriptors that named them when it was loaded."""

    slots: bytes
    code: Code
    maps: dict[int, Map]

    def run(self, packet: bytes) -> int:
        result = self.code.act(Run(self.maps, packet))
        for one in self.maps.values():
            one.deleted = 0
        return result % WORD


# Tenants.


class Tenant:
    """The objects by their descriptors. A map is live while a descriptor names it, or names a program that keeps it."""

    def __init__(self) -> None:
        self.open: dict[int, Map | Program] = {}

    def maps(self) -> dict[int, Map]:
        """The maps that have a descriptor, by it."""
        return {fd: on for fd, on in self.open.items() if isinstance(on, Map)}

    def live(self) -> list[Map]:
        named = [m for o in self.open.values() for m in (o.maps.values() if isinstance(o, Program) else [o])]
        return list(dict.fromkeys(named))

    def free(self) -> int:
        numbers = range(FIRST_DESCRIPTOR, FIRST_DESCRIPTOR + MOST_DESCRIPTORS)
        free = [fd for fd in numbers if fd not in self.open]
        demand(free, Errno.EMFILE)
        return free[0]

    def map_at(self, fd: int) -> Map:
        demand(fd in self.open, Errno.EBADF)
        on = self.open[fd]
        if not isinstance(on, Map):
            raise Refused(Errno.EINVAL)
        return on

    def program_at(self, fd: int) -> Program:
        demand(fd in self.open, Errno.EBADF)
        program = self.open[fd]
        if not isinstance(program, Program):
            raise Refused(Errno.EINVAL)
        return program

    def answer(self, command: int, body: bytes) -> tuple[int, bytes]:
        """The status and the payload of a reply."""
        calls = {
            Command.MAP_CREATE: self.create,
            Command.MAP_LOOKUP_ELEM: self.lookup,
            Command.MAP_UPDATE_ELEM: self.update,
            Command.MAP_DELETE_ELEM: self.delete,
            Command.MAP_GET_NEXT_KEY: self.next_key,
            Command.PROG_LOAD: self.load,
            Command.PROG_TEST_RUN: self.test_run,
            Command.CLOSE: self.close,
        }
        try:
            demand(command in calls, Errno.EINVAL)
            return calls[Command(command)](body)
        except Refused as refused:
            return -refused.error, refused.payload

    def create(self, body: bytes) -> tuple[int, bytes]:
        demand(len(body) == 20, Errno.EINVAL)
        kind, key_size, value_size, most, flags = struct.unpack("<5I", body)
        keys = {MapType.HASH: range(1, LONGEST_KEY + 1), MapType.ARRAY: range(4, 5)}
        sizes = key_size in keys.get(kind, ()) and value_size in range(1, 4097) and most in range(1, 4097)
        demand(sizes and flags == 0, Errno.EINVAL)
        new = Map(kind, key_size, value_size, most)
        demand(new.area() <= LARGEST_AREA, Errno.E2BIG)
        fd = self.free()
        live = self.live()
        areas = sum(on.area() for on in (*live, new))
        demand(len(live) < MOST_MAPS and areas <= LARGEST_SUM, Errno.ENOSPC)
        self.open[fd] = new
        return fd, b""

    def map_and_rest(self, body: bytes, least: int = 4) -> tuple[Map, bytes]:
        demand(len(body) >= least, Errno.EINVAL)
        return self.map_at(int.from_bytes(body[:4], "little")), body[4:]

    def lookup(self, body: bytes) -> tuple[int, bytes]:
        on, key = self.map_and_rest(body)
        demand(len(key) == on.key_size, Errno.EINVAL)
        demand(key in on.values, Errno.ENOENT)
        return 0, bytes(on.values[key])

    def update(self, body: bytes) -> tuple[int, bytes]:
        on, rest = self.map_and_rest(body, 12)
        flags, key, value = int.from_bytes(rest[:8], "little"), rest[8 : 8 + on.key_size], rest[8 + on.key_size :]
        demand(len(rest) == 8 + on.key_size + on.value_size, Errno.EINVAL)
        on.update(key, value, flags)
        return 0, b""

    def delete(self, body: bytes) -> tuple[int, bytes]:
        on, key = self.map_and_rest(body)
        demand(len(key) == on.key_size, Errno.EINVAL)
        on.delete(key)
        return 0, b""

    def next_key(self, body: bytes) -> tuple[int, bytes]:
        on, key = self.map_and_rest(body)
        demand(len(key) in (0, on.key_size), Errno.EINVAL)
        return 0, on.next_key(key)

    def load(self, body: bytes) -> tuple[int, bytes]:
        demand(len(body) >= 4 and int.from_bytes(body[:4], "little") == SOCKET_FILTER, Errno.EINVAL)
        fd = self.free()
        slots = body[4:]
        code, loads = KNOWN[slots], wide_loads(slots)
        refuse_first(misspelled(slots))
        refuse_first((it.slot, fault_of_shape(it, self.open)) for it in loads)
        maps = {it.imm: self.map_at(it.imm) for it in loads if it.is_of_map()}
        refuse_first((it.slot, it.refused(maps)) for it in code.asks)
        self.open[fd] = Program(slots, code, maps)
        return fd, b""

    def test_run(self, body: bytes) -> tuple[int, bytes]:
        demand(len(body) >= 44, Errno.EINVAL)
        program = self.program_at(int.from_bytes(body[:4], "little"))
        demand(len(body) - 44 <= LONGEST_PACKET, Errno.E2BIG)
        return 0, number(program.run(body[44:]), 4)

    def close(self, body: bytes) -> tuple[int, bytes]:
        demand(len(body) == 4, Errno.EINVAL)
        fd = int.from_bytes(body, "little")
        demand(fd in self.open, Errno.EBADF)
        del self.open[fd]
        return 0, b""


def reply_to(tenants: list[Tenant], after_length: bytes) -> bytes:
    """The bytes of the reply to a frame, by what follows its length."""
    if len(after_length) < 4:
        return Reply(NOBODY, NOBODY, -Errno.EINVAL, b"").to_bytes()
    tenant, command = struct.unpack("<HH", after_length[:4])
    status, payload = -Errno.EPERM, b""
    if tenant < len(tenants):
        status = -Errno.E2BIG
        if len(after_length) <= LONGEST_FRAME:
            status, payload = tenants[tenant].answer(command, after_length[4:])
    return Reply(tenant, command, status, payload).to_bytes()
