#!/usr/bin/env python3
"""Sends random commands of three tenants, and compares each reply with that of a model.

usage: random_commands.py BPFHOST [STREAMS]

The model is docs/PROTOCOL.md in lists and dictionaries (model.py). Maps of all sizes are created and closed, so that the values of the
others move, and programs read, write, add and delete keys in between (key_programs.py), load addresses in values
(direct_programs.py), or have atomic operations too (atomic_programs.py). The commands are the same in each run of the check.
"""

from __future__ import annotations

import random
import struct
import sys
from collections import Counter
from collections.abc import Callable

sys.dont_write_bytecode = True

from atomic_programs import Atomics  # noqa: E402
from common import number  # noqa: E402
from bpfhost import Command, MapType, Reply, assemble, frames, read_replies, serve  # noqa: E402
from bpfhost.numbers import LONGEST_FRAME, LONGEST_KEY, LONGEST_PACKET, SOCKET_FILTER  # noqa: E402
from direct_programs import Direct  # noqa: E402
from key_programs import write_program  # noqa: E402
from model import KNOWN, WORD, Code, Map, Program, Tenant, reply_to  # noqa: E402
from slots import atomics, spoiled, wide_loads  # noqa: E402

STREAMS, FRAMES, TENANTS = 60, 500, 3


def family(slots: bytes) -> str:
    """The kind under which a program is counted: atomic operations, loads of addresses in values without any, or none."""
    if atomics(slots):
        return "atomic operations"
    return "direct loads" if any(it.is_direct() for it in wide_loads(slots)) else ""


class Stream:
    """Draws frames, by what the model has open, so that most of them are valid."""

    def __init__(self, bpfhost: str, seed: int) -> None:
        self.bpfhost = bpfhost
        self.draw = random.Random(seed)
        self.tenants = [Tenant() for _ in range(TENANTS)]
        self.seen: Counter[tuple[str, str]] = Counter()
        # Frames that come before any other is drawn.
        self.queued: list[bytes] = []

    def descriptor(self, tenant: int, kind: type = object, right: float = 0.95) -> int:
        of_kind = [fd for fd, o in self.tenants[tenant].open.items() if isinstance(o, kind)]
        if of_kind and self.draw.random() < right:
            return self.draw.choice(of_kind)
        return self.draw.choice((0, 2, 3, 4, 5, 9, 66, 67, WORD - 1))

    def size(self, right: int) -> int:
        return right if self.draw.random() < 0.97 else self.draw.choice((0, 1, 3, 5, right + 1))

    def key(self, on: Map) -> bytes:
        key = self.draw.randrange(min(on.most + 1, 4))
        if on.key_size >= 4:
            return (number(key, 4) + bytes(on.key_size - 4))[: self.size(on.key_size)]
        return bytes([key]) + bytes(self.size(on.key_size) - 1 if on.key_size > 1 else 0)

    def on_map(self, tenant: int) -> tuple[int, Map]:
        fd = self.descriptor(tenant, Map)
        on = self.tenants[tenant].open.get(fd)
        return fd, on if isinstance(on, Map) else Map(MapType.HASH, 4, 8, 1)

    def create(self, tenant: int, is_single: bool = False) -> bytes:
        """A map of any kind and size, or an array of one element."""
        draw = self.draw
        kind = MapType.ARRAY if is_single else draw.choice((1, 2) * 12 + (0, 3))
        key_size = draw.choice((4,) * 16 + (1, 8, 64, LONGEST_KEY, 0, LONGEST_KEY + 1))
        value_size = draw.choice((8,) * 8 + (16, 24, 9, 12, 100) * 2 + (1, 4096, 0, 4097))
        most = 1 if is_single else draw.choice((1, 2, 3, 4, 5, 6) * 4 + (16, 64, 0, 4097))
        body = struct.pack("<5I", kind, key_size, value_size, most, draw.random() < 0.02)
        return frames.frame(tenant, Command.MAP_CREATE, body[: self.size(20)])

    def update(self, tenant: int) -> bytes:
        fd, on = self.on_map(tenant)
        value = self.draw.randbytes(self.size(on.value_size))
        return frames.map_update_elem(tenant, fd, self.key(on), value, self.draw.choice((0, 0, 0, 1, 2, 3)))

    def lookup(self, tenant: int) -> bytes:
        fd, on = self.on_map(tenant)
        return frames.map_lookup_elem(tenant, fd, self.key(on))

    def delete(self, tenant: int) -> bytes:
        fd, on = self.on_map(tenant)
        return frames.map_delete_elem(tenant, fd, self.key(on))

    def next_key(self, tenant: int) -> bytes:
        fd, on = self.on_map(tenant)
        return frames.map_get_next_key(tenant, fd, self.key(on) if self.draw.random() < 0.8 else b"")

    def load(self, tenant: int) -> bytes:
        kind = self.draw.choice((None, Direct, Atomics))
        return self.load_drawn(tenant, kind) if kind else self.load_by_key(tenant)

    def load_by_key(self, tenant: int) -> bytes:
        fd, other = self.descriptor(tenant), self.descriptor(tenant)
        maps = self.tenants[tenant].maps()
        named = [maps[it] for it in (fd, other) if it in maps]
        if any(on.key_size != 4 or on.value_size < 8 for on in named) or max(fd, other) >= WORD // 2:
            return self.close(tenant)
        text, code = write_program(self.draw, fd, other, fd in maps and maps[fd].value_size == 8)
        return self.load_of(tenant, assemble(self.bpfhost, text), code)

    def load_drawn(self, tenant: int, kind: type[Direct]) -> bytes:
        maps = self.tenants[tenant].maps()
        if not any(on.is_single() for on in maps.values()) and self.draw.random() < 0.95:
            return self.create(tenant, is_single=True)
        program = kind(self.draw, maps, lambda: self.descriptor(tenant, right=0.5))
        slots = assemble(self.bpfhost, program.text())
        if self.draw.random() < 0.06:
            slots = spoiled(self.draw, slots)
        return self.load_of(tenant, slots, program.code())

    def load_of(self, tenant: int, slots: bytes, code: Code) -> bytes:
        KNOWN[slots] = code
        return frames.prog_load(tenant, slots, SOCKET_FILTER if self.draw.random() < 0.98 else 2)

    def test_run(self, tenant: int) -> bytes:
        fd, size = self.descriptor(tenant, Program), self.draw.randrange(12)
        if self.draw.random() < 0.05:
            size = self.draw.choice((60, LONGEST_PACKET, LONGEST_PACKET + 1, LONGEST_FRAME))
        program = self.tenants[tenant].open.get(fd)
        if isinstance(program, Program) and family(program.slots):
            self.look_behind(tenant, program)
        return frames.prog_test_run(tenant, fd, self.draw.randbytes(size))

    def look_behind(self, tenant: int, program: Program) -> None:
        """Half of the runs with direct loads are followed by lookups of values that they may have written."""
        maps, kind = self.tenants[tenant].maps(), family(program.slots)
        self.seen[kind, "runs"] += 1
        self.seen[kind, "runs after a close"] += any(on not in maps.values() for on in program.maps.values())
        if self.draw.random() < 0.5:
            named = {fd: list(on.values) for fd, on in maps.items() if on in program.maps.values()}
            keys = [(fd, key) for fd, them in named.items() for key in self.draw.sample(them[:4], min(2, len(them)))]
            self.queued += [frames.map_lookup_elem(tenant, *it) for it in keys]
            self.seen[kind, "look-ups"] += len(keys)

    def note_load(self, frame: bytes, reply: Reply) -> None:
        kind = family(frame[12:]) if reply.command == Command.PROG_LOAD else ""
        if kind:
            refusal = reply.refusal()
            self.seen[kind, f"reason {refusal[1]}" if refusal else "accepted" if reply.status >= 0 else "other"] += 1
            self.seen[kind, "loads"] += 1

    def close(self, tenant: int) -> bytes:
        return frames.close(tenant, self.descriptor(tenant))

    def other(self, tenant: int) -> bytes:
        """A frame of a tenant that is not served, with no command, or one that is too short."""
        if self.draw.random() < 0.3:
            return number(3, 4) + self.draw.randbytes(3)
        where = self.draw.choice((tenant, TENANTS, 65_534))
        return frames.frame(where, self.draw.choice((6, 7, 9, 255, 257)), self.draw.randbytes(self.draw.randrange(30)))

    def frame(self) -> bytes:
        if self.queued:
            return self.queued.pop()
        kinds: dict[Callable[[int], bytes], int] = {
            self.create: 24,
            self.update: 22,
            self.lookup: 16,
            self.delete: 6,
            self.next_key: 6,
            self.load: 20,
            self.test_run: 26,
            self.close: 10,
            self.other: 3,
        }
        draw = self.draw.choices(list(kinds), list(kinds.values()))[0]
        return draw(self.draw.randrange(TENANTS))


def check(bpfhost: str, seed: int) -> Counter[tuple[str, str]]:
    """Sends a stream, and counts what occurred in it."""
    stream = Stream(bpfhost, seed)
    sent, wanted = [], []
    for _ in range(FRAMES):
        sent.append(stream.frame())
        wanted.append(reply_to(stream.tenants, sent[-1][4:]))
    told = list(read_replies(serve(bpfhost, TENANTS, b"".join(sent))))
    for at, (frame, reply, want) in enumerate(zip(sent, told, wanted)):
        if reply.to_bytes() != want:
            what = f"{reply.to_bytes()[:60].hex()}, and the model has {want[:60].hex()}"
            sys.exit(f"stream {seed}, frame {at}, {frame[:60].hex()}: {what}")
        stream.seen["all", "done"] += reply.status >= 0
        stream.note_load(frame, reply)
    if len(told) != len(wanted):
        sys.exit(f"stream {seed}: {len(told)} replies to {len(wanted)} frames")
    return stream.seen


def tell(seen: Counter[tuple[str, str]], kind: str) -> None:
    """The counts for the programs of a kind."""
    of = Counter({what: many for (whose, what), many in seen.items() if whose == kind})
    reasons = sorted((int(what.split()[1]), many) for what, many in of.items() if what.startswith("reason"))
    told = ", ".join(f"{many} for reason {reason}" for reason, many in reasons)
    print(f"{kind}: {of['loads']} programs, of which {of['accepted']} are accepted, and refused are {told};", end=" ")
    print(f"{of['runs']} runs, of which {of['runs after a close']} when a map of theirs is closed,", end=" ")
    print(f"and {of['look-ups']} lookups after them")


def main() -> None:
    count = int(sys.argv[2]) if len(sys.argv) > 2 else STREAMS
    seen: Counter[tuple[str, str]] = sum((check(sys.argv[1], seed) for seed in range(count)), Counter())
    done = seen["all", "done"]
    print(f"random commands: {count * FRAMES} frames of {TENANTS} tenants, of which {done} are no refusals")
    for kind in ("direct loads", "atomic operations"):
        tell(seen, kind)


if __name__ == "__main__":
    main()
