"""Random frames of one tenant: maps come and go, programs keep maps whose descriptors are closed, and read, write, add and delete keys.

Most frames are valid, since the replies show what is open; some are wrong in all ways.
"""

from __future__ import annotations

import functools
import random
from collections.abc import Callable

from bpfhost import Command, Host, MapType, Update, assemble, frames
from bpfhost.program import MapShape
from bpfhost.slots import renamed_maps
from bpfhost.tenancy import LiveMap, Tenancy

# A key of four bytes from the packet at r10 - 4; if there is none, key 0.
_KEY = "*(u32 *)(r10 - 4) = 0\nr2 = 0\nr3 = r10\nr3 += -4\nr4 = 4\ncall 26\nr2 = r10\nr2 += -4\nr1 = map_fd 3 ll\n"
_OR_EXIT = "if r0 != 0 goto +2\nr0 = 0\nexit\n"
_ADD = "r1 = *(u64 *)(r0 + 0)\nr1 += 1\n*(u64 *)(r0 + 0) = r1\nr0 = r1\nexit\n"
_PUT = "r7 = {value}\n*(u64 *)(r10 - 16) = r7\nr3 = r10\nr3 += -16\nr4 = 0\ncall 2\nexit\n"
# What programs do, on a map 3 with keys of four bytes and values of eight or more, or of eight, and on another one, 4; or on an array
# of one element.
TEXTS = {
    "add": f"{_KEY}call 1\n{_OR_EXIT}{_ADD}",
    "put": _KEY + _PUT.format(value=7),
    "drop": f"{_KEY}call 3\nexit\n",
    "read": f"{_KEY}call 1\n{_OR_EXIT}r0 = *(u64 *)(r0 + 0)\nexit\n",
    "move": f"{_KEY}call 1\n{_OR_EXIT}r7 = *(u64 *)(r0 + 0)\nr2 = r10\nr2 += -4\nr1 = map_fd 4 ll\n"
    + _PUT.format(value="r7"),
    "global": "r1 = map_value 3 + 0 ll\nr2 = 3\nlock *(u64 *)(r1 + 0) += r2\nr0 = *(u64 *)(r1 + 0)\nexit\n",
    "length": "r0 = *(u32 *)(r1 + 0)\nexit\n",
}


@functools.cache
def slots_of(program: str, name: str) -> bytes:
    """The slots of one of these programs."""
    return assemble(program, TEXTS[name])


def writes_eight(shape: MapShape) -> bool:
    """Whether programs may put values of eight bytes into a map, by keys of four."""
    return shape.key_size == 4 and shape.value_size == 8


def has_global(shape: MapShape) -> bool:
    """Whether programs may load the address of a value of eight bytes or more."""
    return shape.map_type == MapType.ARRAY and shape.max_entries == 1 and shape.value_size >= 8


class Stream:
    """Draws frames of tenant 0, and asks a host."""

    def __init__(self, program: str, seed: int | str) -> None:
        self._program, self.draw = program, random.Random(seed)
        self.tenancy = Tenancy()
        draw = self.draw
        kinds: dict[Callable[[], bytes], int] = {
            self._create: draw.choice((4, 10, 30)),
            self._update: 22,
            self._lookup: 10,
            self._delete: 6,
            self._next_key: 8,
            self._load: draw.choice((6, 16, 60)),
            self._run: 30,
            self._close: draw.choice((4, 10, 20)),
            self._wrong: 4,
        }
        self._kinds, self._weights = list(kinds), list(kinds.values())

    def frame(self) -> bytes:
        """The next frame."""
        return self.draw.choices(self._kinds, self._weights)[0]()

    def play(self, host: Host, many: int) -> tuple[list[bytes], list[bytes]]:
        """So many frames, and the replies of a host to them."""
        sent, replies = [], []
        for _ in range(many):
            frame = self.frame()
            reply = host.ask(frame)
            self.tenancy.note(frame, reply.status)
            sent.append(frame)
            replies.append(reply.to_bytes())
        return sent, replies

    def _map(self) -> tuple[int, MapShape]:
        maps = [on for on in self.tenancy.open.values() if isinstance(on, LiveMap)]
        if not maps or self.draw.random() < 0.03:
            return self.draw.choice((0, 2, 3, 5, 66, 67, 1 << 31)), MapShape(MapType.HASH, 4, 8, 1)
        on = self.draw.choice(maps)
        return on.descriptor, on.shape

    def _key(self, shape: MapShape) -> bytes:
        key = self.draw.randrange(6).to_bytes(4, "little") + bytes(shape.key_size)
        return key[: shape.key_size + (self.draw.random() < 0.02)]

    def _create(self) -> bytes:
        draw = self.draw
        kind = draw.choice((1, 1, 2))
        key_size = draw.choice((4,) * 12 + (1, 8, 9, 512)) if kind == 1 else 4
        sizes = key_size, draw.choice((8,) * 6 + (16, 9, 100)), draw.choice((1, 2, 3, 5, 6, 64))
        if draw.random() < 0.04:
            sizes = draw.choice(((4, 4096, 16), (0, 8, 1), (4, 8, 0), (4, 4096, 17), (513, 8, 1)))
        return frames.map_create(0, kind, *sizes)

    def _update(self) -> bytes:
        number, shape = self._map()
        value = self.draw.randbytes(shape.value_size + (self.draw.random() < 0.02))
        return frames.map_update_elem(0, number, self._key(shape), value, self.draw.choice((0, 0, 0, 0, Update.NOEXIST, Update.EXIST, 3)))

    def _lookup(self) -> bytes:
        number, shape = self._map()
        return frames.map_lookup_elem(0, number, self._key(shape))

    def _delete(self) -> bytes:
        number, shape = self._map()
        return frames.map_delete_elem(0, number, self._key(shape))

    def _next_key(self) -> bytes:
        number, shape = self._map()
        return frames.map_get_next_key(0, number, self._key(shape) if self.draw.random() < 0.8 else b"")

    def _load(self) -> bytes:
        maps = {on.descriptor: on.shape for on in self.tenancy.open.values() if isinstance(on, LiveMap)}
        eight = [number for number, shape in maps.items() if writes_eight(shape)]
        single = [number for number, shape in maps.items() if has_global(shape)]
        names = ["length", *["add", "put", "drop", "read"] * bool(eight)]
        names += ["move"] * (3 * (len(eight) > 1)) + ["global"] * (2 * bool(single))
        name = self.draw.choice(names)
        if self.draw.random() < 0.05:
            return frames.prog_load(0, slots_of(self._program, self.draw.choice(list(TEXTS)))[8 * self.draw.randrange(2) :])
        of = single if name == "global" else eight
        chosen = self.draw.sample(of, min(len(of), 2)) + [3, 4]
        return frames.prog_load(0, renamed_maps(slots_of(self._program, name), {3: chosen[0], 4: chosen[1]}))

    def _run(self) -> bytes:
        programs = self.tenancy.programs()
        if not programs or self.draw.random() < 0.03:
            return frames.prog_test_run(0, self._map()[0], self.draw.randbytes(5))
        packet = self.draw.randrange(6).to_bytes(4, "little") + self.draw.randbytes(self.draw.randrange(9))
        return frames.prog_test_run(0, self.draw.choice(programs).descriptor, packet[self.draw.choice((0, 0, 0, 0, 1)) :])

    def _close(self) -> bytes:
        kept = [on.descriptor for program in self.tenancy.programs() for on in program.maps if self.tenancy.is_open(on)]
        if kept and self.draw.random() < 0.5:
            return frames.close(0, self.draw.choice(kept))
        return frames.close(0, self.draw.choice([*self.tenancy.open, 2, 66, 67][: 1 + len(self.tenancy.open)]))

    def _wrong(self) -> bytes:
        draw = self.draw
        command = draw.choice((*Command, 6, 7, 255, 65_535))
        size = 131_080 if draw.random() < 0.01 else draw.randrange(30)
        return frames.frame(0, command, draw.choice((bytes(size), draw.randbytes(size))))


def is_without_descriptor(tenancy: Tenancy) -> bool:
    """Whether there is a map that no descriptor names."""
    return any(not tenancy.is_open(on) for on in tenancy.live())
