"""Streams of commands on full hash maps whose keys all collide, with the replies of the model.

In a group of the index table that was once full, each delete gives up a slot, so after some deletes the table is filled anew. Keys that
begin in one group of a small table make this happen often.
"""

from __future__ import annotations

import itertools
import random
from collections.abc import Iterator
from dataclasses import dataclass

from common import DELETE, UPDATE
from bpfhost import MapType, Update, assemble, frames
from map_costs.keys import LONGEST_NUMBER, Seed, hash_of
from model import KNOWN, Code, Run, Tenant, answer_of, reply_to

# The keys of a full map, keys that are drawn from, and deletes with an update each: by command, and by a program.
MOST, DRAWN, PUT_BACK, RUNS = 16, 24, 300, 60
# Of keys as numbers, in either length of bytes, and at the ends of these.
KEY_SIZES = (1, 4, 8, 9, 16, 64, 65, 512)
VALUE_SIZE, LOAD_BYTES, STACK = 8, 26, 512
# The seed of the hash function, with which all longer keys have one hash.
ZEROS = Seed(0, 0)
# The groups of the table of a map of sixteen keys: the least power of two that has room for 64 keys, nine in each group.
GROUPS = 8


def keys_of(size: int) -> list[bytes]:
    """Keys that begin in one group of the table."""
    if size > LONGEST_NUMBER:
        drawn = random.Random(size)
        return [drawn.randbytes(size) for _ in range(DRAWN)]
    each = (number.to_bytes(size, "little") for number in range(256**size))
    return list(itertools.islice((key for key in each if hash_of(ZEROS, key) % GROUPS == 0), DRAWN))


def program_text(fd: int, array: int, size: int) -> str:
    """Deletes the first key of the packet, and adds the second with the array's value. Returns both results."""

    def key_from(at: int) -> str:
        return f"r1 = r6\nr2 = {at}\nr3 = r10\nr3 += {-STACK}\nr4 = {size}\ncall {LOAD_BYTES}\n"

    pointers = f"r2 = r10\nr2 += {-STACK}\nr1 = map_fd {fd} ll\n"
    return (
        f"r6 = r1\n{key_from(0)}{pointers}call {DELETE}\nr7 = r0\nr7 *= 1000\n"
        f"{key_from(size)}{pointers}r3 = map_value {array} + 0 ll\nr4 = 0\ncall {UPDATE}\nr0 += r7\nexit\n"
    )


def replaces(size: int) -> Code:
    def act(run: Run) -> int:
        on, array = run.maps.values()
        deleted = answer_of(lambda: on.delete(run.packet[:size]))
        on.deleted += not deleted
        value = bytes(array.values[bytes(4)])
        return 1000 * deleted + answer_of(lambda: on.update(run.packet[size:], value, Update.ANY))

    return Code(act)


@dataclass
class Drawn:
    """Frames on one map of a tenant, drawn by what the model has in it."""

    bpfhost: str
    tenant: int
    model: Tenant
    size: int

    def run(self) -> Iterator[bytes]:
        """A map is filled, its keys are put back, walked and replaced by a program, and all is closed again."""
        self.draw, self.keys = random.Random(self.size), keys_of(self.size)
        yield frames.map_create(self.tenant, MapType.HASH, self.size, VALUE_SIZE, MOST)
        self.fd, self.on = next((fd, on) for fd, on in self.model.maps().items() if on.kind == MapType.HASH)
        yield from map(self.update, self.keys)
        for _ in range(PUT_BACK):
            yield frames.map_delete_elem(self.tenant, self.fd, self.draw.choice(self.keys))
            yield self.update(self.draw.choice(self.absent()))
            yield frames.map_lookup_elem(self.tenant, self.fd, self.draw.choice(self.keys))
        yield from self.walk()
        yield from self.replaced()
        yield from self.walk()
        yield frames.close(self.tenant, self.fd)

    def absent(self) -> list[bytes]:
        return [key for key in self.keys if key not in self.on.values]

    def update(self, key: bytes) -> bytes:
        return frames.map_update_elem(self.tenant, self.fd, key, self.draw.randbytes(VALUE_SIZE))

    def walk(self) -> Iterator[bytes]:
        for key in (b"", *list(self.on.values)):
            yield frames.map_get_next_key(self.tenant, self.fd, key)

    def replaced(self) -> Iterator[bytes]:
        """A key is deleted first, since one that a run deletes counts until the run ends."""
        array = next(fd for fd, on in self.model.maps().items() if on.is_single())
        slots = assemble(self.bpfhost, program_text(self.fd, array, self.size))
        KNOWN[slots] = replaces(self.size)
        yield frames.prog_load(self.tenant, slots)
        program = max(self.model.open)
        yield frames.map_delete_elem(self.tenant, self.fd, next(iter(self.on.values)))
        for _ in range(RUNS):
            packet = self.draw.choice(list(self.on.values)) + self.draw.choice(self.absent())
            yield frames.prog_test_run(self.tenant, program, packet)
        yield frames.close(self.tenant, program)


@dataclass(frozen=True)
class Asked:
    """A frame, its command, and the model's reply."""

    frame: bytes
    command: int
    reply: bytes


def streams(bpfhost: str, tenants: int) -> Iterator[Asked]:
    """For each size of keys, on each tenant in turn, and once more when these maps are closed; the tenants have an array of one element all
    the time.
    """
    models = [Tenant() for _ in range(tenants)]

    def asked(frame: bytes) -> Asked:
        return Asked(frame, int.from_bytes(frame[6:8], "little"), reply_to(models, frame[4:]))

    for tenant in range(tenants):
        yield asked(frames.map_create(tenant, MapType.ARRAY, 4, VALUE_SIZE, 1))
    for at, size in enumerate(KEY_SIZES * 2):
        tenant = at % tenants
        for frame in Drawn(bpfhost, tenant, models[tenant], size).run():
            yield asked(frame)
