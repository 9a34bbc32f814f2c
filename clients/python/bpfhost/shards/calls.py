"""Entries of a tenant's stream: calls of frames, and entries with which the tenant leaves or arrives."""

from __future__ import annotations

from collections.abc import Mapping
from dataclasses import dataclass
from typing import NamedTuple

from bpfhost.alike import BEFORE_PACKET, is_short, looked_at, size_of_packet, unpacked
from bpfhost.numbers import Command
from bpfhost.shards.connection import Entry
from bpfhost.shards.names import ARRIVES, FRAMES, LEAVES, RUNS
from bpfhost.state import split
from bpfhost.tenancy import BODY

# An entry has at most so many frames and bytes; each of the replies may have 4,108 bytes. There may be more frames if they are alike and
# each reply has only a header and a few bytes.
MOST_FRAMES, MOST_ALIKE, LONGEST_CALL = 512, 1024, 262_144
_TENANT = bytes(2)
_HEAD_OF_RUN = _TENANT + Command.PROG_TEST_RUN.to_bytes(2, "little")


@dataclass
class Call:
    """Frames of a tenant as they are stored, and their number.

    `alike` is the length of each frame if they are alike, and 0 otherwise. Test runs that are alike may be packed (`alike.packed`).
    """

    entry: bytes
    tenant: int
    stored: bytes
    count: int
    alike: int = 0
    is_packed: bool = False
    # The frames, if they are not alike: they were split to look at each.
    each: tuple[bytes, ...] = ()

    @property
    def stream(self) -> bytes:
        """The frames."""
        return unpacked(self.stored) if self.is_packed else self.stored

    @property
    def is_short(self) -> bool:
        """Whether they are alike, open and close nothing, and have short replies."""
        return bool(self.alike) and is_short(self.stored)

    @property
    def frames(self) -> list[bytes]:
        """The frames, one by one."""
        return list(self.each) or split(self.stream)

    @property
    def size(self) -> int:
        """The size in bytes as it is stored; `names.weight` computes its weight from this while it waits."""
        return len(self.stored)


class Leaves(NamedTuple):
    """A tenant leaves; its seat had this generation."""

    entry: bytes
    tenant: int
    generation: bytes


class Arrives(NamedTuple):
    """A tenant arrives, with the manifest of its state."""

    entry: bytes
    tenant: int
    manifest: bytes


class NoCall(NamedTuple):
    """An entry that this package did not write, and why it is no call."""

    entry: bytes
    tenant: int
    why: str
    size: int


Item = Call | Leaves | Arrives | NoCall


def item_of(tenant: int, entry: Entry) -> Item:
    """Parses an entry of a tenant's stream."""
    name, fields = entry
    if LEAVES in fields:
        return Leaves(name, tenant, fields[LEAVES])
    if ARRIVES in fields:
        return Arrives(name, tenant, fields[ARRIVES])
    is_packed = RUNS in fields
    stored = fields[RUNS] if is_packed else fields.get(FRAMES, b"")
    try:
        count, alike, each, _ = (*_count_of_packed(stored), (), b"") if is_packed else parsed(stored)
        return Call(name, tenant, stored, count, alike, is_packed, tuple(each))
    except ValueError as error:
        return NoCall(name, tenant, f"no call: {error}", len(stored))


def size_of(fields: Mapping[bytes, bytes]) -> int:
    """The size of an entry in bytes."""
    return sum(map(len, fields.values()))


def count_of(stream: bytes) -> tuple[int, int]:
    """The number of frames of a call, and the length of each if they are alike; raises ValueError if the bytes are no call."""
    return parsed(stream)[:2]


def parsed(stream: bytes) -> tuple[int, int, list[bytes], bytes]:
    """The same as `count_of`, and the frames if they are not alike, and as they are packed, if they can be."""
    alike, runs = looked_at(stream)
    frames = [] if alike else split(stream)
    count = len(stream) // alike if alike else len(frames)
    most = MOST_ALIKE if count > MOST_FRAMES and alike and is_short(stream) else MOST_FRAMES
    if not count or count > most or len(stream) > LONGEST_CALL:
        limits = f"1 to {most} frames of {LONGEST_CALL} bytes together"
        raise ValueError(f"a call has {limits}, and not {count} of {len(stream)}")
    if stream[4:6] != _TENANT or frames and any(len(frame) < BODY or frame[4:6] != _TENANT for frame in frames):
        raise ValueError("a frame of a call has a head, and names tenant 0")
    return count, alike, frames, runs


def _count_of_packed(runs: bytes) -> tuple[int, int]:
    """The same of packed test runs."""
    size = size_of_packet(runs)
    count, rest = divmod(len(runs) - BEFORE_PACKET, size) if size > 0 else (0, 0)
    length = BEFORE_PACKET + size
    if count < 1 or rest or count > MOST_ALIKE or count * length > LONGEST_CALL or runs[4:BODY] != _HEAD_OF_RUN:
        raise ValueError(f"it has no packed test runs of tenant 0, {MOST_ALIKE} and {LONGEST_CALL} bytes at most")
    return count, length


def whole_frames(stream: bytes) -> list[bytes]:
    """The frames of a call; raises ValueError if the bytes are no frames, or there are too many."""
    return parsed(stream)[2] or split(stream)
