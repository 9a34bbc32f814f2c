"""What Redis has of one tenant: its streams, its snapshots, and the place that it has reached."""

from __future__ import annotations

import hashlib
from collections.abc import AsyncIterator
from dataclasses import dataclass, field

from bpfhost.shards.aside import Aside
from bpfhost.shards.calls import Arrives, Call, Leaves, item_of
from bpfhost.shards.connection import Entry, Redis
from bpfhost.shards.copied import Asked
from bpfhost.shards.errors import ShardError, SnapshotDamaged
from bpfhost.shards.manifest import Manifest
from bpfhost.shards.names import REPLIES, START, ShardKeys, after, order
from bpfhost.shards.steps import step
from bpfhost.state import split

_READ_AT_ONCE = 64

# The replies to entries, by their ids.
Replies = dict[bytes, dict[bytes, bytes]]


@dataclass
class Since:
    """What came since the last snapshot: entries, frames, and bytes of frames and replies."""

    entries: int = 0
    frames: int = 0
    size: int = 0
    changed: bool = False


@dataclass
class Mark:
    """A place: when it was reached, and the bytes of replies since the mark before it.

    The time is the number of seconds for which the shard had been served. The bytes are those of kept replies.
    """

    served: float
    place: bytes
    size: int = 0

    @classmethod
    def read(cls, kept: bytes) -> Mark:
        """Reads its text in Redis; a text without a size has no known size."""
        served, place, *size = kept.split(b"@")
        return cls(float(served), place, int(size[0]) if size else 0)

    def to_bytes(self) -> bytes:
        """Its text in Redis."""
        return b"%.3f@%s@%d" % (self.served, self.place, self.size)


@dataclass
class Log:
    """The log of one tenant."""

    redis: Redis
    keys: ShardKeys
    tenant: int
    # The last entry that has a reply, and is part of the state.
    place: bytes = START
    snapshot: Manifest | None = None
    before: Manifest | None = None
    since: Since = field(default_factory=Since)
    # Places, the oldest first; the bytes of replies since the last one, and since this worker began to count.
    marks: list[Mark] = field(default_factory=list)
    unmarked: int = 0
    aside: Aside | None = None
    # Whether the last snapshot is the only one, and the stream has nothing from before it.
    is_cut: bool = False

    def note(self, frames: int, asked: int, replied: int, changed: bool) -> None:
        """Notes a call that has its replies: its frames, their bytes and those of the replies, and whether it may have changed anything."""
        since = self.since
        since.entries += 1
        since.frames += frames
        since.size += asked + replied
        since.changed |= changed
        self.unmarked += replied

    @property
    def frames(self) -> str:
        return self.keys.frames(self.tenant)

    @property
    def replies(self) -> str:
        return self.keys.replies(self.tenant)

    async def manifests(self) -> list[Manifest]:
        """The snapshots, the last one first; damaged ones are left out."""
        found = []
        for name in (f"{self.tenant}", f"{self.tenant}:before"):
            kept = await self.redis.hget(self.keys.snapshots, name)
            try:
                if kept is not None:
                    found.append(Manifest.read(kept))
            except SnapshotDamaged:
                continue
        return found

    async def reaches(self, place: bytes, last: bytes) -> bool:
        """Whether the stream still has all entries after a place that have replies."""
        dropped = await self.redis.dropped_id(self.frames)
        if order(dropped) <= order(place) or order(last) <= order(place):
            return True
        return not await self.redis.xrange(self.replies, after(place), min(dropped, last, key=order), 1)

    async def stream_of(self, manifest: Manifest) -> bytes:
        """The frames of a snapshot, in steps.

        Raises SnapshotDamaged if a piece is missing, or anything of it differs from what was written.
        """
        stream, digest = bytearray(), hashlib.sha256()
        for name in manifest.names():
            piece = await self.redis.hget(self.keys.pieces, name)
            if piece is None:
                raise SnapshotDamaged(f"the snapshot at {manifest.place} has no piece {name} any more")
            stream += piece
            digest.update(piece)
            await step()
        if len(stream) != manifest.size:
            raise SnapshotDamaged(f"the snapshot at {manifest.place} has {len(stream)} bytes, and had {manifest.size}")
        if digest.hexdigest() != manifest.digest:
            raise SnapshotDamaged(f"the checksum of the snapshot at {manifest.place} is wrong")
        return bytes(stream)

    async def last_snapshot(self) -> bytes:
        """The frames of the last snapshot, in steps."""
        return await self.stream_of(self.snapshot) if self.snapshot else b""

    async def both(self, place: bytes, last: bytes) -> AsyncIterator[tuple[list[Entry], Replies]]:
        """The entries after a place up to another one, in pieces, with their replies."""
        while order(place) < order(last):
            entries = await self.redis.xrange(self.frames, after(place), last, _READ_AT_ONCE)
            if not entries:
                return
            place = entries[-1][0]
            yield entries, dict(await self.redis.xrange(self.replies, entries[0][0], place, 2 * _READ_AT_ONCE))

    async def history(self) -> AsyncIterator[list[Asked]]:
        """The frames since the last snapshot, with their replies, in pieces."""
        place = self.snapshot.place.encode() if self.snapshot else START
        async for entries, replies in self.both(place, self.place):
            asked: list[Asked] = []
            for entry in entries:
                item = item_of(self.tenant, entry)
                if isinstance(item, (Arrives, Leaves)):
                    raise ShardError(f"tenant {self.tenant} came or left at entry {item.entry.decode()}, which is a snapshot of its own")
                elif item.entry not in replies:
                    raise ShardError(f"entry {item.entry.decode()} of shard {self.keys.number} has no reply any more")
                elif isinstance(item, Call) and REPLIES in replies[item.entry]:
                    asked += zip(item.frames, split(replies[item.entry][REPLIES]), strict=True)
            yield asked

    # Ages.

    async def read_marks(self) -> None:
        """The marks of this worker and the previous ones."""
        kept = await self.redis.hget(self.keys.marks, self.tenant) or b""
        self.marks = [Mark.read(one) for one in kept.split()]

    def mark(self, served: float, most: float) -> bytes:
        """Marks the tenant's place after so many seconds; returns the marks as Redis keeps them.

        It forgets marks that are older than the last mark above `most` seconds ago.
        """
        if not self.marks or self.marks[-1].place != self.place:
            self.marks.append(Mark(served, self.place, self.unmarked))
            self.unmarked = 0
        old = [at for at, one in enumerate(self.marks) if one.served <= served - most]
        if old:
            # Replies of forgotten marks that could not be dropped are added to the size of the last of these marks.
            self.marks[old[-1]].size += sum(one.size for one in self.marks[: old[-1]])
            self.marks = self.marks[old[-1] :]
        return b" ".join(one.to_bytes() for one in self.marks)

    def old_place(self, served: float, seconds: float) -> bytes:
        """The last place that was reached so many seconds ago, or longer."""
        old = [one.place for one in self.marks if one.served <= served - seconds]
        return old[-1] if old else START

    def kept_size(self) -> int:
        """The known number of bytes of kept replies."""
        return self.unmarked + sum(one.size for one in self.marks)

    def dropped(self, least: bytes) -> None:
        """Notes that replies were dropped up to a place."""
        for one in self.marks:
            if order(one.place) <= order(least):
                one.size = 0
