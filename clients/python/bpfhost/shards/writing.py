"""A worker's writes, each of which succeeds only while its lease is held."""

from __future__ import annotations

import asyncio
from collections.abc import Iterable, Mapping, Sequence

from bpfhost.parts import in_parts
from bpfhost.shards import scripts
from bpfhost.shards.calls import Arrives, Leaves
from bpfhost.shards.cluster import Line
from bpfhost.shards.connection import Redis, Script
from bpfhost.shards.errors import Away, NoScript, OutOfMemory
from bpfhost.shards.lease import Lease
from bpfhost.shards.log import Log
from bpfhost.shards.manifest import Manifest
from bpfhost.shards.names import ShardKeys
from bpfhost.shards.serving import Written
from bpfhost.shards.steps import step
from bpfhost.shards.link import Word

# A script gets about so many bytes of replies at most, and so many names of pieces.
WRITTEN_AT_ONCE = 1 << 20
_NAMES_AT_ONCE = 500
_SECONDS_FOR_REDIS = 10.0


class Writing:
    """The writes for a shard. They raise LeaseLost if another worker has the lease."""

    def __init__(self, redis: Redis, keys: ShardKeys, lease: Lease) -> None:
        self.redis, self.keys, self.lease = redis, keys, lease

    async def _do(self, script: Script, keys: Sequence[str], words: Iterable[Word]) -> int:
        deadline = self.redis.system.now() + _SECONDS_FOR_REDIS
        done = await script(self.redis.patient(deadline), [self.keys.lease, *keys], [self.lease.token, *words])
        if not done:
            raise await self.lease.lost()
        return int(done)

    # Replies.

    async def write(self, written: Sequence[Written]) -> None:
        """Writes replies of tenants, those of each in order."""
        await self._do(scripts.WRITE, *self._words(written, {}))

    def begin(self, line: Line, written: Sequence[Written], behind: Mapping[int, bytes]) -> asyncio.Future[int]:
        """Begins to write replies on a line, after earlier replies of some tenants up to these ids, which are still being written."""
        keys, words = self._words(written, behind)
        return scripts.WRITE.begin(self.redis, line, [self.keys.lease, *keys], [self.lease.token, *words])

    async def end(self, task: asyncio.Future[int]) -> bool:
        """Whether replies whose write was begun are written; if not, write them again."""
        try:
            done = await task
        except (Away, NoScript, OutOfMemory):
            return False
        if not done:
            raise await self.lease.lost()
        return bool(done == 1)

    def _words(self, written: Sequence[Written], behind: Mapping[int, bytes]) -> tuple[list[str], list[Word]]:
        of: dict[int, list[Written]] = {}
        for one in written:
            of.setdefault(one.tenant, []).append(one)
        words: list[Word] = []
        for tenant, own in of.items():
            words += [tenant, sum(one.weight for one in own), len(own), behind.get(tenant, b"")]
            words += (word for one in own for word in (one.entry, one.name, one.value))
        return [self.keys.waiting, *map(self.keys.replies, of)], words

    async def write_move(self, log: Log, item: Leaves | Arrives, last: Manifest, left: Manifest | None = None) -> None:
        """Writes that a tenant has arrived, or has left with a state that is kept, and the last snapshot that it has from then on."""
        keys, words = [log.replies, self.keys.snapshots], [item.entry, item.tenant, last.to_bytes()]
        if isinstance(item, Leaves) and left:
            keys, words = [*keys, self.keys.left], [*words, item.generation, left.to_bytes()]
        await self._do(scripts.WRITE_MOVE, keys, words)
        log.snapshot, log.before, log.is_cut = last, None, True

    async def note(self, name: str, field: Word, value: bytes) -> None:
        """Writes a field of a hash of the shard, or deletes it."""
        await self._do(scripts.NOTE, [name], [field, value])

    # Snapshots.

    async def keep_snapshot(self, log: Log, manifest: Manifest) -> None:
        """Replaces the last snapshot by a new one; the last one becomes the one before it."""
        last = log.snapshot.to_bytes() if log.snapshot else b""
        await self._do(scripts.KEEP_SNAPSHOT, [self.keys.snapshots], [log.tenant, manifest.to_bytes(), last])
        log.before, log.snapshot, log.is_cut = log.snapshot, manifest, False

    async def drop(self, stream: str, least: bytes) -> None:
        """Drops the entries of a stream below an id, some in each step."""
        while await self._do(scripts.DROP, [stream], [least]) > 1:
            await step()

    async def drop_pieces(self, dropped: Sequence[str]) -> None:
        """Drops pieces, some in each step."""
        for some in in_parts(dropped, lambda _: 1, _NAMES_AT_ONCE):
            await self._do(scripts.DROP_PIECES, [self.keys.pieces], some)
            await step()
