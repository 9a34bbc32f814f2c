"""Snapshots of tenants, and what is dropped after them: entries that are in a snapshot, old replies, and old sessions.

All of it is done in steps, so that other tenants are served between two of them.
"""

from __future__ import annotations

import hashlib
import math
from collections.abc import Callable, Sequence

from bpfhost.shards import scripts
from bpfhost.shards.client import NAMELESS
from bpfhost.shards.connection import told_by
from bpfhost.shards.log import Log, Since
from bpfhost.shards.manifest import PIECE, Manifest
from bpfhost.shards.metrics import Told
from bpfhost.shards.names import START, after, order
from bpfhost.shards.serving import Serving
from bpfhost.shards.settings import Settings
from bpfhost.shards.writing import Writing
from bpfhost.shards.steps import step
from bpfhost.shards.system import Work
from bpfhost.shards.tickets import served_at

# Replies are checked so often during the time for which they are kept.
_LOOKS = 8
# Replies have at most so many marks by their bytes.
_MARKS = 32
SECONDS_OF_SESSIONS = 86_400.0
_LEAST_SECONDS, _SECONDS_TO_SETTLE = 1.0, 3.0


class Keeping:
    """Takes snapshots of one shard's tenants."""

    def __init__(self, writing: Writing, settings: Settings, build: str, metrics: Told) -> None:
        self._writing, self._settings, self._build, self._metrics = writing, settings, build, metrics
        self._redis, self._keys = writing.redis, writing.keys
        self._looked = self._settled = 0.0
        # Tenants whose snapshot failed.
        self.failed: set[int] = set()
        # The bytes of replies that have come since the last check.
        self.came = 0
        # An upper bound of what has to be played again, as a share of what may be.
        self._share = math.inf
        # The place up to which each tenant's replies are dropped because all have too many bytes.
        self._drop_by_bytes: dict[int, bytes] = {}

    def begin(self) -> None:
        """Begins with tenants that were just restored."""
        self._looked = self._redis.system.now()
        self.failed.clear()
        self._drop_by_bytes.clear()
        self.reckon()

    def reckon(self) -> None:
        """Checks all tenants the next time, since one was restored."""
        self._share = math.inf

    def note(self, calls: int, frames: int, asked: int, replied: int) -> None:
        """Notes calls that have their replies: how many they are, their frames, and the bytes of these and of the replies."""
        self.came += replied
        self._share += sum(self._settings.shares(calls, frames, asked + replied))

    def empty(self, entry: bytes) -> Manifest:
        """The snapshot of a new tenant."""
        return Manifest(entry.decode(), self._build).summed()

    async def keep(self, serving: Serving, log: Log) -> Manifest:
        """Stores the state of a tenant, in pieces that no manifest names yet."""
        stream = await serving.state(log.tenant, log.last_snapshot, log.history)
        name, digest = self._redis.system.fresh(), hashlib.sha256()
        for at in range(0, len(stream), PIECE):
            piece = stream[at : at + PIECE]
            digest.update(piece)
            await self._writing.note(self._keys.pieces, f"{name}:{at // PIECE}", piece)
            await step()
        return Manifest(log.place.decode(), self._build, name, len(stream), digest.hexdigest()).summed()

    # Snapshots.

    def due(self, logs: Sequence[Log], busy: set[int]) -> Log | None:
        """The tenant that has most to play again, if all tenants together have more than a starting worker should play."""
        if self._share < 1:
            return None
        shares = [max(self._settings.shares(log.since.entries, log.since.frames, log.since.size)) for log in logs]
        self._share = sum(shares)
        if self._share < 1:
            return None
        can = [log for log in logs if log.tenant not in busy and not log.aside and log.tenant not in self.failed and log.since.entries]
        return max(can, key=lambda log: shares[log.tenant]) if can else None

    async def snapshot(self, serving: Serving, log: Log) -> None:
        """Takes a snapshot of a tenant, and drops what came before the previous one."""
        old, began = log.before, self._redis.system.now()
        if log.since.changed or log.snapshot is None:
            manifest = await self.keep(serving, log)
        else:
            # The same state, after more frames.
            manifest = log.snapshot.at(log.place)
        await self._writing.keep_snapshot(log, manifest)
        log.since = Since()
        self._metrics.add("bpfhost_worker_snapshots_total")
        self._metrics.saw("bpfhost_worker_snapshot_seconds", self._redis.system.now() - began)
        await self.forget_old(log, old)
        await self._forget_sessions(log)

    async def forget_old(self, log: Log, old: Manifest | None) -> None:
        """Drops the pieces of a snapshot, and the entries that the snapshot before the last one covers."""
        kept = {name for manifest in (log.snapshot, log.before) if manifest for name in manifest.names()}
        if old:
            await self._writing.drop_pieces([name for name in old.names() if name not in kept])
        least = self._kept_from(log)
        if least != START:
            await self._writing.drop(log.frames, after(least))
        await self.drop_old(log)

    async def drop_before(self, log: Log) -> None:
        """Drops the snapshot before the last one, and the entries that the last one covers, if there is no memory for more."""
        if log.snapshot:
            old = log.before
            if old:
                await self._writing.note(self._keys.snapshots, f"{log.tenant}:before", b"")
            log.before, log.is_cut = None, True
            await self.forget_old(log, old)

    async def make_room(self, serving: Serving, log: Log) -> None:
        """Drops all that can be dropped of a tenant: what is not needed to restore its state, and old replies."""
        if log.since.size:
            await self.snapshot(serving, log)
        await self.drop_before(log)

    # Ages, in seconds for which the shard was served.

    async def look_at_ages(self, logs: Sequence[Log], begin: Callable[[int, Work[None]], Work[None]], busy: set[int]) -> None:
        """Now and then marks the tenants' places, and drops old replies."""
        now = self._redis.system.now()
        if now < self._looked + max(_LEAST_SECONDS, self._settings.reply_seconds / _LOOKS):
            return
        self._looked = now
        for log in logs:
            if log.tenant not in busy and (log.place != START) and (not log.marks or log.marks[-1].place != log.place or len(log.marks) > 1):
                await begin(log.tenant, self.drop_old(log))

    async def look_at_bytes(self, logs: Sequence[Log], begin: Callable[[int, Work[None]], Work[None]], busy: set[int]) -> None:
        """Marks the place of each tenant once per so many bytes of replies; if one, or all together, have more than they may, drops the oldest."""
        most, own = self._settings.reply_bytes, self._settings.reply_bytes_of_customer
        if self.came < min(most, own) // _MARKS:
            return
        self.came = 0
        for log in logs:
            if log.tenant not in busy and log.place != START:
                await begin(log.tenant, self.drop_old(log))
            self._drop_oldest([log], own)
        self._drop_oldest(logs, most)

    def _drop_oldest(self, logs: Sequence[Log], most: int) -> None:
        """Notes which replies of some tenants are to be dropped, so that they have at most so many bytes."""
        too_many = sum(log.kept_size() for log in logs) - most
        marks = [(one.served, order(one.place), one, log.tenant) for log in logs for one in log.marks] if too_many > 0 else []
        for _, _, one, tenant in sorted(marks, key=lambda mark: mark[:2]):
            if too_many <= 0:
                break
            too_many -= one.size
            self._drop_by_bytes[tenant] = max(self._drop_by_bytes.get(tenant, START), one.place, key=order)

    def is_due_to_look(self) -> bool:
        """Whether it is time to check what waits, and the server's memory."""
        now = self._redis.system.now()
        if now < self._settled + _SECONDS_TO_SETTLE:
            return False
        self._settled = now
        return True

    async def look_at_waiting(self, logs: Sequence[Log], busy: set[int]) -> None:
        """Records that nothing waits, if the recorded weight still counts what others dropped."""
        weights = await self._redis.hgetall(self._keys.waiting)
        self._metrics.set("bpfhost_worker_waiting_bytes", sum(map(int, weights.values())))
        for tenant, weight in weights.items():
            log = logs[int(tenant)]
            if weight != b"0" and log.tenant not in busy and not await self._redis.xrange(log.frames, after(log.place), b"+", 1):
                await self._writing.note(self._keys.waiting, log.tenant, b"0")

    async def memory(self) -> tuple[int, int]:
        """The memory that the server uses, and the most that it may use, in bytes: 0 if there is no such limit."""
        said = await told_by(self._redis, "memory")
        used, most = int(said["used_memory"]), int(said["maxmemory"])
        self._metrics.set("bpfhost_worker_redis_memory_bytes", used)
        self._metrics.set("bpfhost_worker_redis_memory_most_bytes", most)
        return used, most

    async def drop_old(self, log: Log) -> None:
        """Marks a tenant's place, and drops replies that are old and in the snapshot before the last one."""
        served = await self._writing.lease.served()
        kept = log.mark(served, self._settings.reply_seconds)
        await self._writing.note(self._keys.marks, log.tenant, kept)
        old = max(log.old_place(served, self._settings.reply_seconds), self._drop_by_bytes.get(log.tenant, START), key=order)
        least = min(old, self._kept_from(log), key=order)
        if least != START:
            await self._writing.drop(log.replies, after(least))
            log.dropped(least)

    @staticmethod
    def _kept_from(log: Log) -> bytes:
        """The entry after which frames and replies are needed to restore the state of the snapshot before the last one."""
        if log.before:
            return log.before.place.encode()
        return log.snapshot.place.encode() if log.snapshot and log.is_cut else START

    async def _forget_sessions(self, log: Log) -> None:
        """Forgets sessions without a name whose last call is long ago."""
        said = (await self._redis.hget(self._keys.seats, log.tenant) or b"").partition(b" ")[0]
        if not said:
            return
        name, served = self._keys.sessions(int(said)), await self._writing.lease.served()
        for session, record in (await self._redis.hgetall(name)).items():
            if session.startswith(NAMELESS.encode()) and served_at(record) < served - SECONDS_OF_SESSIONS:
                await scripts.FORGET(self._redis, [name], [session, record])
                await step()
