"""The tenants of a shard, as its worker has them: the log of each."""

from __future__ import annotations

from collections.abc import Callable

from bpfhost.numbers import MOST_TENANTS
from bpfhost.shards.aside import Aside
from bpfhost.shards.errors import ShardError, SnapshotDamaged
from bpfhost.shards.log import Log
from bpfhost.shards.manifest import Manifest
from bpfhost.shards.names import order
from bpfhost.shards.steps import at_once
from bpfhost.shards.writing import Writing

_SECONDS_OF_PATIENCE = 5.0


class Tenants:
    """The tenants of one shard."""

    def __init__(self, writing: Writing, tell: Callable[[str], None]) -> None:
        self._writing, self._tell, self._keys = writing, tell, writing.keys
        # Reads while a state is restored are repeated, and the whole state is not restored anew.
        self._redis = writing.redis.patient(seconds=_SECONDS_OF_PATIENCE)
        self.logs: list[Log] = []

    def begin_anew(self) -> None:
        """Forgets all tenants."""
        self.logs = [self.log_of(tenant) for tenant in range(MOST_TENANTS)]

    def log_of(self, tenant: int) -> Log:
        """The log of a tenant, of which nothing was read yet."""
        return Log(self._redis, self._keys, tenant)

    def last_place(self) -> bytes:
        """The latest place of all tenants."""
        return max((log.place for log in self.logs), key=order)

    async def with_a_log(self) -> list[int]:
        """The tenants that ever had an entry; the others are new."""
        return [log.tenant for log in self.logs if await self._redis.call("EXISTS", log.frames, log.replies)]

    async def drop_strays(self) -> None:
        """Drops pieces that no manifest names, since a worker died before it could write the manifest."""
        kept: set[str] = set()
        for log in self.logs:
            kept.update(name for manifest in await log.manifests() for name in manifest.names())
        for said in (await self._redis.hgetall(self._keys.left)).values():
            try:
                kept.update(Manifest.read(said).names())
            except SnapshotDamaged as damaged:
                raise ShardError(f"the state of a customer that left shard {self._keys.number} is damaged: {damaged}") from None
        strays = [name.decode() for name in await self._redis.call("HKEYS", self._keys.pieces)]
        await at_once(self._writing.drop_pieces([name for name in strays if name not in kept and not name.startswith("arrival-")]))

    # What is set aside.

    async def kept_aside(self, tenant: int) -> Aside | None:
        """What Redis has as set aside of a tenant."""
        kept = await self._redis.hget(self._keys.aside, tenant)
        return Aside.read(kept) if kept else None

    async def set_aside(self, log: Log, aside: Aside) -> None:
        """Sets a tenant aside, and reports it."""
        if log.aside != aside:
            log.aside = aside
            await self._writing.note(self._keys.aside, log.tenant, aside.to_bytes())
            self._tell(f"shard {self._keys.number}, tenant {log.tenant} is set aside: {aside.why}")

    async def forget_aside(self, tenant: int) -> None:
        """Removes from Redis what is set aside of a tenant."""
        await self._writing.note(self._keys.aside, tenant, b"")
