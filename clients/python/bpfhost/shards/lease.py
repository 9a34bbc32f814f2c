"""A lease on a shard: one worker serves it, and a worker that was paused past its lease can write nothing once another one has it.

The lease is a count that its holder raises. A worker that needs the lease watches the count over an interval of its own monotonic clock,
and takes the lease if the count did not change; it uses no clock of a server or of another machine. Each script that writes for a worker
compares the worker's token in the same step as it writes.
"""

from __future__ import annotations

import asyncio
import os
import socket
from collections.abc import Callable

from bpfhost.shards import scripts
from bpfhost.shards.connection import Redis
from bpfhost.shards.errors import LeaseHeld, LeaseLost, RedisError, Stopped
from bpfhost.shards.names import ShardKeys

SECONDS = 5.0
_LEAST_SECONDS = 0.1
# One piece of the worker's work may take so long before the worker is taken to hang.
_SECONDS_AT_WORK = 120.0
_PAUSE = 0.02


class Lease:
    """The lease of a worker on a shard."""

    def __init__(self, redis: Redis, keys: ShardKeys, seconds: float = SECONDS) -> None:
        """A lease that another worker may take if it was not raised for so many seconds."""
        if seconds < _LEAST_SECONDS:
            raise ValueError(f"a lease runs for at least {_LEAST_SECONDS} seconds, and not for {seconds}")
        self._redis, self._keys, self.seconds = redis, keys, seconds
        self._system = redis.system
        self.token = f"{self._system.fresh()} {socket.gethostname()} process {os.getpid()}"
        # When it was raised last, and when that was tried last; a try may have failed.
        self._raised = self._tried = 0.0
        # Why it is not this worker's any more, once that is known.
        self._lost: LeaseLost | None = None
        # Whether the previous worker ended without releasing it.
        self.was_left = False
        self._work_until = 0.0

    async def take(self, is_stopped: Callable[[], bool] = lambda: False) -> None:
        """Takes the lease. If another worker has it, waits until its count has not changed for its time.

        Raises LeaseHeld if the count was raised meanwhile, and Stopped if this worker is asked to stop.
        """
        # The token and the count of another worker's lease.
        seen: tuple[bytes, bytes] | None = None
        since = 0.0
        while True:
            expected = seen if seen and self._system.now() >= since else (b"", b"")
            words = [self.token, int(self.seconds * 1000), *expected]
            token, count, milliseconds = await scripts.TAKE(self._redis, [self._keys.lease], words)
            if token == self.token.encode():
                self.was_left = bool(expected[0])
                break
            if seen and token == seen[0] and count != seen[1]:
                raise LeaseHeld(f"shard {self._keys.number} is served by another worker, {holder_of(token)}, who raises its lease")
            if not seen or token != seen[0]:
                seen = (token, count)
                since = self._system.now() + max(self.seconds, int(milliseconds) / 1000) + _PAUSE
            if is_stopped():
                raise Stopped(f"shard {self._keys.number} was not served: its lease was waited for")
            await asyncio.sleep(_PAUSE)
        self._raised = self._tried = self._system.now()

    async def keep(self) -> None:
        """Raises the count, if a third of the lease's time is gone; raises LeaseLost if the lease is another worker's."""
        if self._lost:
            raise self._lost
        now = self._system.now()
        if now >= self._tried + self.seconds / 3:
            since, self._tried = self._tried, now
            if not await scripts.KEEP(self._redis, [self._keys.lease], [self.token, int((now - since) * 1000)]):
                self._lost = await self.lost()
                raise self._lost
            self._raised = now

    async def keep_beside(self) -> None:
        """Raises the count at the same time as the worker works: the lease outlasts a long write over a slow link.

        The count is not raised any more if the worker has not called `at_work` for a while: a worker that hangs must not hold its shard
        for ever.
        """
        while True:
            try:
                if self._system.now() < self._work_until:
                    await self.keep()
            except LeaseLost:
                return
            except RedisError:
                # The worker finds the same when it writes, and reports it.
                pass
            await asyncio.sleep(min(self.seconds / 6, 0.5))

    def age(self) -> float:
        """The seconds since the last raise that succeeded began, by this worker's clock; 0 before it is held."""
        return self._system.now() - self._raised if self._raised else 0.0

    def at_work(self) -> None:
        """Records that the worker goes on."""
        self._work_until = self._system.now() + _SECONDS_AT_WORK
        if self._lost:
            raise self._lost

    async def is_held(self) -> bool:
        """Whether the lease is this worker's."""
        return await self._redis.hget(self._keys.lease, "token") == self.token.encode()

    async def served(self) -> float:
        """The number of seconds for which the shard was served, by all its workers."""
        return int(await self._redis.hget(self._keys.lease, "served") or 0) / 1000

    async def release(self) -> None:
        """Releases the lease, so that another worker need not wait."""
        await scripts.FORGET(self._redis, [self._keys.lease], ["token", self.token])

    async def lost(self) -> LeaseLost:
        """The error to raise if the lease is not this worker's any more."""
        holder = await self._redis.hget(self._keys.lease, "token")
        now = f"; it is now {holder_of(holder)}'s" if holder else ""
        return LeaseLost(f"the lease on shard {self._keys.number} is lost{now}: this worker writes nothing more")


def holder_of(token: bytes | None) -> str:
    """The machine and the process of the worker with a token; empty if nobody has the lease."""
    return token.decode(errors="replace").partition(" ")[2] or "a worker that tells no name" if token else ""
