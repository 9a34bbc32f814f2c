"""How a worker waits for a Redis that is away, and what it reports meanwhile."""

from __future__ import annotations

import asyncio
from collections.abc import Callable

from bpfhost.shards.connection import Redis
from bpfhost.shards.errors import Away, LogChanged, RedisError, Stopped
from bpfhost.shards.system import Answer, Work

_SECONDS_TO_TELL = 30.0
_PAUSE, LONGEST_PAUSE = 0.02, 0.5


class Patience:
    """The patience of one shard's worker, until it is asked to stop."""

    def __init__(self, redis: Redis, shard: int, tell: Callable[[str], None]) -> None:
        self.redis, self.shard, self.tell = redis, shard, tell
        self.is_stopped: Callable[[], bool] = lambda: False
        self._told_at = -_SECONDS_TO_TELL

    def tell_now_and_then(self, sentence: str) -> None:
        """Reports a state that lasts, but not too often."""
        if self.redis.system.now() >= self._told_at + _SECONDS_TO_TELL:
            self._told_at = self.redis.system.now()
            self.tell(sentence)

    def tell_of_host(self, error: Exception) -> None:
        """Reports why another host is started."""
        self.tell(f"shard {self.shard} begins a new host: {error}")

    async def waiting(self, call: Callable[[], Work[Answer]]) -> Answer:
        """Calls until Redis is there, and reports if it is not; raises Stopped if the worker is stopped meanwhile."""
        pause = _PAUSE
        while True:
            try:
                return await call()
            except Away as away:
                await self.wait_for_redis(away, pause)
            pause = min(2 * pause, LONGEST_PAUSE)

    async def wait_for_redis(self, error: RedisError, pause: float = _PAUSE) -> None:
        """Waits a little for a Redis that is away or full, and reports that now and then; raises Stopped if the worker is stopped."""
        self.demand_same_log()
        self.tell_now_and_then(f"shard {self.shard} waits: {error}")
        if self.is_stopped():
            raise Stopped(f"shard {self.shard} waited for its Redis")
        await asyncio.sleep(pause)

    def demand_same_log(self) -> None:
        """Raises LogChanged if the log may lack what this worker has played."""
        if self.redis.nodes.has_changed:
            raise LogChanged("another node of the cluster, or a server with another history, has the log now")
