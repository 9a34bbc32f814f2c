"""A server of Redis for tests without asyncio: each call returns when it is done, on an event loop of its own."""

from __future__ import annotations

import asyncio
from typing import Any

from bpfhost.shards import connection
from bpfhost.shards.blocking import Blocking, Client, Loop, waits
from bpfhost.shards.link import Word
from bpfhost.shards.names import ShardKeys


class Redis(Blocking[connection.Redis]):
    """A server (`connection.Redis`)."""

    call = waits(connection.Redis.call)
    hget = waits(connection.Redis.hget)
    hgetall = waits(connection.Redis.hgetall)
    xrange = waits(connection.Redis.xrange)
    xread = waits(connection.Redis.xread)
    stream = waits(connection.Redis.stream)
    last_id = waits(connection.Redis.last_id)
    dropped_id = waits(connection.Redis.dropped_id)

    def close(self) -> None:
        """Ends the connections."""

        async def end() -> None:
            self.aio.nodes.close()
            await asyncio.sleep(0)

        self.loop.run(end())

    def until(self, deadline: float) -> Redis:
        """The same server, whose calls end at a time of the system's clock."""
        return Redis(self.aio.until(deadline), self.loop)

    def run(self, script: connection.Script, keys: list[str], arguments: list[Word]) -> Any:
        """The result of a script."""
        return self.loop.run(script(self.aio, keys, arguments))

    def hset(self, name: str, field: Word, value: Word) -> None:
        """Writes a field of a hash."""
        self.call("HSET", name, field, value)

    def hdel(self, name: str, field: Word) -> None:
        """Deletes a field of a hash."""
        self.call("HDEL", name, field)

    def hkeys(self, name: str) -> list[bytes]:
        """The fields of a hash."""
        return list(self.call("HKEYS", name))

    def get(self, name: str) -> bytes | None:
        """The value of a key."""
        found: bytes | None = self.call("GET", name)
        return found

    def xlen(self, name: str) -> int:
        """The number of entries of a stream."""
        return int(self.call("XLEN", name))


def connect(url: str | None = None) -> Redis:
    """The Redis of a URL, on an event loop of its own."""
    return Redis(connection.Redis(url), Loop())


def directory_of(client: Client) -> Redis:
    """The Redis of a client's directory."""
    return Redis(client.aio.directory.redis, client.loop)


def shard_of(client: Client, number: int, deadline: float | None = None) -> tuple[Redis, ShardKeys]:
    """The Redis of a shard, and its keys."""
    redis, keys = client.loop.run(client.aio.shard(number, deadline))
    return Redis(redis, client.loop), keys
