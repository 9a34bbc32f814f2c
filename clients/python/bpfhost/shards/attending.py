"""What a worker does in the directory besides serving its shard.

It records that the shard is served, watches whether other workers do the same, and ends moves that nobody else ends.
"""

from __future__ import annotations

import asyncio
import contextlib
from collections.abc import Callable, Mapping
from typing import TypeVar

from bpfhost.shards import moving
from bpfhost.shards.client import AsyncClient
from bpfhost.shards.directory import Directory
from bpfhost.shards.errors import Away, RedisError, ShardError

_LEAST_SECONDS = 0.2
# A shard whose count did not change for so many beats is not offered any more.
_BEATS_MISSED = 5
# A move that did not change for so many beats is ended by a worker of one of its shards.
_BEATS_OF_A_MOVE = 3
_SECONDS_FOR_A_MOVE = 5.0

Seen = TypeVar("Seen")


class _Watch:
    """Measures how long things have been the same, by this process's own clock."""

    def __init__(self) -> None:
        self._seen: dict[object, tuple[object, float]] = {}

    def stood_still(self, seen: Mapping[Seen, object], now: float, seconds: float) -> list[Seen]:
        """Those that have been the same for so many seconds."""
        self._seen = {name: self._seen[name] if name in self._seen and self._seen[name][0] == what else (what, now) for name, what in seen.items()}
        return [name for name in seen if self._seen[name][1] <= now - seconds]


class Attending:
    """Attends to the directory for one shard."""

    def __init__(self, directory: Directory, shard: int, incarnation: bytes, seconds: float, tell: Callable[[str], None]) -> None:
        self._directory, self._shard, self._incarnation, self._tell = directory, shard, incarnation, tell
        self._system = directory.redis.system
        self._seconds = max(_LEAST_SECONDS, seconds / 3)
        self._beats, self._moves = _Watch(), _Watch()

    async def run(self) -> None:
        """Attends until it is cancelled. Errors are reported, and what failed is tried again."""
        while True:
            try:
                await self._attend()
            except Away:
                # Nothing could be seen for a while.
                self._beats, self._moves = _Watch(), _Watch()
            except ShardError as error:
                self._tell(f"shard {self._shard}: {error}")
                await asyncio.sleep(9 * self._seconds)
            await asyncio.sleep(self._seconds)

    async def _attend(self) -> None:
        await self._directory.beat(self._shard, self._incarnation)
        now = self._system.now()
        beats = await self._directory.beats()
        for shard in self._beats.stood_still(beats, now, _BEATS_MISSED * self._seconds):
            if shard != self._shard:
                await self._directory.withdraw(shard, beats[shard])
        await self._end_moves(now)

    async def _end_moves(self, now: float) -> None:
        """Ends moves from this shard or to it that did not change for a while."""
        for name in self._moves.stood_still(await self._directory.moves(), now, _BEATS_OF_A_MOVE * self._seconds):
            seat, next_seat = await self._directory.seat(name), (await self._directory.moves()).get(name)
            if self._shard in (seat and seat.shard, next_seat and next_seat.shard):
                async with AsyncClient(self._directory.redis.url, self._directory.keys.prefix, self._system) as client:
                    await moving.end_move(client, name, _SECONDS_FOR_A_MOVE)
                self._tell(f"shard {self._shard}: the move of customer {name} was ended, which had broken off")

    async def end(self) -> None:
        """Records that the shard is not served any more."""
        with contextlib.suppress(RedisError):
            await self._directory.withdraw(self._shard)
