"""Reads the entries of the tenants' streams, each stream from the place that the tenant has reached.

The streams are read in several lanes; each lane has a connection and some of the tenants. A lane waits in Redis for entries while the
entries of another lane are played, or while replies are written. With only one lane, Redis would return the first entry that comes, and
the entries that come together with it would need a second read.
"""

from __future__ import annotations

import asyncio
from collections.abc import Callable, Iterator, Sequence
from typing import Any

from bpfhost.numbers import MOST_TENANTS
from bpfhost.shards.calls import Call, Item, NoCall, item_of
from bpfhost.shards.cluster import Line
from bpfhost.shards.connection import Entry, Redis, entries_of, forgotten, xread_words
from bpfhost.shards.errors import Away
from bpfhost.shards.names import ShardKeys
from bpfhost.shards.patience import Patience
from bpfhost.shards.settings import Settings
from bpfhost.shards.tenants import Tenants

# In a turn each tenant has calls of so many frames and bytes at most, or one call.
TURN_FRAMES, TURN_BYTES = 512, 1 << 18
_MOST_READ = 64
# A lane waits for entries for so long at most; the second number is for a lane with tenants that can't be read now.
_SECONDS_TO_WAIT, _SECONDS_BESIDE = 1.0, 0.02


class _Lane:
    """One lane: its tenants, the ids after which their streams are read, and the pending reply."""

    def __init__(self, line: Line, keys: ShardKeys, tenants: range) -> None:
        self.line, self.names = line, {tenant: keys.frames(tenant) for tenant in tenants}
        self.tenants = {name: tenant for tenant, name in self.names.items()}
        self.of = slice(tenants.start, None, tenants.step)
        self.at_once = _MOST_READ
        self.places: dict[str, bytes] = {}
        self.task: asyncio.Future[Any] | None = None


class Reading:
    """Reads one shard."""

    def __init__(
        self, redis: Redis, keys: ShardKeys, tenants: Tenants, busy: set[int], patience: Patience, settings: Settings,
        wake: Callable[[object], None],
    ) -> None:
        """Tenants that are busy are not read; `wake` is called when something has come."""
        self._redis, self._tenants, self._busy, self._patience = redis, tenants, busy, patience
        self._settings, self._wake = settings, wake
        self._lanes = [_Lane(redis.nodes.line(), keys, range(at, MOST_TENANTS, settings.lanes)) for at in range(settings.lanes)]
        # The ids up to which tenants were read whose replies are not written yet.
        self._read_to: dict[int, bytes] = {}

    def forget(self) -> None:
        """Begins anew, with tenants that were just restored."""
        self._read_to.clear()
        for lane in self._lanes:
            if lane.task:
                forgotten(lane.task)
                lane.task = None

    def end(self) -> None:
        """Ends its connections."""
        self.forget()
        for lane in self._lanes:
            lane.line.cut()

    # How far tenants were read.

    def taken(self, calls: Sequence[Call | NoCall]) -> None:
        """Notes that calls are played: their tenants are read from the entries after them."""
        self._read_to.update((call.tenant, call.entry) for call in calls)

    def written(self, tenant: int, entry: bytes) -> None:
        """Notes that a reply is written."""
        if self._read_to.get(tenant) == entry:
            del self._read_to[tenant]

    def unanswered(self) -> set[int]:
        """Tenants that have entries that were read, and have no written replies yet."""
        return set(self._read_to)

    # Lanes.

    def ask(self) -> list[asyncio.Future[Any]]:
        """Lets all lanes wait for entries, and returns the pending replies."""
        for lane in self._lanes:
            if not lane.task:
                self._ask(lane)
        return [lane.task for lane in self._lanes if lane.task]

    def _ask(self, lane: _Lane) -> None:
        busy, read_to = self._busy, self._read_to
        logs = [log for log in self._tenants.logs[lane.of] if not log.aside and log.tenant not in busy]
        lane.places = places = {lane.names[log.tenant]: read_to.get(log.tenant) or log.place for log in logs}
        if places:
            wait = min(self._settings.lease_seconds / 4, _SECONDS_TO_WAIT if len(places) == len(lane.names) else _SECONDS_BESIDE)
            lane.task = self._redis.begin(lane.line, xread_words(places, lane.at_once, wait), wait)
            lane.task.add_done_callback(self._wake)

    async def shares(self) -> list[list[Item]]:
        """What each tenant has in this turn: calls, or one entry that is no call. Waits a little if Redis is away."""
        found: list[list[Item]] = []
        for lane in self._lanes:
            if lane.task and lane.task.done():
                task, lane.task = lane.task, None
                try:
                    found += self._shares(lane, entries_of(await task))
                except Away as away:
                    await self._patience.wait_for_redis(away)
        return found

    def _shares(self, lane: _Lane, found: dict[str, list[Entry]]) -> Iterator[list[Item]]:
        most = 1
        for name, entries in found.items():
            log = self._tenants.logs[lane.tenants[name]]
            # Other work may have been done for the tenant since the read began.
            if log.aside or log.tenant in self._busy or (self._read_to.get(log.tenant) or log.place) != lane.places[name]:
                continue
            items = [item_of(log.tenant, entry) for entry in entries]
            most = max([most, *(item.count for item in items if isinstance(item, Call))])
            yield share_of(items)
        lane.at_once = max(1, min(_MOST_READ, TURN_FRAMES // most))


def share_of(items: Sequence[Item]) -> list[Item]:
    """The entries of a tenant for this turn: the first calls, up to its share, or one entry that is no call."""
    taken: list[Item] = []
    frames, size = TURN_FRAMES, TURN_BYTES
    for item in items:
        if not isinstance(item, (Call, NoCall)):
            return taken or [item]
        frames -= item.count if isinstance(item, Call) else 1
        size -= item.size
        if taken and (frames < 0 or size < 0):
            break
        taken.append(item)
    return taken
