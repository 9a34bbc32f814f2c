"""Writes the replies of a worker while it goes on with calls; the worker waits for writes in progress only if it has to.

Replies are written in batches, in order: a batch writes nothing if the batches before it are missing. If Redis's reply to a batch is
lost, all batches in progress are written again, one by one, and each reply is stored once. At most two batches are in progress at a time;
what is played meanwhile goes into the next batch.
"""

from __future__ import annotations

import asyncio
from collections import deque
from collections.abc import Callable, Sequence
from typing import NamedTuple

from bpfhost.parts import in_parts
from bpfhost.shards.calls import Call, NoCall
from bpfhost.shards.connection import forgotten
from bpfhost.shards.errors import OutOfMemory
from bpfhost.shards.patience import Patience
from bpfhost.shards.serving import Written
from bpfhost.shards.system import Work
from bpfhost.shards.writing import WRITTEN_AT_ONCE, Writing

_MOST_ON_THEIR_WAY = 2
# If so many bytes of replies wait to be sent, the worker waits too.
_MOST_WAITING = 4 * WRITTEN_AT_ONCE


class Played(NamedTuple):
    """A call that was played, its replies, and whether it may have changed the tenant's state."""

    call: Call | NoCall
    written: Written
    changed: bool


class _Batch(NamedTuple):
    played: Sequence[Played]
    task: asyncio.Future[int]


class Answering:
    """Writes the replies of one shard.

    It calls `written` for stored replies, `make_room` if Redis has no memory for them, and `wake` when something has come.
    """

    def __init__(
        self, writing: Writing, patience: Patience, written: Callable[[Sequence[Played]], None],
        make_room: Callable[[OutOfMemory], Work[None]], wake: Callable[[object], None],
    ) -> None:
        self._writing, self._patience = writing, patience
        self._written, self._make_room, self._wake = written, make_room, wake
        self._line = writing.redis.nodes.line()
        self._batches: deque[_Batch] = deque()
        # The id of each tenant's last reply that is being written.
        self._last: dict[int, bytes] = {}
        # What waits to be sent.
        self._waiting: list[Played] = []

    async def begin(self, played: Sequence[Played]) -> None:
        """Begins to write replies, now or when there is room for them."""
        self._waiting += played
        self._send()
        while sum(map(_size, self._waiting)) > _MOST_WAITING:
            await self._end_first()

    def _send(self) -> None:
        """Sends what waits, as far as there is room."""
        while self._waiting and len(self._batches) < _MOST_ON_THEIR_WAY:
            some = next(in_parts(self._waiting, _size, WRITTEN_AT_ONCE))
            task = self._writing.begin(self._line, [one.written for one in some], self._last)
            task.add_done_callback(self._wake)
            self._batches.append(_Batch(some, task))
            self._last.update((one.written.tenant, one.written.entry) for one in some)
            del self._waiting[: len(some)]

    def is_full(self) -> bool:
        """Whether no more batches can be sent at the moment."""
        return len(self._batches) >= _MOST_ON_THEIR_WAY

    def first(self) -> list[asyncio.Future[int]]:
        """The batch that Redis replies to next, if one is in progress."""
        return [self._batches[0].task] if self._batches else []

    async def look(self) -> None:
        """Notes the batches that Redis has replied to."""
        while self._batches and self._batches[0].task.done():
            await self._end_first()

    async def settle(self) -> None:
        """Waits until all replies are written."""
        while self._batches:
            await self._end_first()

    def forget(self) -> None:
        """Drops the batches in progress: they belong to a log that this worker does not continue."""
        for batch in self._batches:
            forgotten(batch.task)
        self._batches.clear()
        self._last.clear()
        self._waiting.clear()

    def end(self) -> None:
        """Ends its connection."""
        self.forget()
        self._line.cut()

    async def _write(self, written: Sequence[Written]) -> None:
        while True:
            try:
                return await self._patience.waiting(lambda: self._writing.write(written))
            except OutOfMemory as error:
                await self._make_room(error)

    async def _end_first(self) -> None:
        """Waits for the batch that was begun first, and sends what waits; if it is not written, writes all batches in progress once more."""
        if await self._writing.end(self._batches[0].task):
            self._note(self._batches.popleft().played)
        else:
            for batch in list(self._batches)[1:]:
                await self._writing.end(batch.task)
            while self._batches:
                await self._write([one.written for one in self._batches[0].played])
                self._note(self._batches.popleft().played)
        self._send()

    def _note(self, played: Sequence[Played]) -> None:
        for _, written, _ in played:
            if self._last.get(written.tenant) == written.entry:
                del self._last[written.tenant]
        self._written(played)


def _size(played: Played) -> int:
    return len(played.written.value)
