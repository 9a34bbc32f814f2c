"""What goes on in a worker's turns at the same time: calls are read and played, and the replies of the turns before are written.

While the host plays the calls of one turn, the next calls are read (`reading`), and the replies of the turns before are written
(`answering`).
"""

from __future__ import annotations

import asyncio
from collections.abc import Callable, Sequence

from bpfhost.shards.answering import Answering, Played
from bpfhost.shards.calls import Arrives, Call, Leaves, NoCall
from bpfhost.shards.errors import HOST_ENDED
from bpfhost.shards.metrics import Told
from bpfhost.shards.reading import Reading
from bpfhost.shards.serving import Serving
from bpfhost.shards.suspects import Suspects
from bpfhost.shards.system import System

# The host runs for so long before what waits for Redis goes on, the lease too.
_SECONDS_AT_ONCE = 0.02


class Playing:
    """Plays the calls of one shard."""

    def __init__(
        self, serving: Serving, reading: Reading, answering: Answering, suspects: Suspects, system: System, metrics: Told,
        came: asyncio.Event,
    ) -> None:
        """The event is set when something has come."""
        self._serving, self._reading, self._answering, self._suspects = serving, reading, answering, suspects
        self._system, self._metrics, self._came = system, metrics, came

    async def settle(self) -> None:
        """Waits until the replies to all that was played are written."""
        await self._answering.settle()

    def forget(self) -> None:
        """Begins anew, with tenants that were just restored."""
        self._reading.forget()
        self._answering.forget()

    def end(self) -> None:
        """Ends its connections."""
        self._reading.end()
        self._answering.end()

    async def wait(self, seconds: float, is_due: Callable[[], bool]) -> None:
        """Waits at most so long until something has come, or is due. What is written meanwhile is noted."""
        asked = self._reading.ask()
        if not asked:
            await self.settle()
            await asyncio.sleep(min(seconds, 0.05))
            return
        until = self._system.now() + seconds
        timer = asyncio.get_running_loop().call_later(seconds, self._came.set)
        while True:
            # If no more batches can be sent, what comes meanwhile is taken together.
            tasks = self._answering.first() if self._answering.is_full() else [*asked, *self._answering.first()]
            while not any(task.done() for task in tasks) and self._system.now() < until:
                self._came.clear()
                await self._came.wait()
            await self._answering.look()
            if any(task.done() for task in asked) or self._system.now() >= until or is_due():
                break
        timer.cancel()

    async def play(self) -> list[Leaves | Arrives]:
        """Plays the calls that have come, and returns the other entries."""
        items = await self._reading.shares()
        calls = [item for one in items for item in one if isinstance(item, (Call, NoCall))]
        if calls:
            began = self._system.now()
            await self._play(calls)
            self._metrics.saw("bpfhost_worker_turn_seconds", self._system.now() - began)
        return [one[0] for one in items if one and not isinstance(one[0], (Call, NoCall))]

    async def _play(self, calls: Sequence[Call | NoCall]) -> None:
        """Plays calls, and writes their replies; one at a time if one of them may have ended a host."""
        self._reading.taken(calls)
        if self._suspects.careful:
            await self.settle()
            for call in calls:
                if not await self._played([call]):
                    return
                await self.settle()
        else:
            # What comes next is read meanwhile.
            self._reading.ask()
            await self._played(calls)

    async def _played(self, calls: Sequence[Call | NoCall]) -> bool:
        """Plays calls, and begins to write their replies; False if the host has ended, and all states were restored."""
        played: list[Played] = []
        pause = self._system.now() + _SECONDS_AT_ONCE
        try:
            for call, (written, changed) in zip(calls, self._serving.play(calls)):
                played.append(Played(call, written, changed))
                if self._system.now() > pause:
                    await asyncio.sleep(0)
                    pause = self._system.now() + _SECONDS_AT_ONCE
        except HOST_ENDED as error:
            await self._answering.begin(played)
            await self.settle()
            await self._suspects.host_has_ended(calls[len(played) :], error)
            return False
        await self._answering.begin(played)
        return True
