"""What a worker checks now and then: snapshots that are due, what waits, and the memory of Redis."""

from __future__ import annotations

from bpfhost.shards.agenda import Agenda
from bpfhost.shards.errors import OutOfMemory
from bpfhost.shards.keeping import Keeping
from bpfhost.shards.names import START
from bpfhost.shards.patience import LONGEST_PAUSE, Patience
from bpfhost.shards.serving import Serving
from bpfhost.shards.states import States
from bpfhost.shards.steps import at_once
from bpfhost.shards.tenants import Tenants

# If so much of its memory is in use, Redis is about to have none left.
_FULL_MEMORY = 0.9


class Upkeep:
    """The upkeep of one shard."""

    def __init__(self, serving: Serving, tenants: Tenants, agenda: Agenda, keeping: Keeping, states: States, patience: Patience) -> None:
        self._serving, self._tenants, self._agenda = serving, tenants, agenda
        self._keeping, self._states, self._patience = keeping, states, patience

    # Snapshots.

    def is_due(self) -> bool:
        """Whether a snapshot, or another host, is to be begun now."""
        return self._serving.is_used_up or self._keeping.due(self._tenants.logs, self._agenda.busy) is not None

    async def look_at_snapshots(self) -> None:
        """Begins a snapshot of the tenant that has most to play again, if there is too much of that."""
        logs, agenda, keeping = self._tenants.logs, self._agenda, self._keeping
        await keeping.look_at_ages(logs, agenda.begin, agenda.busy)
        if agenda.jobs:
            return
        if self._serving.is_used_up:
            await self._replace_host()
        elif due := keeping.due(logs, agenda.busy):
            await agenda.begin(due.tenant, keeping.snapshot(self._serving, due))
        else:
            await keeping.look_at_bytes(logs, agenda.begin, agenda.busy)

    async def _replace_host(self) -> None:
        """Replaces a host that was sent many frames by a new one, after snapshots of all tenants, so that little is played again."""
        changed = [log for log in self._tenants.logs if not log.aside and log.since.frames > 1000]
        for log in changed:
            await self._agenda.begin(log.tenant, self._keeping.snapshot(self._serving, log))
        if not changed:
            self._serving.is_careful = False
            await self._states.make_all()

    async def snapshot_all(self) -> None:
        """Begins snapshots of all tenants that had entries, so that the next worker has little to play again."""
        for log in self._tenants.logs:
            if log.since.frames and not log.aside and log.tenant not in self._agenda.busy | self._keeping.failed:
                await self._agenda.begin(log.tenant, self._keeping.snapshot(self._serving, log))

    # Memory.

    async def look_around(self) -> None:
        """Checks what waits, and the memory of Redis: if little is left, makes room before there is none."""
        logs, agenda, patience = self._tenants.logs, self._agenda, self._patience
        await self._keeping.look_at_waiting(logs, agenda.busy)
        used, most = await self._keeping.memory()
        if most and used > most * _FULL_MEMORY and not agenda.jobs:
            patience.tell_now_and_then(f"shard {patience.shard} makes room: {_memory(used, most)}")
            for log in logs:
                if not log.aside and log.place != START:
                    await agenda.begin(log.tenant, self._keeping.make_room(self._serving, log))

    async def make_room(self, played: set[int], error: OutOfMemory) -> None:
        """Makes room in a Redis that has no memory for replies.

        It takes no snapshot of the tenants whose replies are not written yet: their state includes calls that have no replies.
        """
        for log in self._tenants.logs:
            if log.tenant in played | self._agenda.busy or log.aside or log.place == START:
                await at_once(self._keeping.drop_before(log))
            else:
                await at_once(self._keeping.make_room(self._serving, log))
        self._serving.alive()
        await self._patience.wait_for_redis(OutOfMemory(f"{error}. {_memory(*await self._keeping.memory())}"), LONGEST_PAUSE)


def _memory(used: int, most: int) -> str:
    return f"Redis has {used} bytes of at most {most}: it needs more memory (maxmemory), or replies that stay less long (--keep-replies)"
