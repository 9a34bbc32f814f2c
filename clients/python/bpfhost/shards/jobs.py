"""What a worker does in steps between two turns, besides calls: tenants that leave and arrive, and what others have begun."""

from __future__ import annotations

from bpfhost.errors import StateError
from bpfhost.shards.agenda import Agenda
from bpfhost.shards.aside import ENTRY, STATE, Aside
from bpfhost.shards.calls import Arrives, Leaves
from bpfhost.shards.errors import HOST_ENDED, Away, CopyDiffers, LeaseLost, LogChanged, OutOfMemory, RedisError
from bpfhost.shards.errors import ShardError, SnapshotDamaged, StateRefused, Stopped
from bpfhost.shards.keeping import Keeping
from bpfhost.shards.log import Log, Since
from bpfhost.shards.manifest import Manifest
from bpfhost.shards.names import FAULT
from bpfhost.shards.patience import Patience
from bpfhost.shards.serving import Serving, Written
from bpfhost.shards.states import States
from bpfhost.shards.steps import advance, in_steps
from bpfhost.shards.suspects import Suspects
from bpfhost.shards.tenants import Tenants
from bpfhost.shards.writing import Writing

# For so long, between two turns, the worker does steps of work other than calls.
_SECONDS_BESIDE = 0.01


class Jobs:
    """Does the jobs of one shard."""

    def __init__(
        self, serving: Serving, tenants: Tenants, agenda: Agenda, keeping: Keeping, writing: Writing, states: States, suspects: Suspects,
        patience: Patience,
    ) -> None:
        self._serving, self._tenants, self._agenda, self._keeping, self._writing = serving, tenants, agenda, keeping, writing
        self._states, self._suspects, self._patience = states, suspects, patience

    async def do_some(self) -> None:
        """Does some steps of the first job. A job that Redis or the host interrupted begins anew when it is due again."""
        agenda, patience, now = self._agenda, self._patience, self._patience.redis.system.now
        until = now() + _SECONDS_BESIDE
        while agenda.jobs:
            tenant, job = agenda.jobs[0]
            try:
                if await advance(job):
                    agenda.end(tenant)
            except (Away, OutOfMemory) as error:
                patience.demand_same_log()
                agenda.end(tenant)
                patience.tell_now_and_then(f"shard {patience.shard} waits: {error}")
                if not await self._made_again(tenant):
                    return
            except HOST_ENDED as error:
                await self._suspects.job_ended_host(tenant, error)
                return
            except (LeaseLost, LogChanged, RedisError, Stopped):
                raise
            except (ShardError, StateError) as error:
                agenda.end(tenant)
                self._keeping.failed.add(tenant)
                patience.tell(f"shard {patience.shard}, tenant {tenant}: no snapshot can be taken: {error}")
            if now() >= until:
                return

    async def _made_again(self, tenant: int) -> bool:
        """Restores a tenant whose job broke off; False if the host ended meanwhile and all tenants are restored."""
        try:
            await self._patience.waiting(lambda: self._states.make_again(tenant))
        except HOST_ENDED as error:
            await self._suspects.job_ended_host(tenant, error)
            return False
        return True

    # Tenants that leave and arrive.

    async def begin(self, item: Leaves | Arrives) -> None:
        """Lets a tenant leave or arrive, before all other jobs."""
        await self._agenda.begin(item.tenant, self._move(item), first=True)

    async def _move(self, item: Leaves | Arrives) -> None:
        log = self._tenants.logs[item.tenant]
        old = [one for one in (log.snapshot, log.before) if one]
        if isinstance(item, Leaves):
            try:
                self._suspects.demand_hope(log)
                manifest = await self._keeping.keep(self._serving, log)
            except (SnapshotDamaged, CopyDiffers, StateRefused) as error:
                await self._tenants.set_aside(log, Aside(STATE, item.entry.decode(), f"the tenant can't leave: {error}"))
                return
            self._serving.empty(item.tenant)
            await self._writing.write_move(log, item, self._keeping.empty(item.entry), manifest)
        elif not await self._arrive(log, item):
            return
        log.place, log.since = item.entry, Since()
        for one in old:
            await self._keeping.forget_old(log, one)

    async def _arrive(self, log: Log, item: Arrives) -> bool:
        """Restores an arriving state; if it can't be restored, it is refused, and the tenant is then empty.

        An entry that no move has written is set aside: then nobody has arrived, and the result is False.
        """
        try:
            manifest = Manifest.read(item.manifest)
        except SnapshotDamaged as error:
            await self._tenants.set_aside(log, Aside(ENTRY, item.entry.decode(), f"what arrives is no state: {error}"))
            return False
        try:
            self._suspects.demand_hope(log)
            stream = await log.stream_of(manifest)
            await in_steps(self._serving.make(item.tenant, stream))
        except (SnapshotDamaged, StateRefused, ValueError) as error:
            self._serving.empty(item.tenant)
            sentence = f"what arrives at shard {self._writing.keys.number} is refused: {error}"
            await self._writing.write([Written(item.tenant, item.entry, FAULT, sentence.encode())])
        else:
            await self._writing.write_move(log, item, manifest.at(item.entry))
        return True
