"""Restores the states of a shard's tenants, on a host on which they are new."""

from __future__ import annotations

import contextlib
from collections import Counter

from bpfhost.shards.agenda import Agenda
from bpfhost.shards.aside import ENTRY, MOST_TRIES, SKIP, STATE, Aside
from bpfhost.shards.errors import HOST_ENDED, LogChanged, Stopped
from bpfhost.shards.keeping import Keeping
from bpfhost.shards.log import Log
from bpfhost.shards.metrics import Told
from bpfhost.shards.names import after
from bpfhost.shards.patience import Patience
from bpfhost.shards.restoring import restored
from bpfhost.shards.serving import Serving
from bpfhost.shards.steps import at_once
from bpfhost.shards.tenants import Tenants


class States:
    """Restores the states of one shard."""

    def __init__(self, serving: Serving, tenants: Tenants, agenda: Agenda, keeping: Keeping, patience: Patience, metrics: Told) -> None:
        self._serving, self._tenants, self._agenda, self._keeping = serving, tenants, agenda, keeping
        self._patience, self._metrics = patience, metrics

    async def make_all(self) -> None:
        """Restores all states, from one log. If that log is still there, the replies to all that was played are written before."""
        with contextlib.suppress(LogChanged):
            await self._agenda.under_way.settle()
        while True:
            try:
                return await self._patience.waiting(self._make_all)
            except LogChanged:
                continue

    async def _make_all(self) -> None:
        """If the host ends meanwhile, another one is started; a state that ends it three times is set aside."""
        ended, redis = Counter[int](), self._patience.redis
        began = redis.system.now()
        redis.nodes.watch()
        while True:
            if not self._serving.is_new:
                self._serving.restart()
                self._metrics.add("bpfhost_worker_hosts_total")
            self._agenda.under_way.forget()
            self._agenda.drop()
            self._keeping.begin()
            self._tenants.begin_anew()
            at = 0
            try:
                for at in await self._tenants.with_a_log():
                    await self._make_or_set_aside(self._tenants.logs[at], ended[at])
                await self._tenants.drop_strays()
                self._metrics.set("bpfhost_worker_restore_seconds", redis.system.now() - began)
                return
            except HOST_ENDED as error:
                ended[at] += 1
                self._patience.tell_of_host(error)

    async def _make_or_set_aside(self, log: Log, ended: int) -> None:
        self._serving.alive()
        if self._patience.is_stopped():
            raise Stopped(f"shard {self._patience.shard} was stopped while its states were made")
        if ended < MOST_TRIES:
            await at_once(self.make(log))
            return
        log.place = await log.redis.last_id(log.replies)
        sentence = f"the state of tenant {log.tenant} ended the host {MOST_TRIES} times"
        await self._tenants.set_aside(log, Aside(STATE, after(log.place).decode(), sentence))

    async def make(self, log: Log, word: str = "") -> None:
        """Restores a tenant's state; if that fails, sets it aside. An operator may have decided on it."""
        kept = await self._tenants.kept_aside(log.tenant)
        told, aside = await restored(self._serving, log, accepts=word == SKIP)
        self._keeping.reckon()
        self._metrics.add("bpfhost_worker_replayed_frames_total", log.since.frames)
        if told:
            self._patience.tell(f"shard {self._patience.shard}, tenant {log.tenant}: {told}")
        if aside:
            await self._tenants.set_aside(log, aside)
        elif kept and kept.kind == ENTRY:
            log.aside = kept
        elif kept:
            await self._tenants.forget_aside(log.tenant)

    async def make_again(self, tenant: int) -> None:
        """Restores a tenant whose job was interrupted."""
        self._serving.empty(tenant)
        self._tenants.logs[tenant] = self._tenants.log_of(tenant)
        await at_once(self.make(self._tenants.logs[tenant]))
