"""Entries and jobs that may have ended a host: each is tried three times, one by one, and then set aside or given up."""

from __future__ import annotations

from collections import Counter
from collections.abc import Sequence

from bpfhost.shards.aside import ENTRY, MOST_TRIES, Aside
from bpfhost.shards.calls import Call, NoCall
from bpfhost.shards.errors import StateRefused
from bpfhost.shards.log import Log
from bpfhost.shards.patience import Patience
from bpfhost.shards.states import States
from bpfhost.shards.tenants import Tenants


class Suspects:
    """The suspects of one shard."""

    def __init__(self, tenants: Tenants, states: States, failed: set[int], patience: Patience) -> None:
        """The tenants without snapshots for now are added to `failed`."""
        self._tenants, self._states, self._failed, self._patience = tenants, states, failed, patience
        # How often each entry, or job after a place, was tried; and the entry of each tenant that has to be played by itself: while there
        # is one, calls are played one at a time.
        self._tries = Counter[tuple[int, bytes]]()
        self.careful: dict[int, bytes] = {}
        # Tenants with a job that ended hosts, and their places then.
        self.given_up: dict[int, bytes] = {}

    async def host_has_ended(self, suspects: Sequence[Call | NoCall], error: Exception) -> None:
        """Notes the entries that may have ended the host, sets an entry aside that has done so three times, and starts another host."""
        for call in suspects:
            self._tries[call.tenant, call.entry] += 1
            self.careful.setdefault(call.tenant, call.entry)
        self._patience.tell_of_host(error)
        await self._states.make_all()
        if len(suspects) == 1 and self._tries[suspects[0].tenant, suspects[0].entry] >= MOST_TRIES:
            await self._give_up(suspects[0], error)

    async def _give_up(self, call: Call | NoCall, error: Exception) -> None:
        log, entry = self._tenants.logs[call.tenant], call.entry.decode()
        self.careful.pop(call.tenant, None)
        self._tries.pop((call.tenant, call.entry), None)
        aside = Aside(ENTRY, entry, f"entry {entry} of shard {self._patience.shard} ended the host {MOST_TRIES} times: {error}")
        await self._patience.waiting(lambda: self._tenants.set_aside(log, aside))

    def is_answered(self, tenant: int, entry: bytes) -> None:
        """Notes that an entry did not end the host."""
        if self.careful.get(tenant) == entry:
            del self.careful[tenant]
            self._tries.pop((tenant, entry), None)

    async def job_ended_host(self, tenant: int, error: Exception) -> None:
        """Starts another host. A job that ended the host three times is given up.

        Then no snapshot is taken, or the arriving tenant is refused, or the leaving tenant is set aside.
        """
        place = self._tenants.logs[tenant].place
        key = tenant, b"behind " + place
        self._tries[key] += 1
        self._patience.tell_of_host(error)
        await self._states.make_all()
        if self._tries[key] >= MOST_TRIES:
            del self._tries[key]
            self._failed.add(tenant)
            self.given_up[tenant] = place

    def demand_hope(self, log: Log) -> None:
        """Raises StateRefused if a job of the tenant was given up, and the tenant has no new entries since."""
        if self.given_up.get(log.tenant) == log.place:
            raise StateRefused(f"it ended the host {MOST_TRIES} times")
