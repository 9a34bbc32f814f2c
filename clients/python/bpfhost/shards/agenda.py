"""What a worker is to do in steps between two turns."""

from __future__ import annotations

from collections import deque
from typing import TYPE_CHECKING

from bpfhost.shards.system import Work

if TYPE_CHECKING:
    from bpfhost.shards.playing import Playing


class Agenda:
    """The jobs of one shard, in order."""

    # The calls that are read and played, and the replies that are written.
    under_way: Playing

    def __init__(self) -> None:
        # Work for one tenant each, whose calls are not played meanwhile.
        self.jobs: deque[tuple[int, Work[None]]] = deque()
        # Tenants with a job.
        self.busy: set[int] = set()

    async def begin(self, tenant: int, job: Work[None], first: bool = False) -> None:
        """Does something for a tenant, in steps; before that, the replies to all that was played are written."""
        try:
            await self.under_way.settle()
        except BaseException:
            job.close()
            raise
        self.busy.add(tenant)
        if first:
            self.jobs.appendleft((tenant, job))
        else:
            self.jobs.append((tenant, job))

    def end(self, tenant: int) -> None:
        """Ends a job."""
        if self.jobs and self.jobs[0][0] == tenant:
            self.jobs.popleft()
        self.busy.discard(tenant)

    def drop(self) -> None:
        """Drops all jobs."""
        for _, job in self.jobs:
            job.close()
        self.jobs.clear()
        self.busy.clear()
