"""A worker serves a shard: it reads frames from its tenants' streams, sends them to its host, and writes the replies.

Each reply has the id of its frames. A tenant's place is the last id of its stream of replies, so replies and place are one. A starting
worker restores each tenant's state from its last snapshot (`states`), plays the calls again that have replies already, compares, and
continues with the next ones, in turns. In each turn every tenant has its share of calls (`playing`); between two turns come steps of other
work (`agenda`).
"""

from __future__ import annotations

import asyncio
import contextlib
from collections.abc import Callable, Sequence

from bpfhost.errors import StateError
from bpfhost.library import Library
from bpfhost.program import Program
from bpfhost.shards.agenda import Agenda
from bpfhost.shards.answering import Answering, Played
from bpfhost.shards.attending import Attending
from bpfhost.shards.calls import Call
from bpfhost.shards.connection import Redis, as_in, demand_durable, forgotten
from bpfhost.shards.decisions import SECONDS_TO_LOOK, Decisions
from bpfhost.shards.directory import Directory, register
from bpfhost.shards.errors import LeaseLost, LogChanged, OutOfMemory, RedisError, ShardError, Stopped
from bpfhost.shards.jobs import Jobs
from bpfhost.shards.keeping import Keeping
from bpfhost.shards.lease import Lease
from bpfhost.shards.log import Log
from bpfhost.shards.loop import RoundsLoop
from bpfhost.shards.manifest import build_of
from bpfhost.shards.metrics import WORKER, Numbers, Told
from bpfhost.shards.names import ShardKeys
from bpfhost.shards.patience import Patience
from bpfhost.shards.playing import Playing
from bpfhost.shards.reading import Reading
from bpfhost.shards.serving import Serving
from bpfhost.shards.settings import Settings
from bpfhost.shards.states import States
from bpfhost.shards.suspects import Suspects
from bpfhost.shards.tenants import Tenants
from bpfhost.shards.upkeep import Upkeep
from bpfhost.shards.writing import Writing

_SECONDS_TO_END = 2.0


class Worker:
    """The worker of one shard."""

    def __init__(
        self, redis: Redis, keys: ShardKeys, program: Program, settings: Settings = Settings(), tell: Callable[[str], None] = print,
        directory: Redis | None = None, library: Library | None = None,
    ) -> None:
        """The directory is in the shard's Redis if no other one is named. With a library, the host is in this process."""
        self._serves = False
        self.metrics = Told(WORKER, self._numbers)
        self._redis, self._keys, self._settings = redis.near(keys.lease), keys, settings
        self._server = as_in(redis.url) if directory else ""
        self._directory = Directory(directory or redis, keys.prefix)
        self._lease = Lease(self._redis, keys, settings.lease_seconds)
        self._patience = patience = Patience(self._redis, keys.number, tell)
        self._serving = serving = Serving(program, redis.system, self._lease.at_work, library, settings.most_asked)
        writing = Writing(self._redis, keys, self._lease)
        self._keeping = keeping = Keeping(writing, settings, build_of(library.path if library else program), self.metrics)
        self._tenants, self._agenda = tenants, agenda = Tenants(writing, tell), Agenda()
        self._states = states = States(serving, tenants, agenda, keeping, patience, self.metrics)
        self._suspects = suspects = Suspects(tenants, states, keeping.failed, patience)
        self._upkeep = Upkeep(serving, tenants, agenda, keeping, states, patience)
        self._decisions = Decisions(serving, tenants, agenda, writing, states, suspects, patience)
        self._jobs = Jobs(serving, tenants, agenda, keeping, writing, states, suspects, patience)
        # It is set when something has come of what the worker waits for.
        self._came = asyncio.Event()
        self._reading = Reading(self._redis, keys, tenants, agenda.busy, patience, settings, self._wake)
        answering = Answering(writing, patience, self._note, self._make_room, self._wake)
        self._playing = Playing(serving, self._reading, answering, suspects, redis.system, self.metrics, self._came)
        agenda.under_way = self._playing

    def _wake(self, _done: object) -> None:
        """Lets the worker go on."""
        self._came.set()

    @property
    def logs(self) -> list[Log]:
        """The log of each tenant."""
        return self._tenants.logs

    def run(self, is_stopped: Callable[[], bool] = lambda: False) -> None:
        """Serves (`serve`) on an event loop of its own, and closes the connections at the end."""

        async def run() -> None:
            try:
                await self.serve(is_stopped)
            finally:
                for redis in dict.fromkeys((self._redis, self._directory.redis)):
                    redis.nodes.close()

        with asyncio.Runner(loop_factory=RoundsLoop) as runner:
            runner.run(run())

    async def serve(self, is_stopped: Callable[[], bool] = lambda: False) -> None:
        """Serves until it is stopped; then releases the lease. If Redis is away, it waits, and reports that.

        Raises LeaseHeld if another worker serves the shard, LeaseLost if another one has taken the lease, OtherShard if the directory
        knows another shard by this number, and HostError or RedisError for other faults. What was written before is right.
        """
        self._patience.is_stopped = is_stopped
        # The host starts first, so that none of the lease's time passes meanwhile.
        with contextlib.suppress(Stopped), self._serving:
            try:
                await self._patience.waiting(self._take_lease)
                await self._serve_under_lease()
            finally:
                self._playing.end()
                self._agenda.drop()

    async def _take_lease(self) -> None:
        if self._settings.demand_durable:
            unseen = await demand_durable(self._redis)
            if unseen:
                self._patience.tell_now_and_then(f"shard {self._keys.number}: {unseen}")
        await self._lease.take(self._patience.is_stopped)

    async def _serve_under_lease(self) -> None:
        patience, number = self._patience, self._keys.number
        tasks = [asyncio.create_task(self._lease.keep_beside())]
        attending: Attending | None = None
        try:
            self._lease.at_work()
            incarnation = await patience.waiting(lambda: register(self._redis, self._keys, self._directory, self._server))
            is_careful = self._is_careful()
            await self._states.make_all()
            await patience.waiting(lambda: self._directory.beat(number, incarnation))
            patience.tell(f"shard {number} is served, from entry {self._tenants.last_place().decode()} on")
            if is_careful:
                patience.tell(f"shard {number}: the worker before ended without a word, so the host is a process of its own at first")
            attending = Attending(self._directory, number, incarnation, self._settings.lease_seconds, patience.tell)
            tasks.append(asyncio.create_task(attending.run()))
            self._serves = True
            while not patience.is_stopped():
                await self._turn_or_begin_anew()
            await self._drain()
        except (RedisError, LeaseLost):
            raise
        except (ShardError, StateError) as error:
            # Another worker may have dropped what this one was about to read.
            if not isinstance(error, Stopped) and not await self._lease.is_held():
                raise await self._lease.lost() from error
            raise
        finally:
            self._serves = False
            # Nothing is written any more, so the next worker need not wait.
            with contextlib.suppress(RedisError):
                for task in tasks:
                    forgotten(task)
                await asyncio.wait(tasks, timeout=_SECONDS_TO_END)
                await self._lease.release()
                if attending and not await self._redis.hget(self._keys.lease, "token"):
                    await attending.end()

    def _is_careful(self) -> bool:
        """Whether the host has to be a separate process at first.

        If the previous worker did not end regularly, one of its calls may have ended it. A separate process shows which call ends it. It
        is used until it is replaced by another host.
        """
        if not self._lease.was_left or not self._serving.is_here:
            return False
        self._serving.is_careful = True
        self._serving.restart()
        return True

    # Turns.

    async def _turn_or_begin_anew(self) -> None:
        """One turn; if the log may lack what this host has played, all states are restored from the log."""
        try:
            await self._turn()
        except LogChanged as changed:
            self._patience.tell_of_host(changed)
            await self._states.make_all()

    async def _turn(self) -> None:
        """One turn, and some steps of other jobs."""
        self._lease.at_work()
        self.metrics.add("bpfhost_worker_turns_total")
        await self._patience.waiting(self._decisions.look)
        if self._keeping.is_due_to_look():
            await self._playing.settle()
            await self._patience.waiting(self._upkeep.look_around)
        # If a job has steps to do, nothing is waited for.
        wait = 0.0 if self._agenda.jobs else min(self._settings.lease_seconds / 4, SECONDS_TO_LOOK)
        await self._playing.wait(wait, self._upkeep.is_due)
        for item in await self._playing.play():
            await self._jobs.begin(item)
        await self._upkeep.look_at_snapshots()
        await self._jobs.do_some()

    async def _drain(self) -> None:
        """Takes snapshots, between turns, for as long as it may, and writes the replies to all that was played."""
        now, until = self._redis.system.now, self._redis.system.now() + self._settings.drain_seconds
        if self._settings.drain_seconds:
            await self._upkeep.snapshot_all()
        while self._agenda.jobs and now() < until:
            await self._turn_or_begin_anew()
        await self._playing.settle()

    async def _make_room(self, error: OutOfMemory) -> None:
        """Makes room. Calls that were read, and may have been played, have no replies yet."""
        await self._upkeep.make_room(self._reading.unanswered(), error)

    def _note(self, played: Sequence[Played]) -> None:
        """Notes that replies are written."""
        frames = asked = replied = 0
        for call, written, changed in played:
            count, size = call.count if isinstance(call, Call) else 0, len(written.value)
            frames, asked, replied = frames + count, asked + call.size, replied + size
            log = self._tenants.logs[call.tenant]
            log.place = written.entry
            log.note(count, call.size, size, changed)
            self._reading.written(call.tenant, written.entry)
            self._suspects.is_answered(call.tenant, written.entry)
        self._keeping.note(len(played), frames, asked, replied)
        self.metrics.add("bpfhost_worker_calls_total", len(played))
        self.metrics.add("bpfhost_worker_frames_total", frames)
        self.metrics.add("bpfhost_worker_bytes_total", asked + replied)

    # For metrics and health.

    def _numbers(self) -> Numbers:
        """Metrics that are computed when they are read."""
        return {
            "bpfhost_worker_lease_age_seconds": self._lease.age(),
            "bpfhost_worker_serves": self._serves,
            "bpfhost_worker_aside": sum(log.aside is not None for log in self.logs),
        }

    def health(self) -> tuple[bool, dict[str, object]]:
        """Whether it serves, under a lease that is raised."""
        seconds, age = self._settings.lease_seconds, self._lease.age()
        said: dict[str, object] = {"shard": self._keys.number, "serves": self._serves, "lease_age": round(age, 3), "lease_seconds": seconds}
        return self._serves and age < seconds, said
