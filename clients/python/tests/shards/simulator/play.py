"""Plays shards in the simulator.

Customers send calls, their processes and all others die, servers go away and their clocks jump, customers are moved; each reply is
compared with that of a host that serves only this customer.

usage: `python3 -m tests.shards.simulator.play [--seed N] [--runs N] [--seconds S] [--tell]`

A run is determined by its seed: the same seed plays the same run again.
"""

from __future__ import annotations

import argparse
import asyncio
import random
import sys
from collections import Counter
from collections.abc import Callable, Coroutine
from typing import Any

from bpfhost import MapType, frames
from bpfhost.shards import (
    AsyncClient,
    AsyncCustomer,
    LeaseHeld,
    LeaseLost,
    MoveError,
    NoReply,
    NotDone,
    NotTaken,
    SetAside,
    Settings,
    ShardError,
    ShardKeys,
    Worker,
    moving,
)
from bpfhost.shards.aside import Aside
from bpfhost.shards.connection import Redis
from bpfhost.shards.errors import RedisError
from bpfhost.shards.operating import say
from bpfhost.shards.system import Work
from bpfhost.shards.tickets import Ticket
from tests.shards.simulator.host import POISON, FakeHost
from tests.shards.simulator.network import Network, Server, Simulated, Weather
from tests.shards.simulator.world import Process, World

DIRECTORY = "redis://directory"
SHARDS, CUSTOMERS, LEASE = 2, 4, 1.0
SETTINGS = Settings(lease_seconds=LEASE, snapshot_entries=25, reply_seconds=400.0, most_asked=4000, lanes=2)
_SECONDS_TO_SETTLE = 120.0
_DAY = 86_400.0
_SLOTS = bytes.fromhex("18110000 03000000 00000000 00000000 b700000000000000 9500000000000000")
_KEYS = [bytes([key, 0, 0, 0]) for key in range(4)]
_BAD_WEATHER = Weather(lost=0.02, unanswered=0.02, late=0.02)


class Differs(AssertionError):
    """A result differs from the expected one."""


def frame_of(draw: random.Random, poison: bool) -> bytes:
    """A random frame of one tenant."""
    number, key = draw.choice((3, 3, 4, 5, 6)), draw.choice(_KEYS)
    if poison and draw.random() < 0.01:
        return frames.map_update_elem(0, number, POISON, bytes(8))
    kinds: list[Callable[[], bytes]] = [
        lambda: frames.map_create(0, draw.choice((MapType.HASH, MapType.ARRAY)), 4, 8, 3),
        lambda: frames.map_update_elem(0, number, key, draw.randbytes(8)),
        lambda: frames.map_lookup_elem(0, number, key),
        lambda: frames.map_delete_elem(0, number, key),
        lambda: frames.map_get_next_key(0, number, key),
        lambda: frames.prog_load(0, _SLOTS.replace(b"\3\0\0\0", bytes([number, 0, 0, 0]))),
        lambda: frames.prog_test_run(0, number),
        lambda: frames.close(0, number),
    ]
    return draw.choices(kinds, (2, 6, 5, 2, 2, 3, 6, 2))[0]()


class Said:
    """A customer of the simulator: its calls, and the replies of a host that serves only this customer."""

    def __init__(self, name: str, seed: str, poison: bool) -> None:
        self.name, self._draw, self._poison = name, random.Random(f"{seed} {name}"), poison
        self._alone = FakeHost()
        # The number of calls that were taken, and the next one, which may be taken.
        self.taken, self.next, self.calls = 0, self._new(), 0

    def _new(self) -> list[bytes]:
        return [frame_of(self._draw, self._poison) for _ in range(self._draw.randrange(1, 5))]

    def change(self) -> None:
        """Draws another next call."""
        self.next = self._new()

    def is_poison(self) -> bool:
        """Whether the next call ends a host."""
        return any(frame[20:24] == POISON for frame in self.next)

    def answered(self, replies: list[bytes] | None) -> None:
        """Notes the replies to the next call, or that it was not done."""
        if replies is not None:
            wanted = list(self._alone.ask_bytes(self.next))
            if replies != wanted:
                raise Differs(f"{self.name} is told {[one.hex() for one in replies]}, and alone {[one.hex() for one in wanted]}")
        self.taken, self.next, self.calls = self.taken + 1, self._new(), self.calls + 1


class Play:
    """One run."""

    def __init__(self, seed: int, seconds: float) -> None:
        self.world, self.counts, self._seconds = World(seed), Counter[str](), seconds
        self.network = Network(self.world, _BAD_WEATHER)
        self._draw = random.Random(f"faults {seed}")
        self.customers = [Said(f"customer-{number}", str(seed), number == 0) for number in range(CUSTOMERS)]
        self._workers: list[tuple[int, Process, Simulated]] = []
        self._asking: dict[str, Process] = {}
        self._keeping: list[asyncio.Task[None]] = []
        self._is_ending = False
        # In every other run the servers have a replica each, which takes over now and then.
        self._replicas = "?replicas=1" if seed % 2 else ""

    def run(self) -> None:
        """The whole run; raises Differs if anything is wrong."""
        try:
            keeper = Process("supervisor")
            for shard in range(SHARDS):
                self.world.start(keeper, self._supervise(shard))
            self._keeping = [self.world.start(keeper, self._keep_asking(said)) for said in self.customers]
            for run in (self._operate, self._move, self._do_faults):
                self.world.start(keeper, run())
            self.world.run(self._seconds)
            self._is_ending = True
            self.network.weather = Weather()
            self.world.run(self._seconds + _SECONDS_TO_SETTLE)
            self._compare()
        finally:
            self.world.end()

    async def _until_ended(self, process: Process, work: Coroutine[Any, Any, None]) -> None:
        """Begins work of a process, and waits until it has ended, or its process was killed."""
        task = self.world.start(process, work)
        while not self.world.has_ended(process, task):
            await asyncio.sleep(0.1)

    def _url(self, shard: int) -> str:
        return _server_of(shard) + self._replicas

    def _server(self, shard: int) -> Server:
        return self.network.server(_server_of(shard))

    # Workers, which are started again when they end.

    async def _supervise(self, shard: int) -> None:
        while True:
            process = Process(f"worker {shard}")
            machine = Simulated(self.network)
            self._workers.append((shard, process, machine))
            await self._until_ended(process, self._work(shard, machine))
            process.is_killed = True
            self._workers.remove((shard, process, machine))
            self.counts["workers"] += 1
            await asyncio.sleep(0.2)

    async def _work(self, shard: int, machine: Simulated) -> None:
        redis = Redis(self._url(shard), machine)
        directory = Redis(self._url(0), machine) if shard else None
        try:
            await Worker(redis, ShardKeys(shard), "none", SETTINGS, lambda said: self.world.tell(f"worker: {said}"), directory).serve()
        except (LeaseHeld, LeaseLost, RedisError) as error:
            self.world.tell(f"worker {shard} ends: {error}")

    # Customers, each in a process that dies now and then and is started again.

    async def _keep_asking(self, said: Said) -> None:
        while True:
            process = self._asking[said.name] = Process(said.name)
            await self._until_ended(process, self._ask(said, Simulated(self.network)))
            self.counts["customers"] += 1
            if self._is_ending and not process.is_killed:
                return

    async def _ask(self, said: Said, machine: Simulated) -> None:
        async with AsyncClient(self._url(0), system=machine) as client:
            customer = client.customer(said.name, 30.0, session="calls")
            await self._resume(said, await self._last(customer), customer.wait)
            while not self._is_ending:
                await asyncio.sleep(self.world.draw.random() * 0.2)
                ticket = await self._posted(customer, said)
                if ticket:
                    await self._wait(said, ticket, customer.wait)
                else:
                    self.counts["not taken"] += 1

    async def _posted(self, customer: AsyncCustomer, said: Said) -> Ticket | None:
        """Sends the next call; None if it is not taken, but the ticket if it is not known whether it was."""
        try:
            return await customer.post(b"".join(said.next))
        except NoReply as error:
            return error.ticket
        except NotTaken:
            return None

    async def _resume(self, said: Said, last: Ticket | None, wait: Callable[[Ticket], Work[list[bytes]]]) -> None:
        """Continues after the last process died: the call after those with replies was taken, or is sent again."""
        number = last.number if last else 0
        if number not in (said.taken, said.taken + 1):
            raise Differs(f"{said.name} has {number} calls taken, and was answered {said.taken}")
        if last and number == said.taken + 1:
            self.counts["resumed"] += 1
            await self._wait(said, last, wait)
        else:
            # What the last process sent is not taken any more, so this one may send something else.
            said.change()

    async def _wait(self, said: Said, ticket: Ticket, wait: Callable[[Ticket], Work[list[bytes]]]) -> None:
        while True:
            try:
                said.answered(await wait(ticket))
                return
            except NotTaken:
                return
            except NotDone:
                if not said.is_poison():
                    raise
                self.counts["skipped"] += 1
                said.answered(None)
                return
            except SetAside:
                self.counts["set aside"] += 1
                await asyncio.sleep(1.0)
            except NoReply:
                self.counts["no reply"] += 1

    async def _last(self, customer: AsyncCustomer) -> Ticket | None:
        while True:
            try:
                return await customer.last()
            except (NotTaken, RedisError):
                await asyncio.sleep(0.5)

    # An operator, who decides on what is set aside, and moves customers.

    async def _operate(self) -> None:
        async with AsyncClient(self._url(0), system=Simulated(self.network)) as client:
            while True:
                await asyncio.sleep(2.0)
                for said in self.customers:
                    try:
                        await self._decide(client, said)
                    except ShardError as error:
                        self.world.tell(f"operator: {error}")

    async def _decide(self, client: AsyncClient, said: Said) -> None:
        seat = await client.directory.seat(said.name)
        if seat is None:
            return
        redis, keys = await client.shard(seat.shard)
        kept = await redis.hget(keys.aside, seat.tenant)
        if kept is None:
            return
        if Aside.read(kept).kind != "entry":
            raise Differs(f"{said.name} is set aside: {Aside.read(kept).why}")
        await say(client, said.name, "skip" if said.is_poison() else "retry", 20.0)

    async def _move(self) -> None:
        while True:
            await asyncio.sleep(self._draw.random() * 6)
            process = Process("mover")
            task = self.world.start(process, self._move_one(Simulated(self.network)))
            if self._draw.random() < 0.4:
                await asyncio.sleep(self._draw.random() * 0.3)
                self.world.kill(process)
                self.counts["movers killed"] += 1
            while not self.world.has_ended(process, task):
                await asyncio.sleep(0.1)
            if self._is_ending:
                return

    async def _move_one(self, machine: Simulated) -> None:
        name = self._draw.choice(self.customers).name
        async with AsyncClient(self._url(0), system=machine) as client:
            try:
                if self._draw.random() < 0.2:
                    await moving.abort_move(client, name, 20.0)
                else:
                    await moving.move(client, name, None, 20.0)
                self.counts["moved"] += 1
            except (MoveError, NoReply, RedisError) as error:
                self.world.tell(f"mover: {error}")

    # Faults.

    async def _do_faults(self) -> None:
        kinds: dict[Callable[[], None], int] = {
            self._kill_worker: 6,
            self._pause_worker: 2,
            self._kill_host: 2,
            self._kill_customer: 5,
            self._away: 3,
            self._jump: 2,
        }
        if self._replicas:
            kinds[self._fail_over] = 3
        while not self._is_ending:
            await asyncio.sleep(self._draw.random() * 3)
            self._draw.choices(list(kinds), list(kinds.values()))[0]()

    def _kill_worker(self) -> None:
        self.world.kill(self._draw.choice(self._workers)[1])
        self.counts["kills"] += 1

    def _pause_worker(self) -> None:
        """Pauses a worker, so that another one that is started meanwhile has the lease when the first one goes on."""
        shard, process, _ = self._draw.choice(self._workers)
        process.paused_until = self.world.now + 1 + self._draw.random() * 4
        second = Process(f"second worker {shard}")
        machine = Simulated(self.network)
        self._workers.append((shard, second, machine))

        async def work() -> None:
            await self._until_ended(second, self._work(shard, machine))
            self._workers.remove((shard, second, machine))

        self.world.start(Process("supervisor"), work())
        self.counts["pauses"] += 1

    def _kill_host(self) -> None:
        for host in self._draw.choice(self._workers)[2].hosts:
            host.is_killed = True
        self.counts["hosts"] += 1

    def _kill_customer(self) -> None:
        self.world.kill(self._asking[self._draw.choice(self.customers).name])

    def _away(self) -> None:
        server = self._server(self._draw.randrange(SHARDS))
        server.away_until = self.world.now + self._draw.random() * 8
        self.counts["servers away"] += 1

    def _fail_over(self) -> None:
        self._server(self._draw.randrange(SHARDS)).fail_over()
        self.counts["failovers"] += 1

    def _jump(self) -> None:
        """The clock of a server jumps a day, and back."""
        server = self._server(self._draw.randrange(SHARDS))
        server.jumped = 0.0 if server.jumped else self._draw.choice((_DAY, -_DAY, 5.0))
        self.counts["jumps"] += 1

    # The end.

    def _compare(self) -> None:
        """All calls have replies, each entry has one, and no move is in progress."""
        for said in self.customers:
            self.counts["calls"] += said.calls
        if not all(task.done() for task in self._keeping):
            raise Differs("a customer waits for ever")
        moves = self._server(0).store.keys.get(b"bpfhost:{directory}:moves", {})
        if moves:
            raise Differs(f"moves do not end: {moves}")
        for shard in range(SHARDS):
            keys, store = ShardKeys(shard), self._server(shard).store.keys
            for tenant in range(64):
                asked, replied = (store.get(name(tenant).encode()) for name in (keys.frames, keys.replies))
                if asked and (replied is None or (asked.added, asked.last) != (replied.added, replied.last)):
                    raise Differs(f"tenant {tenant} of shard {shard} has {asked.added} entries up to {asked.last!r}")
                self.counts["entries"] += asked.added if asked else 0


def _server_of(shard: int) -> str:
    """The URL of the server of a shard, or of the directory."""
    return f"redis://shard-{shard}" if shard else DIRECTORY


def play(seed: int, seconds: float, tell: bool = False) -> Counter[str]:
    """A run by its seed; if anything is wrong, raises Differs, which names the seed."""
    played = Play(seed, seconds)
    try:
        played.run()
    except BaseException as error:
        print(*played.world.told[-40:], sep="\n")
        raise Differs(f"seed {seed}: {error}") from error
    if tell:
        print(*played.world.told, sep="\n")
    return played.counts


def main() -> int:
    """The command."""
    parser = argparse.ArgumentParser(description="Plays shards in the simulator.")
    parser.add_argument("--seed", type=int, default=1)
    parser.add_argument("--runs", type=int, default=1, help="so many seeds, from this one on")
    parser.add_argument("--seconds", type=float, default=60.0, help="of the simulator's clock")
    parser.add_argument("--tell", action="store_true", help="what happened")
    said = parser.parse_args()
    counts = Counter[str]()
    for seed in range(said.seed, said.seed + said.runs):
        counts.update(play(seed, said.seconds, said.tell))
    print(", ".join(f"{many:,} {what}" for what, many in sorted(counts.items())))
    return 0


if __name__ == "__main__":
    sys.exit(main())
