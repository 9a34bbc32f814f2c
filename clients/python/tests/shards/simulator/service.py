"""A service in the simulator: workers, a gateway, and customers that send bytes to it."""

from __future__ import annotations

import asyncio
import json
from collections.abc import Callable, Coroutine
from pathlib import Path
from typing import Any

from bpfhost.shards import Settings, ShardKeys, Worker
from bpfhost.shards.connection import Redis
from bpfhost.shards.errors import ShardError
from bpfhost.shards.gateway.connection import Connection
from bpfhost.shards.gateway.customers import hash_of
from bpfhost.shards.gateway.limits import GatewayLimits
from bpfhost.shards.gateway.protocol import GATEWAY, Why, Word, hello
from bpfhost.shards.gateway.server import Gateway
from tests.shards.simulator.network import Network, Simulated, Weather
from tests.shards.simulator.wire import End, connected
from tests.shards.simulator.world import Process, World

DIRECTORY = "redis://directory"
LEASE = 5.0


class Service:
    """Shards with their workers, and a gateway, all on one clock."""

    def __init__(self, folder: Path, shards: int = 1, limits: GatewayLimits = GatewayLimits(), text: str = "", gateways: int = 1) -> None:
        """The text of the file of customers; and how many gateways there are."""
        self.world = World(1)
        self.network = Network(self.world, Weather(seconds=0.0005))
        self.workers: dict[int, tuple[Process, Worker]] = {}
        self.file, self.told = folder / "customers.toml", list[str]()
        self.file.write_text(text)
        for shard in range(shards):
            self.begin_worker(shard)
        self._own = Process("gateway")
        self.gateways = [self._gateway(limits) for _ in range(gateways)]
        self.gateway, self.customers = self.gateways[0], Process("customers")

    def _gateway(self, limits: GatewayLimits) -> Gateway:
        made = Gateway(DIRECTORY, self.file, limits, tell=self.told.append, system=Simulated(self.network))
        self.world.start(self._own, made.look())
        return made

    def url(self, shard: int) -> str:
        """The Redis of a shard."""
        return f"redis://shard-{shard}" if shard else DIRECTORY

    def begin_worker(self, shard: int) -> None:
        """A worker of a shard."""
        process, machine = Process(f"worker {shard}"), Simulated(self.network)
        directory = Redis(DIRECTORY, machine) if shard else None
        worker = Worker(Redis(self.url(shard), machine), ShardKeys(shard), "none", Settings(LEASE), self.world.tell, directory)
        self.workers[shard] = process, worker
        self.world.start(process, self._work(worker))

    async def _work(self, worker: Worker) -> None:
        try:
            await worker.serve()
        except ShardError as error:
            self.world.tell(f"worker: {error}")

    def do(self, work: Callable[[], Coroutine[Any, Any, None]], seconds: float = 1000.0) -> None:
        """Does something as customers, and lets the clock go on until it is done."""
        task = self.world.start(self.customers, work())
        until = self.world.now + seconds
        while not task.done():
            assert self.world.now < until, "it is never done"
            self.world.run(self.world.now + 0.05)

    def connect(self, address: str = "10.0.0.1", gateway: int = 0) -> Caller:
        """A connection of a customer; closed at once if the gateway does not admit it."""
        own, others = connected(self.world.loop)
        if self.gateways[gateway].admit(address):
            self.world.start(self._own, self._serve(self.gateways[gateway], others, address))
        else:
            others.abort()
        return Caller(own, others)

    async def _serve(self, gateway: Gateway, end: End, address: str) -> None:
        gateway.begin(Connection(gateway, end.reader, end.writer, address).run(), address)

    def end(self) -> None:
        """Ends all."""
        self.world.end()


class Ended(Exception):
    """The gateway has ended the connection, and why."""

    def __init__(self, why: Why | None, sentence: str) -> None:
        super().__init__(sentence)
        self.why = why


class Caller:
    """A customer's connection."""

    def __init__(self, end: End, others: End) -> None:
        self.end, self.others = end, others

    async def greet(self, token: str, session: str | None = None, answered: int = 0) -> dict[str, Any]:
        """Says who the customer is, and returns what the gateway says."""
        self.end.write(hello(token, session, answered))
        said: dict[str, Any] = json.loads((await self.frame())[12:])
        return said

    async def frame(self) -> bytes:
        """The next frame; raises Ended if it is the last one, and ConnectionError or IncompleteReadError at the end."""
        head = await self.end.reader.readexactly(4)
        body = await self.end.reader.readexactly(int.from_bytes(head, "little"))
        if body[:4] == GATEWAY.to_bytes(2, "little") + Word.END.to_bytes(2, "little"):
            status = int.from_bytes(body[4:8], "little", signed=True)
            raise Ended(Why(-status), json.loads(body[8:])["why"])
        return head + body

    async def ask(self, frames: bytes, many: int = 1) -> list[bytes]:
        """Sends frames, and returns so many replies."""
        self.end.write(frames)
        return [await self.frame() for _ in range(many)]


def customers(*names: str, more: str = "") -> str:
    """The text of a file of customers, whose tokens are their names."""
    return "".join(f'[customers.{name}]\ntoken-sha256 = "{hash_of(name)}"\n{more}' for name in names)


async def quietly(work: Coroutine[Any, Any, object]) -> None:
    """Does something that may end with its connection."""
    try:
        await work
    except (Ended, ConnectionError, asyncio.IncompleteReadError):
        pass
