"""The network and the machines of the simulator: chance decides what happens to each call of Redis."""

from __future__ import annotations

import asyncio
import contextlib
from collections.abc import Callable, Sequence
from dataclasses import dataclass
from typing import Any, cast

from bpfhost.host import Host
from bpfhost.program import Program
from bpfhost.shards.errors import Away, RedisError
from bpfhost.shards.link import RedisLink, Word
from bpfhost.shards.system import System
from tests.shards.simulator.host import FakeHost
from tests.shards.simulator.server import Scripts, Store, encoded
from tests.shards.simulator.world import World


@dataclass
class Weather:
    """How likely a call is lost before the server has it, or its reply is lost, or the call comes late; and how long a way takes at most."""

    lost: float = 0.0
    unanswered: float = 0.0
    late: float = 0.0
    seconds: float = 0.002
    seconds_late: float = 20.0


class Server:
    """A server of Redis, which is away for a while now and then, and whose clock may jump."""

    def __init__(self, world: World, scripts: Scripts) -> None:
        self._world, self._scripts = world, scripts
        self.store = Store()
        self.away_until = 0.0
        # How often a replica took over: each time connections are cut, and the server reports another history.
        self.failovers = 0
        self.jumped = 0.0
        # Those who wait for a write.
        self._waiting: dict[asyncio.Future[None], None] = {}
        self.store.on_write = self._wake

    def _wake(self) -> None:
        for one in list(self._waiting):
            if not one.done():
                one.set_result(None)

    async def written(self, seconds: float) -> None:
        """Waits for the next write, at most so many seconds."""
        waits = asyncio.get_running_loop().create_future()
        self._waiting[waits] = None
        try:
            with contextlib.suppress(TimeoutError):
                async with asyncio.timeout(seconds):
                    await waits
        finally:
            del self._waiting[waits]

    def do(self, words: Sequence[Word]) -> Any:
        """The server's reply; raises Away if it is away."""
        if self._world.now < self.away_until:
            raise Away("the server is away")
        if list(words) == ["INFO", "replication"]:
            return f"master_replid:{self.failovers}\r\n".encode()
        self.store.milliseconds = 1_000_000 + int((self._world.now + self.jumped) * 1000)
        if words[0] in ("EVALSHA", "EVAL"):
            return self._scripts.run(self.store, words)
        return self.store.do(words)


    def fail_over(self) -> None:
        """A replica takes over, which lacks the writes that no reply to WAIT confirms."""
        self.store.fail_over()
        self.failovers += 1
        self._wake()


class Network:
    """The servers by their URLs, and the faults on the way to them."""

    def __init__(self, world: World, weather: Weather) -> None:
        self.world, self.weather = world, weather
        scripts = Scripts()
        self.servers: dict[str, Server] = {}
        self._make: Callable[[], Server] = lambda: Server(world, scripts)

    def server(self, url: str) -> Server:
        """The server of a URL."""
        if url not in self.servers:
            self.servers[url] = self._make()
        return self.servers[url]


class SimulatedLink:
    """A connection of a process. The server runs commands in the order in which they were begun."""

    is_over = is_checked = False

    def __init__(self, network: Network, url: str) -> None:
        self.network, self._server = network, network.server(url)
        self._failovers = self._server.failovers
        # How much the server had written after this connection's last write: what WAIT waits for.
        self._written = 0
        self._order = asyncio.Lock()

    def _do(self, words: Sequence[Word]) -> Any:
        store = self._server.store
        if words[0] == "WAIT":
            store.is_replicated = True
            store.replicas_have(self._written)
            return words[1]
        before, answer = store.written, self._server.do(words)
        if store.written > before:
            self._written = store.written
        return answer

    def _demand_connection(self) -> None:
        if self._failovers != self._server.failovers:
            self._failovers, self._written = self._server.failovers, 0
            raise Away("the connection was cut, as another server took over")

    def cut(self) -> None:
        """Ends it: what is begun next waits for nothing that was begun before."""
        self._order = asyncio.Lock()

    def begin(self, words: Sequence[Word], seconds: float) -> asyncio.Future[Any]:
        """The reply to a command, or the error if it fails."""
        return asyncio.create_task(self._call(words, seconds))

    async def _call(self, words: Sequence[Word], seconds: float) -> Any:
        world, weather, draw = self.network.world, self.network.weather, self.network.world.draw
        deadline, chance = world.now + seconds, draw.random()
        async with self._order:
            await asyncio.sleep(draw.random() * weather.seconds)
            self._demand_connection()
            if chance < weather.lost:
                raise Away("the connection was cut")
            if chance < weather.lost + weather.late:
                # It was in transit when the connection was cut, and the server gets it later.
                failovers = self._server.failovers
                world.later(draw.random() * weather.seconds_late, lambda: self._late(words, failovers))
                raise Away("the connection was cut, and the call comes late")
            answer = await self._block(words, deadline) if "BLOCK" in words else self._do(words)
        if chance < weather.lost + weather.late + weather.unanswered:
            raise Away("the answer was lost")
        await asyncio.sleep(draw.random() * weather.seconds)
        self._demand_connection()
        return answer

    def _late(self, words: Sequence[Word], failovers: int) -> None:
        if failovers != self._server.failovers:
            return
        try:
            self._server.do(words)
        except RedisError:
            pass

    async def _block(self, words: Sequence[Word], deadline: float) -> Any:
        """Repeats the call until there is something, like a server that blocks."""
        world, server = self.network.world, self._server
        at = list(words).index("BLOCK")
        until = min(deadline, world.now + float(str(words[at + 1])) / 1000)
        asked = encoded([*words[:at], *words[at + 2 :]])
        while True:
            self._demand_connection()
            found = server.do(asked)
            if found or world.now >= until:
                return found
            await server.written(until - world.now)


class Simulated(System):
    """The machine of a process: its clock began at another time than those of others."""

    def __init__(self, network: Network) -> None:
        self._network, self.world = network, network.world
        self._began = self.world.draw.random() * 1000
        self.hosts: list[FakeHost] = []

    def now(self) -> float:
        return self.world.now + self._began

    def link(self, kind: type[RedisLink], words: dict[str, Any]) -> RedisLink:
        return cast(RedisLink, SimulatedLink(self._network, f"redis://{words['host']}"))

    def host(self, program: Program, tenants: int) -> Host:
        self.hosts.append(FakeHost())
        return cast(Host, self.hosts[-1])

    def fresh(self) -> str:
        return self.world.fresh()
