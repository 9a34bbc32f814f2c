"""Shared by the tests of shards: a Redis for each test, and workers in threads."""

from __future__ import annotations

import threading
import time
import unittest
import warnings
from collections.abc import AsyncIterator, Callable, Sequence
from typing import Concatenate, ParamSpec, TypeVar

from bpfhost import MapType, frames
from bpfhost.alike import packed, size_of_alike
from bpfhost.shards import Client, Settings, ShardKeys, Worker
from bpfhost.shards.calls import Call
from bpfhost.shards import operating
from bpfhost.shards.client import AsyncClient
from bpfhost.shards.connection import Redis
from bpfhost.shards.directory import Seat, register
from bpfhost.shards.metrics import Told
from bpfhost.shards.system import Work
from tests.common import PROGRAM, HostTest
from tests.shards import blocking_redis
from tests.shards.blocking_redis import shard_of
from tests.shards.redis_server import RedisServer, missing

# A customer creates a map, looks a key up there, and updates it with a number.
CREATE = frames.map_create(0, MapType.HASH, 4, 8, 16)
LOOK_UP = frames.map_lookup_elem(0, 3, b"key1")

Given = ParamSpec("Given")
Answer = TypeVar("Answer")

_WHY = missing()
SECONDS = 3.0
SETTINGS = Settings(lease_seconds=SECONDS)


def put(value: int) -> bytes:
    """The frame of this update."""
    return frames.map_update_elem(0, 3, b"key1", value.to_bytes(8, "little"))


def all_steps(work: Work[Answer]) -> Answer:
    """The result of work that waits for nothing but its next step."""
    while True:
        try:
            work.send(None)
        except StopIteration as end:
            done: Answer = end.value
            return done


async def no_history() -> AsyncIterator[list[tuple[bytes, bytes]]]:
    """No frames since the last snapshot."""
    return
    yield []


def call_of(entry: bytes, tenant: int, frames: Sequence[bytes], packs: bool = False) -> Call:
    """A call of frames, whatever their number is; packed, if asked for and possible."""
    stream = b"".join(frames)
    if packs and len({frame[:8] for frame in frames}) == 1 and (runs := packed(stream, len(frames[0]))):
        return Call(entry, tenant, runs, len(frames), len(frames[0]), True)
    return Call(entry, tenant, stream, len(frames), size_of_alike(stream))


def did(
    client: Client, call: Callable[Concatenate[AsyncClient, Given], Work[Answer]], *args: Given.args, **words: Given.kwargs
) -> Answer:
    """The result of a function for an asynchronous client."""
    return client.loop.run(call(client.aio, *args, **words))


def shown(client: Client) -> str:
    """What an operator sees of all shards, moves and customers."""
    return "\n".join(operating.lines(did(client, operating.look)))


def counted(told: Told, name: str, **labels: str) -> float:
    """The value of a metric; 0 if nothing is counted."""
    return (told.registry and told.registry.get_sample_value(name, labels)) or 0.0


async def drained(client: AsyncClient, shard: int, seconds: float) -> list[tuple[str, Seat]]:
    """The customers that were moved away from a shard."""
    return [one async for one in operating.drain(client, shard, seconds)]


def registered(redis: blocking_redis.Redis, keys: ShardKeys, client: Client, server: str = "") -> bytes:
    """Registers a shard."""
    return redis.loop.run(register(redis.aio, keys, client.aio.directory, server))


class WorkerThread:
    """A worker in a thread; `error` is what it ended with."""

    def __init__(
        self, url: str, shard: int, settings: Settings = SETTINGS, program: str = PROGRAM, directory: str | None = None
    ) -> None:
        self.told: list[str] = []
        self.error: Exception | None = None
        self._stopped = threading.Event()
        other = Redis(directory) if directory else None
        self.worker = Worker(Redis(url), ShardKeys(shard), program, settings, self.told.append, other)
        self._thread = threading.Thread(target=self._run, daemon=True)
        self._thread.start()

    def _run(self) -> None:
        try:
            self.worker.run(self._stopped.is_set)
        except Exception as error:
            self.error = error

    def wait(self) -> None:
        """Waits until it serves and is offered; raises what it ended with."""
        until = time.monotonic() + 60
        while not self.serves():
            if not self._thread.is_alive():
                raise self.error or AssertionError("the worker has ended, and did not serve")
            assert time.monotonic() < until, self.told
            time.sleep(0.005)

    def serves(self) -> bool:
        """Whether it has logged that it serves."""
        return any("is served, from" in sentence for sentence in self.told)

    def stop(self) -> None:
        """Ends the worker."""
        self._stopped.set()
        self.join()

    def join(self) -> None:
        """Waits until it ends."""
        self._thread.join(60)
        assert not self._thread.is_alive()


@unittest.skipIf(_WHY is not None, _WHY or "")
class ShardTest(HostTest):
    """A test with a Redis, a client, and workers."""

    def setUp(self) -> None:
        super().setUp()
        # The library does not close a socket that can't connect.
        warnings.filterwarnings("ignore", "unclosed <socket", ResourceWarning)
        self.server = RedisServer(self.scratch)
        self.addCleanup(self.server.kill)
        self.client = Client(self.server.url)
        self.addCleanup(self.client.close)

    def shard(self, number: int, settings: Settings = SETTINGS) -> WorkerThread:
        """The worker of a shard, which serves it."""
        worker = WorkerThread(self.server.url, number, settings)
        self.addCleanup(worker.stop)
        worker.wait()
        return worker

    def empty_shard(self, number: int) -> tuple[blocking_redis.Redis, ShardKeys]:
        """A shard of the directory that nobody serves any more, but that is still offered."""
        redis, keys = shard_of(self.client, number)
        name = registered(redis, keys, self.client)
        self.client.directory.beat(number, name)
        return redis, keys

    def until(self, holds: Callable[[], bool], what: str = "it never comes") -> None:
        """Waits until something holds."""
        end = time.monotonic() + 60
        while not holds():
            self.assertLess(time.monotonic(), end, what)
            time.sleep(0.01)
