"""A host for asyncio: the same frames, and the event loop never blocks.

    async with AsyncHost() as host:
        tenant = host.tenant()
        program = await tenant.prog_load(assemble(host.program, "r0 = 1\\nexit\\n"))
        results = await asyncio.gather(*(program.run(packet) for packet in packets))

A second thread talks to the program through a `Host`. Calls that come while it waits are sent as one batch. A cancelled call is still
executed; only its reply is dropped.
"""

from __future__ import annotations

import asyncio
import queue
import threading
from collections.abc import Callable, Iterable
from dataclasses import dataclass, field
from types import TracebackType
from typing import TypeVar

from bpfhost import frames
from bpfhost.errors import HostError, Refused
from bpfhost.frames import NO_CONTEXT, Context
from bpfhost.host import Host
from bpfhost.numbers import Errno, MapType, Update
from bpfhost.packets import Packets
from bpfhost.program import MapShape, Program
from bpfhost.replies import Reply
from bpfhost.tenant import answered

Answer = TypeVar("Answer")

# The most calls that are taken from the queue at once.
_MOST_AT_ONCE = 4096


@dataclass
class _Asked:
    """A frame, or a call with the host, and the future that gets its result."""

    what: bytes | Callable[[Host], object]
    loop: asyncio.AbstractEventLoop
    future: asyncio.Future[object] = field(init=False)

    def __post_init__(self) -> None:
        self.future = self.loop.create_future()

    def tell(self, answer: object, error: Exception | None = None) -> None:
        """Sets the future's result from any thread."""
        self.loop.call_soon_threadsafe(self._settle, answer, error)

    def _settle(self, answer: object, error: Exception | None) -> None:
        if self.future.done():
            return
        if error is None:
            self.future.set_result(answer)
        else:
            self.future.set_exception(error)


class AsyncHost:
    """A running `bpfhost serve`, as an async context manager that ends the program on exit. Raises the same errors as `Host`."""

    def __init__(self, program: Program | None = None, tenants: int = 1) -> None:
        """Starts the program, as `Host` does."""
        self._host = Host(program, tenants)
        self.program, self.tenants = self._host.program, tenants
        self._asked: queue.SimpleQueue[_Asked | None] = queue.SimpleQueue()
        self._is_open = True
        self._thread = threading.Thread(target=self._answer, daemon=True)
        self._thread.start()

    async def __aenter__(self) -> AsyncHost:
        return self

    async def __aexit__(self, kind: type[BaseException] | None, _value: BaseException | None, _trace: TracebackType | None) -> None:
        await self.close(is_killed=kind is not None)

    def __repr__(self) -> str:
        return f"<AsyncHost of {self._host!r}>"

    def tenant(self, number: int = 0) -> AsyncTenant:
        """The tenant of this number. Raises ValueError if the host does not serve it."""
        return AsyncTenant(self, self._host.tenant(number).number)

    async def ask(self, frame: bytes) -> Reply:
        """Sends a whole frame and waits for its reply."""
        if len(frame) < 4 or int.from_bytes(frame[:4], "little") != len(frame) - 4:
            raise ValueError(f"{len(frame)} bytes are not a whole frame")
        reply = await self._put(frame)
        assert isinstance(reply, Reply)
        return reply

    async def call(self, function: Callable[[Host], Answer]) -> Answer:
        """Calls a function with the blocking host, between two batches of frames."""
        return await self._put(function)  # type: ignore[return-value]

    async def _put(self, what: bytes | Callable[[Host], object]) -> object:
        if not self._is_open:
            raise HostError("bpfhost serve was ended before this frame")
        asked = _Asked(what, asyncio.get_running_loop())
        self._asked.put(asked)
        return await asked.future

    async def close(self, is_killed: bool = False) -> None:
        """Ends the program after all calls made so far. Raises HostError if its status is not 0."""
        if self._is_open:
            self._is_open = False
            self._asked.put(None)
            await asyncio.to_thread(self._thread.join)
            await asyncio.to_thread(self._host.kill if is_killed else self._host.close)

    def _answer(self) -> None:
        """Runs in the thread: takes as many calls as there are, and hands on their results."""
        goes_on = True
        while goes_on:
            batch: list[_Asked] = []
            first = self._asked.get()
            while first is not None:
                batch.append(first)
                if len(batch) == _MOST_AT_ONCE or self._asked.empty():
                    break
                first = self._asked.get()
            goes_on = first is not None
            self._answer_all(batch)

    def _answer_all(self, batch: list[_Asked]) -> None:
        sent: list[_Asked] = []
        for asked in batch:
            if isinstance(asked.what, bytes):
                sent.append(asked)
                continue
            self._answer_frames(sent)
            sent = []
            try:
                asked.tell(asked.what(self._host))
            except Exception as error:
                asked.tell(None, error)
        self._answer_frames(sent)

    def _answer_frames(self, sent: list[_Asked]) -> None:
        left = iter(sent)
        try:
            for reply in self._host.ask_all([asked.what for asked in sent if isinstance(asked.what, bytes)]):
                next(left).tell(reply)
        except Exception as error:
            for asked in left:
                asked.tell(None, error)


class AsyncTenant:
    """One tenant. Each command that the host refuses raises Refused, as with `Tenant`."""

    def __init__(self, host: AsyncHost, number: int) -> None:
        self.host = host
        self.number = number

    def __repr__(self) -> str:
        return f"<AsyncTenant {self.number} of {self.host!r}>"

    async def map_create(self, map_type: MapType, key_size: int, value_size: int, max_entries: int) -> AsyncMap:
        """Creates a map; sizes are in bytes."""
        made = await self._done(frames.map_create(self.number, map_type, key_size, value_size, max_entries))
        return AsyncMap(self, made.status, MapShape(map_type, key_size, value_size, max_entries))

    async def prog_load(self, slots: bytes, name: str = "") -> AsyncProg:
        """Loads a socket filter. Raises ProgramRefused, with the slot and the reason, if the verifier rejects it."""
        return AsyncProg(self, (await self._done(frames.prog_load(self.number, slots))).status, name)

    async def prog_test_run(self, descriptor: int, packet: bytes = b"", context: Context = NO_CONTEXT) -> int:
        """Runs a program on a packet and returns its result."""
        return (await self._done(frames.prog_test_run(self.number, descriptor, packet, context))).result()

    async def close(self, descriptor: int) -> None:
        """Closes a descriptor of a map or of a program."""
        await self._done(frames.close(self.number, descriptor))

    async def done(self, frame: bytes) -> Reply:
        """The reply to a frame of this tenant. Raises Refused if the host refuses the command."""
        return await self._done(frame)

    async def _done(self, frame: bytes) -> Reply:
        return answered(frame, await self.host.ask(frame))


@dataclass(frozen=True)
class AsyncProg:
    """A loaded program, by its descriptor."""

    tenant: AsyncTenant
    descriptor: int
    name: str = ""

    async def run(self, packet: bytes = b"", context: Context = NO_CONTEXT) -> int:
        """Runs the program on a packet and returns its result."""
        return await self.tenant.prog_test_run(self.descriptor, packet, context)

    async def runs(self, packets: Packets | Iterable[bytes]) -> list[int]:
        """Runs the program on many packets in one call and returns the results in order."""
        whole = packets if isinstance(packets, Packets) else Packets.of(packets)
        tenant, descriptor = self.tenant.number, self.descriptor

        def run(host: Host) -> list[int]:
            return [result for results in host.tenant(tenant).prog_test_runs(descriptor, [whole]) for result in results]

        return await self.tenant.host.call(run)

    async def close(self) -> None:
        """Closes the descriptor."""
        await self.tenant.close(self.descriptor)


@dataclass(frozen=True)
class AsyncMap:
    """A map that a descriptor names. Raises ValueError for a key or a value that has not the map's size."""

    tenant: AsyncTenant
    descriptor: int
    shape: MapShape

    async def get(self, key: bytes) -> bytes | None:
        """The value of a key, or None if the map does not have the key."""
        try:
            return (await self.tenant.done(frames.map_lookup_elem(self.tenant.number, self.descriptor, self._right(key)))).payload
        except Refused as refused:
            if refused.has(Errno.ENOENT):
                return None
            raise

    async def put(self, key: bytes, value: bytes, flags: Update = Update.ANY) -> None:
        """Sets the value of a key."""
        if len(value) != self.shape.value_size:
            raise ValueError(f"this map has values of {self.shape.value_size} bytes, and not of {len(value)}")
        await self.tenant.done(frames.map_update_elem(self.tenant.number, self.descriptor, self._right(key), value, flags))

    async def delete(self, key: bytes) -> bool:
        """Deletes a key of a hash map; returns whether the map had it."""
        try:
            await self.tenant.done(frames.map_delete_elem(self.tenant.number, self.descriptor, self._right(key)))
        except Refused as refused:
            if refused.has(Errno.ENOENT):
                return False
            raise
        return True

    async def entries(self) -> list[tuple[bytes, bytes]]:
        """All keys with their values, in the host's order."""
        from bpfhost.maps import Map

        tenant, descriptor, shape = self.tenant.number, self.descriptor, self.shape
        return await self.tenant.host.call(lambda host: Map(host.tenant(tenant), descriptor, shape).entries())

    async def close(self) -> None:
        """Closes the descriptor."""
        await self.tenant.close(self.descriptor)

    def _right(self, key: bytes) -> bytes:
        if len(key) != self.shape.key_size:
            raise ValueError(f"this map has keys of {self.shape.key_size} bytes, and not of {len(key)}")
        return key
