"""A gateway: the addresses it listens at, the customers it admits, and how it ends."""

from __future__ import annotations

import asyncio
import contextlib
import ctypes
import os
import socket
import ssl
import stat
from collections import Counter
from collections.abc import Callable, Coroutine, Mapping
from dataclasses import dataclass
from pathlib import Path
from typing import Any

from bpfhost.shards.client import AsyncClient
from bpfhost.shards.errors import ShardError
from bpfhost.shards.gateway.connection import Connection
from bpfhost.shards.gateway.customers import Customers, Known
from bpfhost.shards.gateway.limits import Addresses, GatewayLimits, Rate, Unread, network_of, subtract
from bpfhost.shards.gateway.protocol import Refusal, Why
from bpfhost.shards.gateway.sharing import SECONDS, Sharing
from bpfhost.shards.metrics import GATEWAY, Numbers, Told
from bpfhost.shards.names import PREFIX
from bpfhost.shards.system import MACHINE, System

# So many connections wait in the system until the gateway accepts them.
_BACKLOG = 1024
_READ_LIMIT = 1 << 16
# At its end the gateway waits so long for calls in progress.
SECONDS_TO_DRAIN = 30.0
_PAUSE, _SECONDS_TO_TELL = 0.05, 10.0


@dataclass(frozen=True)
class Tls:
    """The files of the gateway's certificate, its key, and the authority that signs the customers' certificates."""

    certificate: Path
    key: Path
    clients: Path | None = None

    def context(self) -> ssl.SSLContext:
        """The context for TLS; raises ShardError if a file is no certificate or key."""
        context = ssl.create_default_context(ssl.Purpose.CLIENT_AUTH)
        context.minimum_version = ssl.TLSVersion.TLSv1_2
        try:
            context.load_cert_chain(self.certificate, self.key)
            if self.clients:
                context.load_verify_locations(self.clients)
                context.verify_mode = ssl.CERT_OPTIONAL
        except (OSError, ssl.SSLError) as error:
            files = ", ".join(str(file) for file in (self.certificate, self.key, self.clients) if file)
            raise ShardError(f"a certificate or a key of the gateway can't be read: {files}: {error.strerror or error}") from None
        return context


class Gateway:
    """Accepts customers, and enforces their limits."""

    def __init__(
        self, url: str | None, customers: Path, limits: GatewayLimits = GatewayLimits(), prefix: str = PREFIX,
        tell: Callable[[str], None] = print, system: System = MACHINE,
    ) -> None:
        """The directory's Redis, by its URL, and the file of customers."""
        self.limits, self._file, self._tell = limits, customers, tell
        self.customers = Customers(customers)
        self.client = AsyncClient(url, prefix, system)
        self.told = Told(GATEWAY, self._numbers)
        self.unread: Unread[Connection] = Unread(limits.bytes_of_customer, limits.bytes_of_shard, self._end_unread)
        self.addresses, self.sharing = Addresses(limits), Sharing(self.client)
        self.connections: dict[Connection, str] = {}
        self._of: Counter[str] = Counter()
        self._sessions: dict[tuple[str, str], Connection] = {}
        # The rates of frames and of bytes of each customer, whichever connections it has.
        self._rates: dict[str, tuple[Rate, Rate]] = {}
        # Of whom it was last reported, and when, that no customer is known by what it says; and how many were not reported since.
        self._strangers: dict[str, tuple[float, int]] = {}
        # Connections whose customer is not known yet, the oldest first.
        self._unknown: dict[asyncio.Task[None], str] = {}
        self._tasks: set[asyncio.Task[None]] = set()
        self._listening: list[asyncio.Task[None]] = []
        self._new = Rate(limits.new, system.now())
        self.is_ending = False
        self._has_left = False
        self._redis_says = "was not asked yet"

    # Listening.

    async def listen(self, address: str, tls: Tls | None = None) -> str:
        """Listens at `host:port`, or at `unix:PATH`, and returns the address; raises ShardError if it can't."""
        context = tls.context() if tls else None
        try:
            listening = _bound(address)
            listening.listen(_BACKLOG)
        except (OSError, ValueError) as error:
            raise ShardError(f"the gateway can't listen at {address}: {getattr(error, 'strerror', None) or error}") from None
        listening.setblocking(False)
        self._listening.append(asyncio.create_task(self._accept(listening, context)))
        return address if listening.family == socket.AF_UNIX else "{}:{}".format(*listening.getsockname()[:2])

    async def _accept(self, listening: socket.socket, tls: ssl.SSLContext | None) -> None:
        loop = asyncio.get_running_loop()
        with listening:
            while True:
                try:
                    made, peer = await loop.sock_accept(listening)
                except OSError as error:
                    # No descriptor is free, or the customer has closed the connection already.
                    self._tell(f"the gateway can't take a connection: {error.strerror or error}")
                    await asyncio.sleep(_PAUSE)
                    continue
                address = network_of(peer)
                if not self.admit(address):
                    made.close()
                    continue
                self.begin(self._serve(made, tls, address), address)
                await asyncio.sleep(self._new.take(1, self.client.system.now()))

    def admit(self, address: str) -> bool:
        """Whether another connection may come from an address."""
        admits = self.addresses.admit(address, self.client.system.now())
        if not admits:
            self.told.add("bpfhost_gateway_refusals_total", label="address")
        return admits

    def begin(self, serves: Coroutine[Any, Any, None], address: str) -> asyncio.Task[None]:
        """Begins to serve a connection from an address; if there are too many whose customer is not known, the oldest of them is ended."""
        self.told.add("bpfhost_gateway_new_connections_total")
        task = asyncio.create_task(serves)
        self._tasks.add(task)
        self._unknown[task] = address
        self.addresses.unknown[address] += 1
        task.add_done_callback(self._done)
        if len(self._unknown) > self.limits.unknown:
            first = next(iter(self._unknown))
            self._is_known(first)
            first.cancel()
        return task

    def _is_known(self, task: asyncio.Task[Any] | None) -> None:
        """Notes that the customer of a connection is known, or that it ends."""
        if task in self._unknown:
            subtract(self.addresses.unknown, self._unknown.pop(task))

    def _done(self, task: asyncio.Task[None]) -> None:
        self._tasks.discard(task)
        self._is_known(task)
        if not task.cancelled() and (error := task.exception()):
            self._tell(f"the gateway ended a connection: {error!r}")

    async def _serve(self, made: socket.socket, tls: ssl.SSLContext | None, address: str) -> None:
        loop = asyncio.get_running_loop()
        reader = asyncio.StreamReader(limit=_READ_LIMIT)
        protocol = asyncio.StreamReaderProtocol(reader)
        seconds = self.limits.seconds_silent if tls else None
        try:
            transport, _ = await loop.connect_accepted_socket(lambda: protocol, made, ssl=tls, ssl_handshake_timeout=seconds)
        except (OSError, ssl.SSLError, asyncio.CancelledError):
            made.close()
            return
        await Connection(self, reader, asyncio.StreamWriter(transport, protocol, reader, loop), address).run()

    # Connections.

    def who(self, token: str | None, certificate: Mapping[str, Any] | None, address: str) -> Known:
        """The customer with a token or a certificate; raises Refusal if there is none, which is logged with the address."""
        try:
            return self.customers.of(token, certificate)
        except Refusal as refusal:
            now = self.client.system.now()
            then, many = self._strangers.get(address, (now - _SECONDS_TO_TELL, 0))
            if now >= then + _SECONDS_TO_TELL:
                more = f", and {many} times since that was said last" if many else ""
                self._tell(f"the gateway refuses a connection from {address or 'a Unix socket'}: {refusal}{more}")
                then, many = now, -1
                self._strangers = {one: said for one, said in self._strangers.items() if said[0] > now - _SECONDS_TO_TELL}
            self._strangers[address] = then, many + 1
            raise

    def came(self, known: Known, session: str | None, connection: Connection) -> None:
        """Notes a customer's connection; raises Refusal if there are too many."""
        if self.is_ending:
            raise Refusal(Why.ENDS, "the gateway ends")
        if len(self.connections) >= self.limits.connections:
            raise Refusal(Why.AGAIN, f"the gateway has {self.limits.connections} connections, and takes no more")
        before = self._sessions.get((known.name, session)) if session else None
        if before:
            # The one before counts until it is closed: that is now, if there is no room for both.
            is_full = self._of[known.name] + self.sharing.connections[known.name] >= known.limits.connections
            before.end(Refusal(Why.PASSED, f"another connection goes on with session {session}"), at_once=is_full)
        if self._of[known.name] + self.sharing.connections[known.name] >= known.limits.connections:
            raise Refusal(Why.AGAIN, f"customer {known.name} has {known.limits.connections} connections, and may have no more")
        self.connections[connection] = known.name
        self._of[known.name] += 1
        if session:
            self._sessions[known.name, session] = connection
        self._is_known(asyncio.current_task())

    def left(self, known: Known, session: str | None, connection: Connection) -> None:
        """Notes that a connection has ended."""
        self._has_left = True
        del self.connections[connection]
        subtract(self._of, known.name)
        if session and self._sessions.get((known.name, session)) is connection:
            del self._sessions[known.name, session]

    def rates(self, known: Known) -> tuple[float, float]:
        """The frames and the bytes that a customer may send to this gateway in a second."""
        part = self.sharing.part(known.name)
        return known.limits.frames * part, known.limits.bytes * part

    async def wait_for_rate(self, known: Known, frames: int, size: int) -> None:
        """Waits until a customer may send so much, by all its connections together."""
        now, (most_frames, most_bytes) = self.client.system.now(), self.rates(known)
        self.sharing.sends(known.name)
        if known.name not in self._rates:
            self._rates[known.name] = Rate(most_frames, now), Rate(most_bytes, now)
        of_frames, of_bytes = self._rates[known.name]
        delay = max(of_frames.take(frames, now), of_bytes.take(size, now))
        if delay:
            await asyncio.sleep(delay)

    def _end_unread(self, connection: Connection) -> None:
        connection.end(Refusal(Why.SLOW, "replies were not read, and their room is needed for others"), at_once=True)

    # Metrics.

    def note(self, customer: str, size: int, frames: int, seconds: float) -> None:
        """Counts a call of a customer, which took so many seconds."""
        self.told.add("bpfhost_gateway_calls_total", 1, customer)
        self.told.add("bpfhost_gateway_frames_total", frames, customer)
        self.told.add("bpfhost_gateway_bytes_total", size, customer)
        self.told.saw("bpfhost_gateway_call_seconds", seconds, customer)

    def _numbers(self) -> Numbers:
        """Metrics that are computed when they are read."""
        return {
            "bpfhost_gateway_connections": len(self.connections),
            "bpfhost_gateway_unknown": len(self._unknown),
            "bpfhost_gateway_unread_bytes": self.unread.total(),
        }

    def health(self) -> tuple[bool, dict[str, object]]:
        """Whether it accepts customers, and the directory's Redis replies."""
        said = {"customers": len(self.customers), "connections": len(self.connections), "ends": self.is_ending, "redis": self._redis_says}
        return not self.is_ending and self._redis_says == "answers", said

    async def look(self) -> None:
        """Shares the customers' limits with other gateways, and so knows whether the directory's Redis replies."""
        while True:
            if self._has_left:
                self._has_left = False
                _give_memory_back()
            try:
                await self.sharing.exchange(self._of)
                self._redis_says = "answers"
                self._change_rates()
            except ShardError as error:
                self._redis_says = str(error)
            await asyncio.sleep(SECONDS)

    def _change_rates(self) -> None:
        now = self.client.system.now()
        for known in {one.known.name: one.known for one in self.connections if one.known}.values():
            for rate, a_second in zip(self._rates.get(known.name, ()), self.rates(known)):
                rate.change(a_second, now)

    # Changes, and the end.

    def reload(self) -> None:
        """Reads the file of customers again; a wrong file changes nothing, and its error is reported."""
        try:
            self.customers = Customers(self._file)
        except ShardError as error:
            self._tell(f"the gateway's customers stay as they were: {error}")
            return
        self._tell(f"the gateway knows {len(self.customers)} customers")
        for connection in list(self.connections):
            known = connection.known and self.customers.again(connection.known)
            if known is None:
                connection.end(Refusal(Why.WHO, "the customer is not known by this token or certificate any more"))
                continue
            connection.known = known
        self._change_rates()

    async def end(self) -> None:
        """Accepts nothing more; calls in progress get their replies, and then all connections end."""
        self.is_ending = True
        for task in self._listening:
            task.cancel()
        for task in list(self._unknown):
            task.cancel()
        for connection in list(self.connections):
            connection.refuse(Refusal(Why.ENDS, "the gateway ends"))
        if self._tasks:
            await asyncio.wait(self._tasks, timeout=SECONDS_TO_DRAIN)
        for task in self._tasks:
            task.cancel()
        with contextlib.suppress(asyncio.CancelledError):
            await asyncio.gather(*self._listening, *self._tasks, return_exceptions=True)
        with contextlib.suppress(ShardError):
            await self.sharing.end()
        await self.client.close()


def _give_memory_back() -> None:
    """Gives the system what connections had: glibc keeps for itself what was freed."""
    with contextlib.suppress(AttributeError):
        ctypes.CDLL(None).malloc_trim(0)


def _bound(address: str) -> socket.socket:
    """A socket at an address; removes the socket that an earlier gateway left."""
    if address.startswith("unix:"):
        path = address[len("unix:") :]
        with contextlib.suppress(FileNotFoundError):
            if stat.S_ISSOCK(os.stat(path).st_mode):
                os.unlink(path)
        made = socket.socket(socket.AF_UNIX, socket.SOCK_STREAM)
        made.bind(path)
        return made
    host, _, port = address.rpartition(":")
    if not host or not port.isdecimal():
        raise ValueError("an address is host:port, or unix: and a path")
    return socket.create_server((host.strip("[]"), int(port)), family=socket.AF_INET6 if ":" in host else socket.AF_INET)
