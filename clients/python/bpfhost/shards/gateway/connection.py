"""One connection of a customer: it gathers frames into calls, and sends their replies.

While a call waits for its replies, the frames that come are gathered into the next call. So a connection has one call in progress, and it
holds a call, the next one, and the replies.
"""

from __future__ import annotations

import asyncio
import contextlib
import ssl
from typing import TYPE_CHECKING

from bpfhost.shards.calls import LONGEST_CALL, MOST_FRAMES
from bpfhost.shards.client import NAMELESS, AsyncCustomer
from bpfhost.shards.errors import CallPassed, NoReply, NotDone, NotTaken, ReplyGone, SessionPassed, SetAside, ShardError
from bpfhost.shards.gateway.customers import Known
from bpfhost.shards.gateway.protocol import Incoming, Refusal, Why, Word, hello_size, read_hello, told
from bpfhost.shards.system import Answer, Work
from bpfhost.shards.tickets import Ticket
from bpfhost.state import split

if TYPE_CHECKING:
    from bpfhost.shards.gateway.server import Gateway

_READ_AT_ONCE = 1 << 16
# If so many bytes of replies wait in a connection, the gateway waits for the customer to read.
_MOST_UNREAD = 1 << 16
# The end of a connection takes at most so long, so that its customer can still read the reason.
_SECONDS_TO_END = 2.0


class Connection:
    """A connection, from its first byte to its last."""

    def __init__(self, gateway: Gateway, reader: asyncio.StreamReader, writer: asyncio.StreamWriter, address: str = "") -> None:
        """The address is that of the customer, or empty for a Unix socket."""
        self._gateway, self._reader, self._writer, self._address = gateway, reader, writer, address
        self._limits = gateway.limits
        self._incoming = Incoming()
        # Events: frames have come, or no more will come; there is room for more.
        self._came, self._room = asyncio.Event(), asyncio.Event()
        # Who the customer is, once that is known.
        self.known: Known | None = None
        self._customer: AsyncCustomer | None = None
        self._session: str | None = None
        self._has_ended = False
        # How many frames were taken, and how many replies were sent.
        self._taken = self._answered = 0
        self._task: asyncio.Task[None] | None = None
        # Why it has to end: at once, or after what came before it.
        self._refusal: Refusal | None = None
        self._wrong: Refusal | None = None
        self._is_calling = self._has_told_end = False
        self._began = 0.0
        writer.transport.set_write_buffer_limits(_MOST_UNREAD)

    async def run(self) -> None:
        """Serves the connection until it ends."""
        self._task = asyncio.current_task()
        try:
            await self._serve()
        except Refusal as refusal:
            await self._end(refusal)
        except asyncio.CancelledError:
            if self._task:
                self._task.uncancel()
            await self._end(self._refusal or self._crowded())
        except (ConnectionError, ssl.SSLError, asyncio.IncompleteReadError):
            pass
        finally:
            self._close()

    def _close(self) -> None:
        """Closes the connection, and only then removes it from its customer."""
        # If TLS has ended by itself, asyncio has no lower transport any more that could be aborted.
        with contextlib.suppress(AttributeError):
            self._writer.transport.abort()
        self._gateway.unread.give(self)
        if self.known:
            self._gateway.left(self.known, self._session, self)
            self.known = None

    def refuse(self, refusal: Refusal) -> None:
        """Ends the connection, after the replies to the call in progress."""
        self._refusal = self._refusal or refusal
        if not self._is_calling and self._task:
            self._task.cancel()

    def end(self, refusal: Refusal, at_once: bool = False) -> None:
        """Ends the connection now, whatever it waits for; `at_once` without a wait for its customer to read the reason."""
        self._refusal = self._refusal or refusal
        if at_once:
            self._told_end(self._refusal)
            self._close()
        if self._task:
            self._task.cancel()

    def _crowded(self) -> Refusal:
        """Why the gateway ended it without a message."""
        if self._gateway.is_ending:
            return Refusal(Why.ENDS, "the gateway ends")
        return Refusal(Why.AGAIN, f"{self._limits.unknown} connections have come since that have not said who they are")

    async def _serve(self) -> None:
        await self._greet(await self._first())
        reading = asyncio.create_task(self._read())
        try:
            await self._call()
        finally:
            reading.cancel()
            with contextlib.suppress(asyncio.CancelledError):
                await reading

    # The customer.

    async def _first(self) -> bytes:
        """The first frame."""
        seconds = self._limits.seconds_silent
        try:
            async with asyncio.timeout(seconds):
                length = await self._reader.readexactly(4)
                return length + await self._reader.readexactly(hello_size(length))
        except TimeoutError:
            raise Refusal(Why.SLOW, f"nobody said within {seconds:g} s which customer this is") from None

    async def _greet(self, first: bytes) -> None:
        """Identifies the customer, and sends the replies that a session lacks."""
        token, session, answered = read_hello(first)
        tls = self._writer.get_extra_info("ssl_object")
        known = self._gateway.who(token, tls.getpeercert() if tls else None, self._address)
        self._gateway.came(known, session, self)
        self.known, self._session = known, session
        client = self._gateway.client
        # A client without a gateway can't have the name of a gateway's session.
        own = f"{NAMELESS if session.startswith(NAMELESS) else ''}gateway {session}" if session else NAMELESS + client.system.fresh()
        self._customer = AsyncCustomer(client, known.name, self._limits.seconds, own)
        self._incoming.acked = answered
        last = await self._resume(self._customer, answered) if session else None
        replies = await self._missing(self._customer, last, self._taken - answered) if last else b""
        self._write(told(Word.HELLO, None, customer=known.name, taken=self._taken))
        await self._send(last, replies, self._taken - answered)

    async def _resume(self, customer: AsyncCustomer, answered: int) -> Ticket | None:
        """Continues a session, and returns its last call if the customer does not have all replies to it yet."""
        last = await self._behind(customer.last())
        self._taken = last.number if last else 0
        self._answered = answered
        if answered > self._taken:
            raise Refusal(Why.WRONG, f"session {self._session} has {self._taken} frames taken, and not {answered} replies")
        return last if answered != self._taken else None

    async def _missing(self, customer: AsyncCustomer, last: Ticket, many: int) -> bytes:
        """The last replies to the last call, which the customer does not have yet."""
        stream = await self._replies(customer, last, many)
        if not last.answered:
            return stream
        replies = split(stream)
        if len(replies) < many:
            raise Refusal(Why.GONE, f"of session {self._session} the last {len(replies)} replies are known, and {many} are missing")
        return b"".join(replies[len(replies) - many :])

    # Frames.

    async def _read(self) -> None:
        """Reads frames as long as there is room, until they end. A fault is reported after the replies to what came before it."""
        try:
            while data := await self._read_some():
                self._incoming.feed(data)
                self._came.set()
            if self._incoming.is_partial():
                raise Refusal(Why.WRONG, "the frames end within a frame")
            self._has_ended = True
        except Refusal as refusal:
            self._wrong = refusal
        except (ConnectionError, ssl.SSLError):
            self._has_ended = True
        finally:
            self._came.set()

    async def _read_some(self) -> bytes:
        """Some bytes; raises Refusal if a frame that has begun does not end, or nothing comes for long."""
        while not (room := self._incoming.room()):
            self._room.clear()
            await self._room.wait()
        now = asyncio.get_running_loop().time()
        if not self._incoming.is_partial():
            self._began = now
            left, sentence = self._limits.seconds_idle, f"no frame came for {self._limits.seconds_idle:g} s"
        else:
            seconds = self._limits.seconds_for_a_frame
            left, sentence = self._began + seconds - now, f"a frame that has begun is not whole after {seconds:g} s"
        try:
            async with asyncio.timeout(max(0.0, left)):
                return await self._reader.read(min(room, _READ_AT_ONCE))
        except TimeoutError:
            raise Refusal(Why.SLOW, sentence) from None

    # Calls.

    async def _call(self) -> None:
        """Makes calls from the frames, one after another."""
        assert self._customer and self.known
        while await self._is_next_there():
            # At most what the customer may send in a second.
            frames, size = self._gateway.rates(self.known)
            stream, count = self._incoming.take(int(max(1, min(MOST_FRAMES, frames))), int(min(LONGEST_CALL, size)))
            self._room.set()
            await self._gateway.wait_for_rate(self.known, count, len(stream))
            self._is_calling = True
            await self._answer(self._customer, stream, count)
            self._is_calling = False

    async def _is_next_there(self) -> bool:
        """Waits for frames of the next call; False if there will be none.

        In a session, the next call begins after the customer has acknowledged all replies.
        """
        while True:
            if self._refusal:
                raise self._refusal
            if self._incoming.count() and (self._session is None or self._incoming.acked >= self._answered):
                return True
            if self._wrong:
                raise self._wrong
            if self._has_ended:
                await self._drain()
                return False
            self._came.clear()
            await self._came.wait()

    async def _answer(self, customer: AsyncCustomer, stream: bytes, count: int) -> None:
        now = asyncio.get_running_loop().time
        began = now()
        ticket = await self._behind(customer.post_checked(stream, count))
        self._taken += count
        replies = await self._replies(customer, ticket, count)
        self._gateway.note(customer.name, len(stream), count, now() - began)
        await self._send(ticket, replies, count)

    async def _replies(self, customer: AsyncCustomer, ticket: Ticket, count: int) -> bytes:
        """The replies to a call; if there are none, a frame that takes their place."""
        try:
            return await self._behind(customer.wait_bytes(ticket))
        except (NotDone, ReplyGone) as error:
            why = Why.GONE if isinstance(error, ReplyGone) else Why.NOT_DONE
            return told(Word.NO_REPLIES, why, frames=count, why=str(error))

    async def _behind(self, call: Work[Answer]) -> Answer:
        """Calls the shards; raises Refusal if they fail."""
        try:
            return await call
        except (SessionPassed, CallPassed):
            raise Refusal(Why.PASSED, f"another connection goes on with session {self._session}") from None
        except SetAside as error:
            raise Refusal(Why.ASIDE, str(error)) from None
        except (NotDone, ReplyGone):
            raise
        except (NotTaken, NoReply) as error:
            raise Refusal(Why.AGAIN, str(error)) from None
        except ShardError as error:
            raise Refusal(Why.BEHIND, f"what is behind the gateway does not do its part: {error}") from None

    # Replies.

    async def _send(self, ticket: Ticket | None, replies: bytes, count: int) -> None:
        """Sends the replies to a call, and waits until the customer has read some of them."""
        self._answered += count
        if not replies or not self.known:
            return
        self._gateway.unread.take(self, self.known.name, ticket.place.shard if ticket and ticket.place else -1, len(replies))
        self._write(replies)
        await self._drain()
        self._gateway.unread.give(self)

    def _write(self, data: bytes) -> None:
        if not self._writer.transport.is_closing():
            self._writer.write(data)

    async def _drain(self) -> None:
        """Waits until the customer has read some of what was written."""
        try:
            async with asyncio.timeout(self._limits.seconds_to_read):
                await self._writer.drain()
        except TimeoutError:
            raise Refusal(Why.SLOW, f"replies were not read for {self._limits.seconds_to_read:g} s") from None

    def _told_end(self, refusal: Refusal) -> None:
        """Sends the reason why the connection ends, once."""
        if not self._has_told_end:
            self._has_told_end = True
            self._gateway.told.add("bpfhost_gateway_refusals_total", label=refusal.why.name.lower())
            with contextlib.suppress(ConnectionError, ssl.SSLError, RuntimeError):
                self._write(told(Word.END, refusal.why, why=str(refusal), taken=self._taken))

    async def _end(self, refusal: Refusal) -> None:
        """Sends the reason why the connection ends, if the customer still reads."""
        reads = self._writer.transport.get_write_buffer_size() <= _MOST_UNREAD
        self._told_end(refusal)
        with contextlib.suppress(ConnectionError, ssl.SSLError, TimeoutError, RuntimeError, asyncio.CancelledError):
            if not reads:
                return
            async with asyncio.timeout(_SECONDS_TO_END):
                if self._writer.can_write_eof():
                    self._writer.write_eof()
                else:
                    self._writer.close()
                # Reads and drops what the customer still sends, so that the system does not drop what the customer has not read yet.
                while await self._reader.read(_READ_AT_ONCE):
                    pass
