"""A client of shards for asyncio: it sends a customer's frames and returns the replies, whichever host the customer is on.

Each call is taken once: it has a number in a session, and the step that adds its frames to the stream also records that number. So a call
is sent again if it is not known whether it was taken.
"""

from __future__ import annotations

import asyncio
from collections.abc import AsyncIterator, Iterable, Sequence
from contextlib import AbstractAsyncContextManager
from typing import NamedTuple

from bpfhost.alike import looked_at, packed
from bpfhost.parts import in_parts
from bpfhost.shards import names, scripts
from bpfhost.shards.aside import Aside
from bpfhost.shards.calls import LONGEST_CALL, MOST_FRAMES, count_of, parsed
from bpfhost.shards.connection import Entry, Redis, as_in
from bpfhost.shards.directory import Directory, Seat, demand_name
from bpfhost.shards.errors import Away, CallError, CallPassed, NoReply, NotDone, NotServed, NotTaken, OutOfMemory
from bpfhost.shards.errors import ReplyGone, SessionPassed, SetAside, ShardError
from bpfhost.shards.names import FAULT, FRAMES, PREFIX, REPLIES, RUNS, ShardKeys, before, order
from bpfhost.shards.system import MACHINE, System
from bpfhost.shards.tickets import Gathered, Part, Place, Ticket

SECONDS = 30.0
_PAUSE, _LONGEST_PAUSE = 0.005, 0.1
# A call is given up within so many seconds.
_SECONDS_TO_GIVE_UP = 1.0
# The replies to so many calls, which a caller has sent and not waited for, are read together at most.
_MOST_UNREAD = 16
# The prefix of generated names of sessions; these are forgotten after a day in which the shard was served.
NAMELESS = "~"
_SESSIONS = f"customer {{name}} has {names.MOST_SESSIONS} sessions, and can't have another one"


class AsyncClient(AbstractAsyncContextManager["AsyncClient"]):
    """A client that knows the directory and the shards, for one event loop. It is a context manager, which closes its connections."""

    def __init__(self, url: str | None = None, prefix: str = PREFIX, system: System = MACHINE) -> None:
        """The directory's Redis, by its URL (`Redis`)."""
        self.redis, self.prefix, self.system = Redis(url, system), prefix, system
        self.directory = Directory(self.redis, prefix)
        self._servers: dict[str, Redis] = {"": self.redis}

    async def __aexit__(self, *_error: object) -> None:
        await self.close()

    async def close(self) -> None:
        """Closes the connections."""
        for redis in self._servers.values():
            redis.nodes.close()
        # The event loop ends them in its next round.
        await asyncio.sleep(0)

    def customer(self, name: str, seconds: float = SECONDS, session: str | None = None) -> AsyncCustomer:
        """A customer by its name, which waits for so many seconds at most.

        The next process can continue a session with a name (`AsyncCustomer.resume`); from then on calls of the previous process are refused.
        """
        if session is not None and (not session or session.startswith(NAMELESS)):
            raise ValueError(f"a session's name is not empty and does not begin with {NAMELESS}, and is not {session!r}")
        return AsyncCustomer(self, demand_name(name), seconds, session or NAMELESS + self.system.fresh())

    async def shard(self, number: int, deadline: float | None = None) -> tuple[Redis, ShardKeys]:
        """The Redis of a shard, and its keys."""
        until = self.system.now() + SECONDS if deadline is None else deadline
        url, keys = await self.directory.patient(until).server(number), ShardKeys(number, self.prefix)
        if url not in self._servers:
            self._servers[url] = Redis(as_in(url, self.redis.url), self.system)
        return self._servers[url].near(keys.lease), keys


class _Used(NamedTuple):
    """What each call to a seat uses: the shard's Redis, whose deadline is the call's, the keys of the script, and the text of the seat's owner."""

    seat: Seat
    redis: Redis
    keys: list[str]
    owner: bytes


class AsyncCustomer:
    """Sends the calls of one customer; only one task may use it. Frames and replies name tenant 0, whichever host the customer is on."""

    def __init__(self, client: AsyncClient, name: str, seconds: float, session: str) -> None:
        self._client, self.name, self.seconds, self.session = client, name, seconds, session
        self._system = client.system
        self._seat: Seat | None = None
        self._number = self._given_up = 0
        self._open: Ticket | None = None
        self._gathered = Gathered()
        self._at: dict[int, tuple[Redis, ShardKeys]] = {}
        self._used: _Used | None = None
        # The latest calls that were taken, and whose replies were not read yet.
        self._unread: dict[tuple[int, int, bytes], Ticket] = {}

    async def ask_bytes(self, frames: Iterable[bytes]) -> AsyncIterator[bytes]:
        """Sends frames, many at once, and yields their replies in order, each as the bytes that the host wrote."""
        for call in in_parts(frames, len, LONGEST_CALL, MOST_FRAMES):
            for reply in await self.ask_call(b"".join(call)):
                yield reply

    async def ask_call(self, stream: bytes) -> list[bytes]:
        """Sends a call and waits for its replies."""
        return await self.wait(await self.post(stream))

    # Calls.

    async def resume(self) -> int:
        """The number of calls of this session that were taken, by this process or an earlier one; the next call has the next number.

        So a producer that is killed and started again with the same session name knows which of its calls comes next. Calls that an
        earlier process has in progress are not taken any more, and its next call raises SessionPassed.
        """
        last = await self.last()
        return last.number if last else 0

    async def last(self) -> Ticket | None:
        """The last call of this session that was taken, also by an earlier process, so that the caller can wait for it; or None.

        From then on no calls of earlier processes are taken.
        """
        deadline, known = self._deadline(None), b"0"
        while True:
            seat = self._seat or await self._take_seat(deadline, None)
            redis, keys = await self._shard(seat.shard, deadline)
            used = [keys.seats, keys.sessions(seat.generation), keys.lease]
            words = [self.session, known, seat.tenant, seat.owned_by(self.name), names.MOST_SESSIONS]
            what, *said = await scripts.RESUME(redis.patient(deadline), used, words)
            if what == b"resumed":
                number, given_up, *place = said
                self._number, self._given_up = max(self._number, int(number)), int(given_up)
                return Ticket(b"", self.session, int(number), int(given_up), seat=seat, place=Place.of(*place)) if place else None
            if what == b"passed":
                known = bytes(said[0])
            elif what == b"sessions":
                raise NotTaken(_SESSIONS.format(name=self.name), None)
            else:
                self._seat = None

    async def post(self, stream: bytes, seconds: float | None = None, by: int = 1) -> Ticket:
        """Adds a call to the stream of the customer's shard, without waiting for its replies.

        Its number in the session is the number of the last call plus `by`, so that a session may count its frames.

        Raises NotTaken if there is no room: the call is not done later either. Raises NoReply if it is not known whether it was taken:
        the error has the ticket, and waiting for the ticket, or the next call, sends the call again.
        """
        _, _, _, runs = parsed(stream)
        if self._gathered.count:
            await self.flush()
        return await self._post(stream, runs, seconds, by)

    async def post_checked(self, stream: bytes, count: int) -> Ticket:
        """The same with frames that the caller has split and checked; their number is counted in the session."""
        return await self._post(stream, looked_at(stream)[1], None, count)

    async def _post(self, stream: bytes, runs: bytes, seconds: float | None = None, by: int = 1) -> Ticket:
        """Does what `post` does, with the frames as they are packed, if they are."""
        if self._open:
            await self.settle(seconds)
        self._open = ticket = Ticket(runs or stream, self.session, self._number + by, self._given_up, bool(runs))
        await self.settle(seconds)
        return ticket

    def gather(self, stream: bytes) -> Part | None:
        """Adds frames to others in one call, which is sent later; None if it has no room for them."""
        return self._gathered.add(stream, *count_of(stream))

    async def send(self, stream: bytes) -> Part:
        """Adds frames to others in one call, which is sent before one of them is waited for, or when it has no more room.

        So many small calls cost no more than a large one. The wait for their replies shows whether they were taken.
        """
        while (part := self.gather(stream)) is None:
            await self.flush()
        return part

    async def flush(self) -> None:
        """Sends the gathered calls. An error is passed to each caller that waits for one of them."""
        call, self._gathered = self._gathered, Gathered()
        try:
            stream = bytes(call.stream)
            call.ticket = await self._post(stream, packed(stream, call.alike)) if call.count else None
        except CallError as error:
            call.error, call.ticket = error, error.ticket
        except ShardError:
            call.ticket = self._open
            raise

    async def receive(self, part: Part, seconds: float | None = None) -> list[bytes]:
        """Waits for the replies to frames that were sent, as `wait` does; other gathered calls are sent first."""
        if part.call is self._gathered:
            await self.flush()
        if part.call.ticket is None or isinstance(part.call.error, NotTaken):
            raise part.call.error or NotTaken(f"frames of customer {self.name} were not sent", None)
        return (await self.wait(part.call.ticket, seconds))[part.first : part.end]

    async def settle(self, seconds: float | None = None) -> None:
        """Sends a call again if it is not known whether it was taken."""
        ticket = self._open
        if ticket is None:
            return
        deadline, pause = self._deadline(seconds), _PAUSE
        try:
            while ticket.place is None:
                seat = ticket.seat = ticket.seat or self._seat or await self._take_seat(deadline, ticket)
                why = await self._send_to(ticket, seat, deadline)
                if why and self._system.now() + pause > deadline:
                    await self._give_up(ticket, seat, why)
                elif why:
                    await asyncio.sleep(pause)
                    pause = min(2 * pause, _LONGEST_PAUSE)
        except NotTaken:
            # A later call with this number can't be mistaken for it.
            self._open, self._given_up = None, ticket.given_up + 1
            raise
        except Away as away:
            raise NoReply(f"it is not known whether a call of customer {self.name} was taken: {away}", ticket) from None
        self._open, self._number = None, ticket.number
        self._unread[ticket.place] = ticket
        if len(self._unread) > _MOST_UNREAD:
            del self._unread[next(iter(self._unread))]

    async def wait(self, ticket: Ticket, seconds: float | None = None) -> list[bytes]:
        """Waits for the replies to a call, one for each frame (`wait_bytes`)."""
        await self.wait_bytes(ticket, seconds)
        return ticket.replies

    async def wait_bytes(self, ticket: Ticket, seconds: float | None = None) -> bytes:
        """Waits for the replies to a call, one after another; raises NoReply after so many seconds, and can then be called again.

        Raises SetAside if the call waits for an operator, NotDone if its frames were not done and won't be, and ReplyGone if its replies
        were dropped.
        """
        if not ticket.answered:
            deadline = self._deadline(seconds)
            if ticket.place is None and ticket is self._open:
                await self.settle(max(0.0, deadline - self._system.now()))
            if ticket.place is None:
                raise NotTaken(f"the call of customer {self.name} was given up", ticket)
            ticket.answered = await self._replies(ticket, ticket.place, deadline)
        return ticket.answered

    def _deadline(self, seconds: float | None) -> float:
        return self._system.now() + (self.seconds if seconds is None else seconds)

    async def _shard(self, number: int, deadline: float) -> tuple[Redis, ShardKeys]:
        if number not in self._at:
            self._at[number] = await self._client.shard(number, deadline)
        return self._at[number]

    # Sending.

    async def _send_to(self, ticket: Ticket, seat: Seat, deadline: float) -> str:
        """Sends a call once; returns a sentence if there is no room for it now."""
        used = self._used
        if not used or used.seat is not seat:
            redis, keys = await self._shard(seat.shard, deadline)
            of_seat = [keys.seats, keys.frames(seat.tenant), keys.sessions(seat.generation), keys.waiting, keys.lease]
            used = self._used = _Used(seat, redis.patient(deadline), of_seat, seat.owned_by(self.name))
        used.redis.deadline = deadline
        session = [ticket.session, ticket.number, ticket.given_up, used.owner, seat.shard, seat.tenant]
        limits = [names.weight(len(ticket.stored)), names.MOST_WAITING, names.MOST_SESSIONS, RUNS if ticket.is_packed else FRAMES]
        try:
            what, *said = await scripts.ASK(used.redis, used.keys, [*session, ticket.stored, *limits])
        except OutOfMemory as error:
            return f"a call of customer {self.name} is not taken: {error}"
        if what == b"taken":
            ticket.place = Place.of(*said)
        elif what == b"seat":
            # It was not taken there, and won't be.
            ticket.seat = self._seat = None
        elif what == b"full":
            return f"customer {self.name} has as many calls waiting as one may have: the worker of shard {seat.shard} is behind"
        elif what == b"sessions":
            await self._give_up(ticket, seat, _SESSIONS.format(name=self.name))
        elif what == b"given up":
            if int(said[0]) > ticket.given_up + 1:
                raise SessionPassed(f"another process goes on with session {self.session} of customer {self.name}", ticket)
            raise NotTaken(f"call {ticket.number} of customer {self.name} was given up", ticket)
        else:
            sentence = f"call {ticket.number} of customer {self.name} was passed by call {int(said[0])} of its session"
            raise CallPassed(sentence, ticket)
        return ""

    async def _give_up(self, ticket: Ticket, seat: Seat, why: str) -> None:
        """Ensures that a call is not taken later, even if a command with it is still in transit to the server."""
        deadline = self._system.now() + _SECONDS_TO_GIVE_UP
        redis, keys = await self._shard(seat.shard, deadline)
        used = [keys.sessions(seat.generation), keys.lease]
        what, *said = await scripts.GIVE_UP(redis.patient(deadline), used, [ticket.session, ticket.number, ticket.given_up])
        if what != b"taken":
            raise NotTaken(why, ticket)
        ticket.place = Place.of(*said)

    async def _take_seat(self, deadline: float, ticket: Ticket | None) -> Seat:
        """The customer's seat in the directory. Waits while the customer is moved, or no shard that may have it is served."""
        pause = _PAUSE
        while True:
            try:
                seat = await self._client.directory.patient(deadline).place(self.name)
                # A shard may have moved to another server since it was last looked up.
                self._at.pop(seat.shard, None)
                self._used = None
                redis, keys = await self._shard(seat.shard, deadline)
                claim = [seat.tenant, seat.generation, seat.owned_by(self.name)]
                if await scripts.CLAIM(redis.patient(deadline), [keys.seats], claim):
                    self._seat = seat
                    return seat
                why = f"customer {self.name} is being moved"
            except NotServed as error:
                why = str(error)
            if self._system.now() + pause > deadline:
                raise NotTaken(why, ticket)
            await asyncio.sleep(pause)
            pause = min(2 * pause, _LONGEST_PAUSE)

    # Waiting.

    async def _replies(self, ticket: Ticket, place: Place, deadline: float) -> bytes:
        redis, keys = await self._shard(place.shard, deadline)
        redis, name, behind = redis.patient(deadline), keys.replies(place.tenant), before(place.entry)
        try:
            while True:
                # The first reply after the last id below this one is the reply to this call, since each call has one.
                found = await redis.xread(name, behind, max(1, len(self._unread)))
                if found and found[0][0] != place.entry:
                    raise await self._gone(redis, keys, place, ticket)
                if found:
                    self._note_read(place, found)
                    if FAULT in found[0][1]:
                        raise NotDone(found[0][1][FAULT].decode(errors="replace"), ticket)
                    return found[0][1][REPLIES]
                await self._demand_hope(redis, keys, place, ticket)
                if self._system.now() >= deadline:
                    raise NoReply(f"shard {place.shard} has not answered entry {place.entry.decode()}: does its worker run?", ticket)
        except Away as away:
            raise NoReply(f"customer {self.name} waits for a reply: {away}", ticket) from None

    def _note_read(self, place: Place, found: Sequence[Entry]) -> None:
        """Gives replies to the calls that they belong to, after the first of them, which is returned to the caller."""
        for entry, fields in found:
            ticket = self._unread.pop((place.shard, place.tenant, entry), None)
            if ticket and entry != place.entry and REPLIES in fields:
                ticket.answered = fields[REPLIES]

    async def _gone(self, redis: Redis, keys: ShardKeys, place: Place, ticket: Ticket) -> Exception:
        """The reason why an entry has no reply although later ones have."""
        entry = f"entry {place.entry.decode()} of shard {place.shard}"
        if order(await redis.dropped_id(keys.replies(place.tenant))) >= order(place.entry):
            return ReplyGone(f"the replies to {entry} were dropped: nobody read them in time", ticket)
        return NotDone(f"{entry} was dropped from its stream before it was done: its frames were not done, and won't be", ticket)

    async def _demand_hope(self, redis: Redis, keys: ShardKeys, place: Place, ticket: Ticket) -> None:
        """Raises an error if there won't be a reply: the call is set aside, or was dropped."""
        kept = await redis.hget(keys.aside, place.tenant)
        if kept and order(Aside.read(kept).entry.encode()) <= order(place.entry):
            raise SetAside(f"customer {self.name} is set aside until an operator has looked: {Aside.read(kept).why}", ticket)
        is_dropped = order(await redis.dropped_id(keys.frames(place.tenant))) >= order(place.entry)
        if is_dropped and order(await redis.last_id(keys.replies(place.tenant))) < order(place.entry):
            raise await self._gone(redis, keys, place, ticket)
