"""The state of a shard: a host of 64 tenants, what each has open, and the replies to their calls.

The replies to a tenant are a function of its own frames. So each tenant's state is restored, played, read and emptied by itself.
"""

from __future__ import annotations

from collections.abc import AsyncIterator, Callable, Iterable, Iterator, Sequence
from itertools import groupby, islice
from typing import NamedTuple, cast

from bpfhost import frames as make
from bpfhost.alike import size_of_alike, statuses_are_zero, with_tenant_in_place
from bpfhost.host import Host
from bpfhost.library import Library
from bpfhost.numbers import MOST_TENANTS, Command, Errno
from bpfhost.parts import in_parts
from bpfhost.program import Program
from bpfhost.replies import Reply
from bpfhost.shards.calls import Call, NoCall
from bpfhost.shards.copied import Asked, Copy
from bpfhost.shards.errors import CopyDiffers, MemoryRefused, ShardError, StateRefused
from bpfhost.shards.library import HostHere
from bpfhost.shards.names import FAULT, REPLIES, weight
from bpfhost.shards.steps import in_steps, step
from bpfhost.shards.system import System, Work
from bpfhost.state import FILLER, Steps, read_pairs, same_pairs, split, state_frames, wanted_status, with_tenant
from bpfhost.tenancy import Tenancy, command_of, status_of

# A host is sent at most so many frames, of which a snapshot may take some four million (docs/PROTOCOL.md: 16,777,216).
MOST_ASKED = 12_000_000
_ASKED_AT_ONCE, _MADE_IN_A_STEP, _READ_AT_ONCE = 1024, 400, 1 << 16
# Commands that may be refused memory (an update only by a host of version 0.1.0); no other error has -12.
_WANTS_MEMORY = (Command.MAP_CREATE, Command.MAP_UPDATE_ELEM, Command.PROG_LOAD)


class Written(NamedTuple):
    """The entry of replies to a call: its tenant and id, one field, and the weight of the call while it waited."""

    tenant: int
    entry: bytes
    name: bytes
    value: bytes
    weight: int = 0


class Serving:
    """A host and what its tenants have open. It is a context manager, which starts the host and ends it.

    `alive` is called now and then while it takes long.
    """

    def __init__(
        self, program: Program, system: System, alive: Callable[[], None] = lambda: None, library: Library | None = None,
        most_asked: int = MOST_ASKED,
    ) -> None:
        """With a library the host is in this process, otherwise it is a separate process. It is sent so many frames at most."""
        self._program, self._system, self._library, self._most_asked = program, system, library, most_asked
        self.alive, self.is_careful = alive, False

    def _start(self) -> None:
        self._host = self._new_host(MOST_TENANTS)
        self.asked, self.is_new = 0, True
        self.tenancies = [Tenancy() for _ in range(MOST_TENANTS)]

    def _new_host(self, tenants: int) -> Host | HostHere:
        if self._library and not self.is_careful:
            return HostHere(self._library, tenants)
        return self._system.host(self._program, tenants)

    @property
    def is_here(self) -> bool:
        """Whether the host is in this process, and ends with it."""
        return isinstance(self._host, HostHere)

    @property
    def is_used_up(self) -> bool:
        """Whether the host was sent as many frames as it may be, and another one is to take its place."""
        return self.asked >= self._most_asked

    def __enter__(self) -> Serving:
        self._start()
        return self

    def __exit__(self, *_error: object) -> None:
        self._host.kill()

    def restart(self) -> None:
        """Begins anew, on another host, on which all tenants are new."""
        self._host.kill()
        self._start()

    # Calls.

    def play(self, calls: Sequence[Call | NoCall]) -> Iterator[tuple[Written, bool]]:
        """The replies to calls, in order, and whether the call may have changed anything.

        A call that ends the host has no replies, nor has any call after it: then this raises HostError or ReplyError. It raises
        MemoryRefused if memory was refused to the next call.
        """
        if isinstance(self._host, HostHere):
            self.alive()
            for call in calls:
                yield self._play_here(self._host, call)
            return
        for is_alike, some in groupby(calls, self._is_alike):
            yield from self._play_alike(list(some)) if is_alike else self._play_each(list(some))

    def _play_here(self, host: HostHere, call: Call | NoCall) -> tuple[Written, bool]:
        """Plays a call in place. A call that opens and closes nothing is not examined frame by frame."""
        if isinstance(call, NoCall):
            return _fault(call), False
        self.is_new = False
        replies = host.answer(call)
        self.asked += call.count
        if self.asked % _ASKED_AT_ONCE < call.count:
            self.alive()
        if host.memory_refused(call.tenant):
            raise _refused(call)
        changed = call.is_short
        if not changed:
            for frame, reply in zip(call.frames, split(replies), strict=True):
                changed |= self._note(call, frame, reply)
        return Written(call.tenant, call.entry, REPLIES, replies, weight(call.size)), changed

    def _is_alike(self, call: Call | NoCall) -> bool:
        return isinstance(call, Call) and call.is_short and hasattr(self._host, "pipelined")

    def _play_each(self, calls: Sequence[Call | NoCall]) -> Iterator[tuple[Written, bool]]:
        """Examines each frame and each reply."""
        frames_of = [call.frames if isinstance(call, Call) else [] for call in calls]
        replies = self.ask_bytes(with_tenant(frame, call.tenant) for call, frames in zip(calls, frames_of) for frame in frames)
        for call, frames in zip(calls, frames_of):
            if isinstance(call, NoCall):
                yield _fault(call), False
                continue
            own, changed = [], False
            for frame, reply in zip(frames, list(islice(replies, len(frames))), strict=True):
                changed |= self._note(call, frame, reply)
                own.append(with_tenant(reply, 0))
            yield Written(call.tenant, call.entry, REPLIES, b"".join(own), weight(call.size)), changed

    def _play_alike(self, calls: Sequence[Call | NoCall]) -> Iterator[tuple[Written, bool]]:
        """Sends frames that are alike as they are, except for the tenant number, and takes their replies the same way."""
        real = [call for call in calls if isinstance(call, Call)]
        self.is_new = False
        for call, replies in zip(real, ask_alike(cast(Host, self._host), real)):
            self.asked += call.count
            self.alive()
            if not (size := size_of_alike(replies)) or not statuses_are_zero(replies, size):
                # Something was refused, memory perhaps.
                for frame, reply in zip(call.frames, split(replies), strict=True):
                    self._note(call, frame, reply)
            yield Written(call.tenant, call.entry, REPLIES, _of_tenant_zero(replies, size), weight(call.size)), True

    def _note(self, call: Call, frame: bytes, reply: bytes) -> bool:
        status = status_of(reply)
        if status == -Errno.ENOMEM and command_of(frame) in _WANTS_MEMORY:
            raise _refused(call)
        return self.tenancies[call.tenant].note(frame, status)

    def ask_bytes(self, frames: Iterable[bytes]) -> Iterator[bytes]:
        """Sends frames to the host, and counts them."""
        self.is_new = False
        for reply in self._host.ask_bytes(frames):
            self.asked += 1
            if self.asked % _ASKED_AT_ONCE == 0:
                self.alive()
            yield reply

    # States.

    def make(self, tenant: int, stream: bytes, closes_refused: bool = False) -> Steps[None]:
        """Restores the state of a tenant that is empty, in steps. Raises StateRefused if a reply of the host is not the expected one.

        With `closes_refused`, programs that this build refuses are closed, and all else is restored.
        """
        if self.tenancies[tenant].open:
            raise ShardError(f"tenant {tenant} is not empty, and another one arrives there")
        made = split(stream)
        while refused := (yield from self._first_refused(tenant, made)):
            self.empty(tenant)
            at, status = refused
            if not closes_refused or command_of(made[at]) != Command.PROG_LOAD or made[at] == FILLER:
                raise StateRefused(f"the state of tenant {tenant} can't be made: the host answers {status} to frame {at} of it")
            made.append(make.close(0, _number_of(made, at)))
            made[at] = FILLER

    def _first_refused(self, tenant: int, made: Sequence[bytes]) -> Steps[tuple[int, int] | None]:
        """Plays the frames of a state on an empty tenant; returns the first one whose reply is not the expected one, and its status."""
        tenancy, found = self.tenancies[tenant], None
        for part in in_parts(enumerate(made), lambda _: 1, _MADE_IN_A_STEP):
            for (at, frame), reply in zip(part, self._replies_to(tenant, [frame for _, frame in part]), strict=True):
                status, wanted = status_of(reply), wanted_status(tenancy, frame)
                tenancy.note(frame, status)
                if status == -Errno.ENOMEM:
                    raise MemoryRefused(f"memory was refused to the state of tenant {tenant}")
                if status != wanted and not found:
                    found = at, status
            if found:
                break
            yield
        return found

    def _replies_to(self, tenant: int, made: Sequence[bytes]) -> list[bytes]:
        """The replies to frames of a state."""
        if not isinstance(self._host, HostHere):
            return list(self.ask_bytes(with_tenant(frame, tenant) for frame in made))
        self.is_new = False
        self.asked += len(made)
        self.alive()
        return self._host.replies(made, tenant)

    def empty(self, tenant: int) -> None:
        """Closes all descriptors of a tenant: it is then like a new one."""
        tenancy = self.tenancies[tenant]
        closes = [make.close(0, number) for number in list(tenancy.open)]
        for frame, reply in zip(closes, self.ask_bytes(with_tenant(frame, tenant) for frame in closes)):
            if status_of(reply):
                raise ShardError(f"the host answers {reply.hex()} to the end of tenant {tenant}")
            tenancy.note(frame, 0)

    async def state(self, tenant: int, before: Callable[[], Work[bytes]], history: Callable[[], AsyncIterator[Iterable[Asked]]]) -> bytes:
        """The frames that make a tenant's state, in steps; no calls of the tenant are played meanwhile.

        A host in this process saves it. Otherwise its maps are read: `before` returns the frames of its last snapshot, and `history` its
        frames since then, which are played again if a map has no descriptor any more.
        """
        if isinstance(self._host, HostHere):
            return await in_steps(self._host.save(tenant))
        tenancy = self.tenancies[tenant]
        live = tenancy.live()
        named = [on for on in live if tenancy.is_open(on)]
        pairs = await in_steps(read_pairs(self, tenant, {on: on.descriptor for on in named}))
        if len(named) < len(live):
            with Copy(self._new_host(1)) as copy:
                await in_steps(copy.play(answered(await before())))
                async for played in history():
                    await in_steps(copy.play(played))
                copied = await in_steps(copy.pairs(tenancy))
            if not same_pairs(pairs, copied, named):
                raise CopyDiffers(f"the copy of tenant {tenant} has other values than the tenant")
            pairs = copied
        stream = bytearray()
        for part in in_parts(state_frames(tenancy, pairs), lambda _: 1, _MADE_IN_A_STEP):
            stream += b"".join(part)
            await step()
        return bytes(stream)


def _fault(call: NoCall) -> Written:
    return Written(call.tenant, call.entry, FAULT, call.why.encode())


def _refused(call: Call) -> MemoryRefused:
    return MemoryRefused(f"memory was refused to entry {call.entry.decode()}: its reply is not written")


def ask_alike(host: Host, calls: Sequence[Call]) -> Iterator[bytes]:
    """The replies to calls whose frames are alike and have short replies."""

    def send(call: Call) -> None:
        stream = bytearray(call.stream)
        with_tenant_in_place(stream, call.alike, call.tenant)
        host.send(stream, call.count)

    return host.pipelined(send, lambda call: _so_many(host, call.count), calls)


def _so_many(host: Host, count: int) -> bytes:
    """So many replies; raises ReplyError if what comes is no reply."""
    held = host.read(_READ_AT_ONCE)
    size = count * (4 + int.from_bytes(held[:4], "little"))
    if len(held) >= size and size_of_alike(held[:size]):
        host.unread(held[size:])
        return held[:size]
    host.unread(held)
    return b"".join(host.read_many(count))


def _of_tenant_zero(replies: bytes, size: int) -> bytes:
    """Replies that name tenant 0; all of the given length, if there is one."""
    if not size:
        return b"".join(with_tenant(reply, 0) for reply in split(replies))
    own = bytearray(replies)
    with_tenant_in_place(own, size, 0)
    return bytes(own)


def answered(stream: bytes) -> Iterator[Asked]:
    """The frames of a snapshot with the replies that they have."""
    tenancy = Tenancy()
    for frame in split(stream):
        status = wanted_status(tenancy, frame)
        tenancy.note(frame, status)
        yield frame, Reply(0, command_of(frame), status).to_bytes()


def _number_of(made: Sequence[bytes], at: int) -> int:
    """The descriptor of the object that a frame of a state creates."""
    tenancy = Tenancy()
    for frame in made[:at]:
        tenancy.note(frame, wanted_status(tenancy, frame))
    return tenancy.lowest_free()
