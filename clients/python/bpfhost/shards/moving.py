"""Moves a customer to another shard, or removes it. The same call, or a worker, completes what was begun and did not end.

The old shard takes back the seat and keeps the frames that make the tenant's state until the new shard has restored it; then the
directory has the new seat. Calls that come in between wait; no other customer is affected. If the new shard refuses the arrival, the move
is turned back: the customer gets a new seat on the old shard.
"""

from __future__ import annotations

from collections.abc import Iterable
from dataclasses import dataclass, replace

from bpfhost.parts import in_parts
from bpfhost.shards import scripts
from bpfhost.shards.aside import Aside
from bpfhost.shards.client import AsyncClient
from bpfhost.shards.connection import Redis
from bpfhost.shards.directory import Seat
from bpfhost.shards.errors import MoveError, NoReply, SetAside, SnapshotDamaged
from bpfhost.shards.manifest import Manifest
from bpfhost.shards.names import FAULT, ShardKeys, before, order

SECONDS = 60.0
_AT_ONCE = 500


async def move(client: AsyncClient, name: str, shard: int | None = None, seconds: float = SECONDS) -> Seat:
    """Moves a customer to a shard, or to the least loaded other one, and returns its new seat.

    Raises MoveError if it can't be moved, and NoReply if a worker does not reply in time: then the same call continues the move later.
    """
    deadline = client.system.now() + seconds
    seat, next_seat = await client.directory.patient(deadline).begin_move(name, shard)
    assert next_seat
    return await (await _Move.of(client, name, seat, deadline)).to(next_seat)


async def remove(client: AsyncClient, name: str, seconds: float = SECONDS) -> None:
    """Removes a customer, with all its data."""
    deadline = client.system.now() + seconds
    seat, _ = await client.directory.patient(deadline).begin_move(name, removed=True)
    moved = await _Move.of(client, name, seat, deadline)
    await moved.leave()
    await moved.end(None)


async def end_move(client: AsyncClient, name: str, seconds: float = SECONDS) -> None:
    """Completes a move, or a removal, that was begun; does nothing if there is none."""
    moves = await client.directory.moves()
    if name in moves and moves[name]:
        await move(client, name, None, seconds)
    elif name in moves:
        await remove(client, name, seconds)


async def abort_move(client: AsyncClient, name: str, seconds: float = SECONDS) -> Seat:
    """Takes back a move that was begun, or a removal, and returns the seat that the customer then has.

    It is a new seat of the shard that the customer was on; a customer that has arrived stays on the new shard.
    """
    deadline = client.system.now() + seconds
    moves = await client.directory.patient(deadline).moves()
    seat = await client.directory.patient(deadline).seat(name)
    if name not in moves or seat is None:
        raise MoveError(f"customer {name} is not being moved")
    return await (await _Move.of(client, name, seat, deadline)).turn_back(moves[name])


@dataclass
class _Refused(Exception):
    """The new shard refuses what arrives."""

    entry: bytes
    why: str


class _Move:
    """A customer that moves from a seat."""

    def __init__(self, client: AsyncClient, name: str, seat: Seat, deadline: float, redis: Redis, keys: ShardKeys) -> None:
        self._client, self._name, self._seat, self._deadline = client, name, seat, deadline
        self._redis, self._keys, self._directory = redis.patient(deadline), keys, client.directory.patient(deadline)

    @classmethod
    async def of(cls, client: AsyncClient, name: str, seat: Seat, deadline: float) -> _Move:
        """A move from a seat."""
        return cls(client, name, seat, deadline, *await client.shard(seat.shard, deadline))

    async def to(self, next_seat: Seat, turned: str = "") -> Seat:
        """Continues until the customer has its next seat; if that is refused, turns back to the old shard, once."""
        try:
            if not await self._has_arrived(next_seat):
                await self.leave()
                await self._arrive(next_seat)
        except _Refused as refused:
            if turned:
                raise MoveError(f"customer {self._name} is refused by both shards: {turned}; and {refused.why}") from None
            await self._turn(next_seat, refused)
            raise MoveError(f"customer {self._name} stays on shard {self._seat.shard}: {refused.why}") from None
        redis, keys = await self._shard(next_seat.shard)
        await scripts.SEAT(redis, [keys.seats], [next_seat.tenant, next_seat.generation, next_seat.owned_by(self._name)])
        await self.end(next_seat)
        return next_seat

    async def _shard(self, number: int) -> tuple[Redis, ShardKeys]:
        redis, keys = await self._client.shard(number, self._deadline)
        return redis.patient(self._deadline), keys

    # Leaving.

    async def leave(self) -> None:
        """Lets the customer leave its shard, and waits until it has."""
        seat, keys = self._seat, self._keys
        claim = [seat.tenant, seat.generation, seat.owned_by(self._name)]
        # A customer that never called has a seat only in the directory.
        await scripts.CLAIM(self._redis, [keys.seats], claim)
        entry = await scripts.LEAVE(self._redis, [keys.seats, keys.frames(seat.tenant)], claim)
        if entry is None:
            raise MoveError(f"customer {self._name} can't leave shard {seat.shard}: its seat there is another's")
        await self._wait(self._redis, keys, seat.tenant, entry)

    async def _wait(self, redis: Redis, keys: ShardKeys, tenant: int, entry: bytes) -> dict[bytes, bytes]:
        """The reply to an entry with which a tenant leaves or arrives; empty if the reply was dropped since."""
        name, behind = keys.replies(tenant), before(entry)
        while True:
            found = await redis.xread(name, behind, 1)
            if found:
                return found[0][1] if found[0][0] == entry else {}
            kept = await redis.hget(keys.aside, tenant)
            if kept and order(Aside.read(kept).entry.encode()) <= order(entry):
                raise SetAside(f"customer {self._name} is set aside until an operator has looked: {Aside.read(kept).why}")
            if self._client.system.now() >= self._deadline:
                raise NoReply(f"shard {keys.number} has not come to entry {entry.decode()}: does its worker run?")

    # Arriving.

    async def _arrive(self, next_seat: Seat) -> None:
        """Gives the state of the tenant to the next shard, and waits until it has arrived; raises _Refused if the shard refuses it."""
        redis, keys = await self._shard(next_seat.shard)
        kept = await self._redis.hget(self._keys.left, self._seat.generation)
        if kept is None:
            if await self._has_arrived(next_seat):
                # Another process has ended the same move meanwhile.
                return
            raise MoveError(f"shard {self._seat.shard} has no state of customer {self._name}, which has left it")
        try:
            manifest = await self._bring(redis, keys, next_seat, Manifest.read(kept))
        except SnapshotDamaged as damaged:
            raise MoveError(f"customer {self._name} can't be moved: {damaged}") from None
        records = await self._redis.hgetall(self._keys.sessions(self._seat.generation))
        used = [keys.seats, keys.frames(next_seat.tenant), keys.sessions(next_seat.generation)]
        words = [next_seat.tenant, next_seat.generation, manifest.to_bytes(), *(word for pair in records.items() for word in pair)]
        entry = await scripts.ARRIVE(redis, used, words)
        if entry is None:
            # The process that took the move back has not finished.
            raise _Refused(b"", f"the seat on shard {next_seat.shard} is closed: the move was taken back")
        if entry != b"has":
            await self._demand_made(redis, keys, next_seat, entry)

    async def _bring(self, redis: Redis, keys: ShardKeys, next_seat: Seat, manifest: Manifest) -> Manifest:
        """Copies the pieces of the state to the next shard, under names of this arrival."""
        # The checksum does not cover the name.
        arriving = replace(manifest, name=arrival(next_seat.generation))
        for old, new in zip(manifest.names(), arriving.names()):
            piece = await self._redis.hget(self._keys.pieces, old)
            if piece is not None:
                words = [next_seat.tenant, next_seat.generation, new, piece]
                await scripts.BRING(redis, [keys.seats, keys.pieces], words)
        return arriving

    async def _has_arrived(self, seat: Seat) -> bool:
        """Whether the arrival is in the new shard's stream, and then waits until it is done."""
        redis, keys = await self._shard(seat.shard)
        said = await redis.hget(keys.seats, seat.tenant) or b""
        generation, _, rest = said.partition(b" ")
        what, _, entry = rest.partition(b":")
        if not generation or int(generation) != seat.generation or what == b"closed":
            return False
        if what == b"arrives":
            await self._demand_made(redis, keys, seat, entry)
        return True

    async def _demand_made(self, redis: Redis, keys: ShardKeys, seat: Seat, entry: bytes) -> None:
        reply = await self._wait(redis, keys, seat.tenant, entry)
        if FAULT in reply:
            raise _Refused(entry, reply[FAULT].decode(errors="replace"))

    # The end of a move.

    async def end(self, next_seat: Seat | None) -> None:
        """Drops the state that the old shard has kept, and records the end in the directory."""
        kept = await self._redis.hget(self._keys.left, self._seat.generation)
        if kept is not None:
            await _drop(self._redis, self._keys, Manifest.read(kept).names())
        await self._redis.call("DEL", self._keys.sessions(self._seat.generation))
        await self._redis.call("HDEL", self._keys.left, self._seat.generation)
        await self._directory.end_move(self._name, self._seat, next_seat)

    # Back.

    async def turn_back(self, next_seat: Seat | None) -> Seat:
        """Takes the move back: the customer leaves and returns, so that no late step of the move has an effect.

        A move whose customer has arrived is completed.
        """
        if next_seat and not await self._close(next_seat, b""):
            return await self.to(next_seat)
        await self.leave()
        if await self._redis.hget(self._keys.left, self._seat.generation) is None:
            raise MoveError(f"customer {self._name} has left shard {self._seat.shard}, and nothing of it is kept there")
        again = await self._directory.turn_move(self._name, self._seat, next_seat)
        if again is None:
            raise MoveError(f"the move of customer {self._name} has ended meanwhile")
        return await self.to(again, "the move was taken back")

    async def _turn(self, next_seat: Seat, refused: _Refused) -> None:
        """Lets the customer return to the old shard, after the next shard has refused it."""
        await self._close(next_seat, refused.entry)
        again = await self._directory.turn_move(self._name, self._seat, next_seat)
        if again:
            await self.to(again, refused.why)

    async def _close(self, seat: Seat, entry: bytes) -> bool:
        """Closes a seat that nobody has arrived at, or an entry by which nobody could; returns whether it is closed."""
        redis, keys = await self._shard(seat.shard)
        words = [seat.tenant, seat.generation, entry]
        closed = await scripts.CLOSE_SEAT(redis, [keys.seats, keys.sessions(seat.generation)], words)
        if closed:
            prefix = arrival(seat.generation).encode() + b":"
            names = [name for name in await redis.call("HKEYS", keys.pieces) if name.startswith(prefix)]
            await _drop(redis, keys, names)
        return bool(closed)


def arrival(generation: int) -> str:
    """The prefix of the names of pieces that arrive at a seat."""
    return f"arrival-{generation}"


async def _drop(redis: Redis, keys: ShardKeys, names: Iterable[str | bytes]) -> None:
    for some in in_parts(names, lambda _: 1, _AT_ONCE):
        await redis.call("HDEL", keys.pieces, *some)
