"""Operators' commands: emptying a shard, deciding on what is set aside, and showing the state."""

from __future__ import annotations

import asyncio
from collections.abc import AsyncIterator, Callable, Iterator
from dataclasses import dataclass

from bpfhost.shards import moving, scripts
from bpfhost.shards.aside import LOST, SKIP, Aside
from bpfhost.shards.client import AsyncClient
from bpfhost.shards.connection import Redis, demand_durable
from bpfhost.shards.directory import Seat
from bpfhost.shards.errors import Away, RedisError, ShardError
from bpfhost.shards.lease import holder_of
from bpfhost.shards.names import CALL_WEIGHT, ShardKeys
from bpfhost.shards.system import Answer, Work

_SECONDS_TO_ANSWER = 5.0
_PAUSE = 0.1

async def drain(client: AsyncClient, shard: int, seconds: float) -> AsyncIterator[tuple[str, Seat]]:
    """Stops offering a shard, and moves its customers away; yields each with its new seat. The same call goes on later."""
    await client.directory.drain(shard)
    moves = await client.directory.moves()
    for name, seat in sorted((await client.directory.customers()).items()):
        if seat.shard == shard or (name in moves and (to := moves[name]) and to.shard == shard):
            found = await moving.move(client, name, None, seconds)
            yield name, await moving.move(client, name, None, seconds) if found.shard == shard else found


async def remove_shard(client: AsyncClient, shard: int, lost: bool) -> None:
    """Removes a shard (`Directory.remove_shard`).

    If the directory has it as served, its count is watched for some seconds: the shard is not served if the count does not change.
    """
    seen = (await client.directory.beats()).get(shard)
    if seen is not None:
        await asyncio.sleep(_SECONDS_TO_ANSWER)
        await client.directory.withdraw(shard, seen)
    await client.directory.remove_shard(shard, lost)


async def say(client: AsyncClient, name: str, word: str, seconds: float) -> str:
    """Decides on what is set aside of a customer, waits until the worker has done it, and returns what was set aside.

    Raises ShardError if nothing is set aside, or the decision does not apply to it.
    """
    seat = await client.directory.seat(name)
    if seat is None:
        raise ShardError(f"customer {name} is not in the directory")
    redis, keys = await client.shard(seat.shard)
    kept = await redis.hget(keys.aside, seat.tenant)
    if kept is None:
        raise ShardError(f"nothing of customer {name} is set aside")
    aside = Aside.read(kept)
    if word == SKIP and aside.kind == LOST:
        raise ShardError(f"the state of customer {name} is lost, and there is nothing to go on with: `retry` or `remove` it: {aside.why}")
    await scripts.SAY(redis, [keys.aside, keys.words], [seat.tenant, kept, f"{word} {aside.entry}"])
    deadline = client.system.now() + seconds
    while await redis.hget(keys.words, seat.tenant) is not None:
        if client.system.now() > deadline:
            raise ShardError(f"shard {seat.shard} has not done it yet: does its worker run?")
        await asyncio.sleep(_PAUSE)
    return aside.why


@dataclass(frozen=True)
class _Lease:
    """A lease, and the weight of the calls that wait; or why the shard's Redis does not report them."""

    token: bytes = b""
    count: bytes = b""
    seconds: float = 0.0
    waiting: int | None = None
    unreachable: str = ""


@dataclass(frozen=True)
class SeenShard:
    """A shard as an operator sees it.

    It has its customers, the bytes that wait, the worker that serves it and whether it raises the lease, whether the shard is offered and
    drained, and what is wrong with its Redis.
    """

    shard: int
    customers: int
    waiting: int | None
    served_by: str
    raises: bool
    offered: bool
    drained: bool
    unreachable: str
    wrong: str


@dataclass(frozen=True)
class SeenAside:
    """What is set aside: the customer's name, or else its seat, and the reason."""

    customer: str
    why: str


@dataclass(frozen=True)
class Seen:
    """The whole state, each part in order. For moves, the next seats."""

    shards: list[SeenShard]
    moves: dict[str, Seat | None]
    aside: list[SeenAside]
    customers: dict[str, Seat]


async def look(client: AsyncClient) -> Seen:
    """Reads the whole state; reads the leases twice, to see whether they are raised."""
    loads, drained, beats = await client.directory.loads(), await client.directory.drained(), await client.directory.beats()
    first = {shard: await _lease(client, shard) for shard in loads}
    held = [lease.seconds for lease in first.values() if lease.token]
    if held:
        await asyncio.sleep(min(_SECONDS_TO_ANSWER, max(held) * 0.7))
    customers, shards = dict(sorted((await client.directory.customers()).items())), []
    for shard, load in sorted(loads.items()):
        lease, before = await _lease(client, shard), first[shard]
        raises = bool(lease.token) and (lease.token, lease.count) != (before.token, before.count)
        wrong = await _told(client, shard, lambda redis, _keys: demand_durable(redis))
        # If it can't be reached, the shard's lease shows that.
        why, holder = "" if isinstance(wrong, Away) else str(wrong), holder_of(lease.token)
        offered, is_drained = shard in beats, shard in drained
        shards.append(SeenShard(shard, load, lease.waiting, holder, raises, offered, is_drained, lease.unreachable, why))
    moves = dict(sorted((await client.directory.moves()).items()))
    return Seen(shards, moves, [one async for one in _asides(client, customers)], customers)


def lines(seen: Seen) -> Iterator[str]:
    """Lines on the shards, moves, what is set aside, and customers."""
    for one in seen.shards:
        offered = "drained" if one.drained else "" if one.offered else "not offered"
        waits = f"{one.waiting // CALL_WEIGHT} KiB of calls wait" if one.waiting is not None else ""
        yield ", ".join(filter(None, [f"shard {one.shard}: {one.customers} customers", waits, _health(one), offered]))
    yield from (f"shard {one.shard}: {one.wrong}" for one in seen.shards if one.wrong)
    for name, to in seen.moves.items():
        seat = seen.customers.get(name)
        yield f"{name} is being {'moved' if to else 'removed'}: from shard {seat.shard if seat else '?'}" + (f" to shard {to.shard}" if to else "")
    yield from (f"{one.customer} is set aside: {one.why}" for one in seen.aside)
    yield from (place(name, seat) for name, seat in seen.customers.items())


def place(name: str, seat: Seat) -> str:
    """The seat of a customer."""
    return f"{name}: shard {seat.shard}, tenant {seat.tenant}"


async def _told(client: AsyncClient, shard: int, ask: Callable[[Redis, ShardKeys], Work[Answer]]) -> Answer | RedisError:
    """What the Redis of a shard reports, or why it does not."""
    try:
        redis, keys = await client.shard(shard)
        return await ask(redis.until(client.system.now() + _SECONDS_TO_ANSWER), keys)
    except RedisError as error:
        return error


async def _lease(client: AsyncClient, shard: int) -> _Lease:
    async def read(redis: Redis, keys: ShardKeys) -> _Lease:
        said, waiting = await redis.hgetall(keys.lease), await redis.hgetall(keys.waiting)
        seconds = int(said.get(b"milliseconds", b"0")) / 1000
        return _Lease(said.get(b"token", b""), said.get(b"count", b"0"), seconds, sum(map(int, waiting.values())))

    found = await _told(client, shard, read)
    return _Lease(unreachable=str(found)) if isinstance(found, RedisError) else found


def _health(seen: SeenShard) -> str:
    if not seen.served_by:
        return seen.unreachable or "not served"
    return f"served by {seen.served_by}" if seen.raises else f"{seen.served_by} has its lease, and does not raise it"


async def _asides(client: AsyncClient, customers: dict[str, Seat]) -> AsyncIterator[SeenAside]:
    names = {(seat.shard, seat.tenant): name for name, seat in customers.items()}
    for shard in sorted(await client.directory.loads()):
        found = await _told(client, shard, lambda redis, keys: redis.hgetall(keys.aside))
        for tenant, kept in sorted(found.items()) if isinstance(found, dict) else ():
            yield SeenAside(names.get((shard, int(tenant)), f"tenant {int(tenant)} of shard {shard}"), Aside.read(kept).why)
