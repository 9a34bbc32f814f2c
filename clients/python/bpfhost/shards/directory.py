"""The directory: the shard and the tenant number of each customer. A new customer gets the least loaded shard.

A shard and the directory know each other by a name that is made when the shard is first served. So a worker that was given another Redis, or
whose Redis has lost its data, serves nobody: it would reply as if its customers were new.
"""

from __future__ import annotations

from dataclasses import dataclass

from bpfhost.numbers import MOST_TENANTS
from bpfhost.shards import directory_scripts as scripts
from bpfhost.shards.connection import Redis
from bpfhost.shards.errors import MoveError, NotServed, NotTaken, OtherShard, ShardError
from bpfhost.shards.names import PREFIX, DirectoryKeys, ShardKeys
from bpfhost.shards.scripts import FORGET

# The highest number of a shard.
MOST_SHARD = (1 << 31) - 1
NOWHERE = b"nowhere"
_WHY = {
    b"no shards": "no shard is there: no worker has begun yet",
    b"no shard": "there is no such shard",
    b"full": f"no shard has room: the least loaded one has {MOST_TENANTS} customers",
    b"not served": "no shard that may have it is served",
    b"unknown": "the customer is not in the directory",
    b"no other": "there is no other shard",
    b"here": "the customer is there already",
}


@dataclass(frozen=True)
class Seat:
    """A shard and a tenant number; a generation is never given again, so an old seat differs from a new one."""

    shard: int
    tenant: int
    generation: int

    @classmethod
    def read(cls, text: bytes) -> Seat:
        """Reads its text in the directory."""
        return cls(*map(int, text.split()))

    def text(self) -> bytes:
        """Its text in the directory."""
        return b"%d %d %d" % (self.shard, self.tenant, self.generation)

    def owned_by(self, name: str) -> bytes:
        """The text in the shard's seats while the seat is this customer's."""
        return b"%d name:%s" % (self.generation, name.encode())


class Directory:
    """The directory in a Redis."""

    def __init__(self, redis: Redis, prefix: str = PREFIX) -> None:
        self.keys = DirectoryKeys(prefix)
        self.redis = redis.near(self.keys.customers)

    def patient(self, deadline: float) -> Directory:
        """The same, whose calls are repeated while Redis is away, until a time of the system's clock."""
        return Directory(self.redis.patient(deadline), self.keys.prefix)

    # Shards.

    async def register(self, shard: int, incarnation: bytes, server: str = "") -> None:
        """Registers a shard by the name that was made with it, and the URL of its Redis if that is another one; may be repeated.

        Raises ShardError if it is no number of a shard, and OtherShard if the directory knows it by another name.
        """
        if not 0 <= shard <= MOST_SHARD:
            raise ShardError(f"a shard's number is 0 to {MOST_SHARD}, and not {shard}")
        keys = [self.keys.loads, self.keys.incarnations, self.keys.servers]
        known = await scripts.REGISTER(self.redis, keys, [shard, incarnation, server])
        if known != incarnation:
            raise OtherShard(_OTHER.format(shard=shard))

    async def incarnation(self, shard: int) -> bytes | None:
        """The name that was made with a shard, or None if the shard is not known."""
        return await self.redis.hget(self.keys.incarnations, shard)

    async def beat(self, shard: int, incarnation: bytes) -> None:
        """Records that a shard is served, so that it is offered; raises OtherShard if the directory does not know it by this name."""
        if not await scripts.BEAT(self.redis, [self.keys.incarnations, self.keys.beats], [shard, incarnation]):
            raise OtherShard(_OTHER.format(shard=shard))

    async def withdraw(self, shard: int, count: bytes = b"") -> None:
        """Records that a shard is not served any more, if its count is still the one that was seen."""
        await FORGET(self.redis, [self.keys.beats], [shard, count])

    async def beats(self) -> dict[int, bytes]:
        """The shards that are served, with the counts that their workers raise."""
        return {int(shard): count for shard, count in (await self.redis.hgetall(self.keys.beats)).items()}

    async def drain(self, shard: int, is_drained: bool = True) -> None:
        """Stops or resumes offering a shard to customers. Raises ShardError if the shard is not known."""
        if shard not in await self.loads():
            raise ShardError(f"the directory knows no shard {shard}")
        await self.redis.call(*(["HSET", self.keys.drained, shard, "1"] if is_drained else ["HDEL", self.keys.drained, shard]))

    async def drained(self) -> set[int]:
        """The shards that are not offered to customers."""
        return {int(shard) for shard in await self.redis.call("HKEYS", self.keys.drained)}

    async def remove_shard(self, shard: int, lost: bool = False) -> None:
        """Removes a shard that has no customers, or whose customers are lost. Raises ShardError if it can't be removed."""
        keys = [*self.keys.all, self.keys.incarnations, self.keys.servers]
        what = await scripts.REMOVE_SHARD(self.redis, keys, [shard, "lost" if lost else ""])
        if what != b"removed":
            raise ShardError(f"shard {shard} can't be removed: {_WHY_NOT_REMOVED[what]}")

    async def server(self, shard: int) -> str:
        """The URL of a shard's Redis, or an empty string if it is that of the directory."""
        return (await self.redis.hget(self.keys.servers, shard) or b"").decode()

    async def loads(self) -> dict[int, int]:
        """The number of customers of each shard, including those on the way to it."""
        found = await self.redis.call("ZRANGE", self.keys.loads, 0, -1, "WITHSCORES")
        return {int(shard): int(float(load)) for shard, load in zip(found[::2], found[1::2])}

    # Customers.

    async def place(self, name: str) -> Seat:
        """The seat of a customer, which is given one if it has none; raises NotTaken if there is no room."""
        seat, *why = await scripts.PLACE(self.redis, self.keys.all, [name])
        if not seat:
            kind = NotServed if why[0] == b"not served" else NotTaken
            raise kind(f"customer {name}: {_WHY[why[0]]}")
        return Seat.read(seat)

    async def seat(self, name: str) -> Seat | None:
        """The seat of a customer, or None."""
        seat = await self.redis.hget(self.keys.customers, name)
        return Seat.read(seat) if seat else None

    async def customers(self) -> dict[str, Seat]:
        """All customers."""
        return {name.decode(): Seat.read(seat) for name, seat in (await self.redis.hgetall(self.keys.customers)).items()}

    async def moves(self) -> dict[str, Seat | None]:
        """The customers that are being moved, and their next seats; None if they are removed."""
        found = await self.redis.hgetall(self.keys.moves)
        return {name.decode(): None if seat == NOWHERE else Seat.read(seat) for name, seat in found.items()}

    async def begin_move(self, name: str, shard: int | None = None, removed: bool = False) -> tuple[Seat, Seat | None]:
        """The seat of a customer, and the next one, which is reserved, or None if the customer is removed. May be repeated."""
        words = [name, "" if shard is None else shard, NOWHERE if removed else b""]
        seat, what = await scripts.BEGIN_MOVE(self.redis, self.keys.all, words)
        if not seat:
            raise MoveError(f"customer {name} can't be moved: {_WHY[what]}")
        if removed and what != NOWHERE:
            raise MoveError(f"customer {name} is being moved: that has to end first")
        if not removed and what == NOWHERE:
            raise MoveError(f"customer {name} is being removed")
        return Seat.read(seat), None if what == NOWHERE else Seat.read(what)

    async def end_move(self, name: str, seat: Seat, next_seat: Seat | None) -> None:
        """Gives the customer its next seat, and frees the old one, if this move has not ended. May be repeated."""
        await scripts.END_MOVE(self.redis, self.keys.all, [name, seat.text(), next_seat.text() if next_seat else NOWHERE])

    async def turn_move(self, name: str, seat: Seat, next_seat: Seat | None) -> Seat | None:
        """Turns the move of a customer that has left its seat back to the same shard, and returns the next seat there.

        If the move is another one by now, returns the next seat of that one.
        """
        words = [name, seat.text(), next_seat.text() if next_seat else NOWHERE]
        given, why = await scripts.TURN_MOVE(self.redis, self.keys.all, words)
        if why:
            raise MoveError(f"customer {name} can't go back to shard {seat.shard}: it is full")
        return Seat.read(given) if given and given != NOWHERE else None


_OTHER = (
    "shard {shard} is not the one that the directory knows: this Redis is another one, or has lost what it had;"
    " `remove-shard {shard} --lost` gives up what was there"
)
_WHY_NOT_REMOVED = {
    b"unknown": "the directory does not know it",
    b"served": "it is served: stop its worker first",
    b"customers": "it has customers: `drain` moves them away",
    b"moves": "a customer is being moved to it: `abort-move` ends that",
}


async def register(redis: Redis, keys: ShardKeys, directory: Directory, server: str) -> bytes:
    """Registers a shard in the directory, after its lease is held and its Redis is known to be durable; returns its name.

    Raises OtherShard if the directory knows another one by this number, or none though the shard has customers.
    """
    own, known = await redis.call("GET", keys.incarnation), await directory.incarnation(keys.number)
    if own is None and known is None:
        await redis.call("SETNX", keys.incarnation, redis.system.fresh())
        own = await redis.call("GET", keys.incarnation)
    elif known is None and await redis.call("EXISTS", keys.seats):
        raise OtherShard(
            f"shard {keys.number} has customers, and the directory knows nothing of it: it is another directory, or was told that the"
            f" shard is removed"
        )
    await directory.register(keys.number, own or b"nothing", server)
    return bytes(own or b"")


def demand_name(name: str) -> str:
    """The name, if a customer may have it; raises ValueError otherwise."""
    if not name or len(name) > 255 or any(letter.isspace() or not letter.isprintable() for letter in name):
        raise ValueError(f"a customer's name has 1 to 255 printable characters without spaces, and is not {name!r}")
    return name
