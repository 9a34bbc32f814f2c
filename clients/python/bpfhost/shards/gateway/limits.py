"""Limits of a gateway and of a customer: of rates, of replies that are not read, and of what comes from one address."""

from __future__ import annotations

import collections
import ipaddress
from collections.abc import Callable, Hashable
from dataclasses import dataclass
from typing import Generic, TypeVar

MEBI = 1 << 20
_MOST_ADDRESSES = 4096

Holder = TypeVar("Holder", bound=Hashable)
Key = TypeVar("Key", bound=Hashable)


@dataclass(frozen=True)
class Limits:
    """A customer's limits: connections at once, frames per second, and bytes of frames per second."""

    connections: int = 8
    frames: float = 100_000.0
    bytes: float = 64.0 * MEBI


@dataclass(frozen=True)
class GatewayLimits:
    """A gateway's limits.

    These are its connections at once; how many of them may have no known customer yet, in all and from one address; new connections per
    second, in all and from one address; the seconds until a connection has said who the customer is, until a frame that has begun is
    whole, until a customer has read some of its replies, and for which no frame comes; the bytes of replies that a customer, and all
    customers of a shard, have not read; and how long the gateway waits for a call.
    """

    connections: int = 1000
    unknown: int = 128
    unknown_of_address: int = 32
    new: float = 200.0
    new_of_address: float = 100.0
    seconds_silent: float = 5.0
    seconds_for_a_frame: float = 10.0
    seconds_to_read: float = 30.0
    seconds_idle: float = 600.0
    bytes_of_customer: int = 16 * MEBI
    bytes_of_shard: int = 64 * MEBI
    seconds: float = 60.0


class Rate:
    """A rate of so many per second, with those of one second at once."""

    def __init__(self, a_second: float, now: float) -> None:
        self.a_second, self._free, self._then = a_second, a_second, now

    def free(self, now: float) -> float:
        """How many may come now."""
        self._free = min(self.a_second, self._free + (now - self._then) * self.a_second)
        self._then = now
        return self._free

    def change(self, a_second: float, now: float) -> None:
        """Makes it another rate from now on; what was taken before is still taken."""
        self._free, self.a_second = min(self.free(now), a_second), a_second

    def take(self, many: float, now: float) -> float:
        """Takes so many, and returns the seconds after which they may come."""
        # A number above that of one second may come when all of a second is free.
        delay = max(0.0, (min(many, self.a_second) - self.free(now)) / self.a_second)
        self._free -= many
        return delay


class Unread(Generic[Holder]):
    """The bytes of replies that customers have not read yet: of each customer, and of all customers of a shard.

    If there are too many of one of them, the connection of those that has waited longest for its customer is ended, and nobody else waits.
    """

    def __init__(self, of_customer: int, of_shard: int, end: Callable[[Holder], None]) -> None:
        self._most, self._end = (of_customer, of_shard), end
        # The customer, the shard and the bytes of each connection, those first that have waited longest.
        self._held: dict[Holder, tuple[tuple[str, int], int]] = {}
        self._sums: tuple[collections.Counter[Hashable], ...] = (collections.Counter(), collections.Counter())

    def take(self, holder: Holder, customer: str, shard: int, size: int) -> None:
        """Takes the bytes of replies that are there."""
        self._held[holder] = (customer, shard), size
        for sums, key, most in zip(self._sums, (customer, shard), self._most):
            sums[key] += size
            while sums[key] > most and (first := self._first_of(key, holder)) is not None:
                self.give(first)
                self._end(first)

    def _first_of(self, key: Hashable, but: Holder) -> Holder | None:
        return next((one for one, (keys, _) in self._held.items() if key in keys and one is not but), None)

    def give(self, holder: Holder) -> None:
        """Gives them back, if that was not done before."""
        keys, size = self._held.pop(holder, (("", -1), 0))
        for sums, key in zip(self._sums, keys):
            subtract(sums, key, size)

    def total(self) -> int:
        """The bytes of all."""
        return self._sums[0].total()


class Addresses:
    """The new connections of each address, and those of them whose customer is not known yet. IPv6 counts by networks of 64 bits."""

    def __init__(self, limits: GatewayLimits) -> None:
        self._limits = limits
        self._rates: dict[str, Rate] = {}
        self.unknown: collections.Counter[str] = collections.Counter()

    def admit(self, address: str, now: float) -> bool:
        """Whether another connection may come from an address; a Unix socket has none, and no limit."""
        if not address:
            return True
        if len(self._rates) >= _MOST_ADDRESSES and address not in self._rates:
            # Those whose rate is not in use are forgotten; or else the oldest.
            self._rates = {one: rate for one, rate in self._rates.items() if rate.free(now) < rate.a_second} or self._rates
            if len(self._rates) >= _MOST_ADDRESSES:
                del self._rates[next(iter(self._rates))]
        rate = self._rates.setdefault(address, Rate(self._limits.new_of_address, now))
        if self.unknown[address] >= self._limits.unknown_of_address or rate.free(now) < 1.0:
            return False
        rate.take(1, now)
        return True


def subtract(counts: collections.Counter[Key], key: Key, many: int = 1) -> None:
    """Makes a count smaller; one of nothing is forgotten."""
    counts[key] -= many
    if not counts[key]:
        del counts[key]


def network_of(peer: object) -> str:
    """What counts as one address; empty for a Unix socket."""
    if not isinstance(peer, tuple):
        return ""
    found = ipaddress.ip_address(str(peer[0]).partition("%")[0])
    return str(found) if found.version == 4 else str(ipaddress.ip_network((found, 64), strict=False))
