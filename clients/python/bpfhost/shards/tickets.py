"""Calls of a customer: their numbers in a session, and their places once these are known."""

from __future__ import annotations

import json
from dataclasses import dataclass, field
from typing import NamedTuple

from bpfhost.alike import is_short
from bpfhost.shards.calls import LONGEST_CALL, MOST_ALIKE, MOST_FRAMES
from bpfhost.shards.directory import Seat
from bpfhost.shards.errors import CallError
from bpfhost.state import split
from bpfhost.tenancy import BODY


class Place(NamedTuple):
    """The place of a call: a shard, a tenant number, and the entry."""

    shard: int
    tenant: int
    entry: bytes

    @classmethod
    def of(cls, shard: bytes, tenant: bytes, entry: bytes) -> Place:
        """The place that a session's record has."""
        return cls(int(shard), int(tenant), entry)


def served_at(record: bytes) -> float:
    """For how many seconds the shard had been served at the last call of a session, by the session's record (`scripts`)."""
    served = json.loads(record)["served"] if record.startswith(b"{") else record.split()[2]
    return int(served) / 1000


@dataclass
class Ticket:
    """A call: its frames as they are stored, its number in a session, the number of calls given up before it, its last seat, its place.

    The seat is the one that it was sent to last; the place is set once it is known. Test runs may be packed (`alike.packed`).
    """

    stored: bytes
    session: str
    number: int
    given_up: int = 0
    is_packed: bool = False
    seat: Seat | None = None
    place: Place | None = None
    # The replies, one after another; empty until they have come.
    answered: bytes = b""
    # Each of them, once somebody has asked for that.
    each: list[bytes] | None = None

    @property
    def replies(self) -> list[bytes]:
        """The replies that have come, one for each frame."""
        self.each = self.each or split(self.answered)
        return self.each

    @property
    def entry(self) -> bytes | None:
        """The id of its entry, once that is known."""
        return self.place.entry if self.place else None


@dataclass
class Gathered:
    """Frames of several senders in one call; after it is sent, its ticket, or why it was not taken."""

    stream: bytearray = field(default_factory=bytearray)
    count: int = 0
    ticket: Ticket | None = None
    error: CallError | None = None
    # The header of all frames, while they are alike and have short replies.
    head: bytes = b""

    @property
    def alike(self) -> int:
        """The length of each frame if there are several, they are alike and have short replies; 0 otherwise."""
        return 4 + int.from_bytes(self.head[:4], "little") if self.head and self.count > 1 else 0

    def add(self, stream: bytes, count: int, alike: int) -> Part | None:
        """Adds frames to these, if there is room for them."""
        head = stream[:BODY] if (alike or count == 1) and is_short(stream) else b""
        if self.count and head != self.head:
            head = b""
        first, many = self.count, self.count + count
        if many > (MOST_ALIKE if head else MOST_FRAMES) or len(self.stream) + len(stream) > LONGEST_CALL:
            return None
        self.stream += stream
        self.count, self.head = many, head
        return Part(self, first, many)


class Part(NamedTuple):
    """Frames that are in a call with others: the first one, and the one after the last."""

    call: Gathered
    first: int
    end: int
