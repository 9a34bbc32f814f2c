"""The keys of a shard and of the directory in Redis, the fields of entries, and the ids of entries.

No script has keys of two shards, or of a shard and the directory, so each may be on its own server. The braces are the hash tags of a
Redis cluster.
"""

from __future__ import annotations

from dataclasses import dataclass

PREFIX = "bpfhost"

# Fields of an entry of frames: frames, or packed test runs (`alike.packed`), or that the tenant leaves or arrives.
FRAMES, RUNS, LEAVES, ARRIVES = b"f", b"runs", b"leave", b"arrive"
# Fields of an entry of replies: replies, or a sentence with the reason why there are none.
REPLIES, FAULT = b"r", b"e"

# The most bytes of frames that one customer may have waiting; each call counts as CALL_WEIGHT bytes more. A further call waits.
MOST_WAITING, CALL_WEIGHT = 4 << 20, 1024
# So many sessions of one customer are remembered.
MOST_SESSIONS = 1000
# One process of a session gives up fewer calls than this.
GIVEN_UP_BY_ONE = 1_000_000

# The id before all entries.
START = b"0-0"
_MOST_SEQUENCE = (1 << 64) - 1


class _Key:
    """A key with a name of its own, among those of a shard or of the directory."""

    def __init__(self, what: str) -> None:
        self._what = what

    def __get__(self, keys: ShardKeys | DirectoryKeys, _kind: object = None) -> str:
        return keys.key(self._what)


@dataclass(frozen=True)
class ShardKeys:
    """The keys of one shard."""

    number: int
    prefix: str = PREFIX

    # A hash: the token of the worker that serves the shard, the count that it raises, and for how long the shard was served.
    lease = _Key("lease")
    # A hash from tenant numbers to generations, and the customer of the seat (`Seat`).
    seats = _Key("seats")
    # A hash from tenant numbers to the weight of calls that wait.
    waiting = _Key("waiting")
    # A hash from tenant numbers to the last snapshot, and the one before it (`Manifest`).
    snapshots = _Key("snapshots")
    # A hash with the bytes of snapshots, in pieces.
    pieces = _Key("pieces")
    # A hash from generations to the snapshots of customers that have left and not yet arrived.
    left = _Key("left")
    # A hash from tenant numbers to places, with how long the shard had been served then.
    marks = _Key("marks")
    # A hash from tenant numbers to what is set aside, and why.
    aside = _Key("aside")
    # A hash from tenant numbers to an operator's decisions on what is set aside.
    words = _Key("words")
    # A name that was made with the shard, which the directory knows too.
    incarnation = _Key("incarnation")

    def key(self, what: str) -> str:
        """The key of something that the shard has."""
        return f"{self.prefix}:{{{self.number}}}:{what}"

    def frames(self, tenant: int) -> str:
        """The stream of a tenant's frames."""
        return self.key(f"frames:{tenant}")

    def replies(self, tenant: int) -> str:
        """The stream of a tenant's replies; each has the id of its entry of frames, so the last id is the tenant's place."""
        return self.key(f"replies:{tenant}")

    def sessions(self, generation: int) -> str:
        """A hash from the sessions of a seat's customer to the number and the entry of the last call."""
        return self.key(f"sessions:{generation}")


@dataclass(frozen=True)
class DirectoryKeys:
    """The keys of the directory."""

    prefix: str = PREFIX

    # A hash from names to seats.
    customers = _Key("customers")
    # A sorted set of shards by the number of their customers.
    loads = _Key("loads")
    # A hash from the names of customers that are moved to their next seats.
    moves = _Key("moves")
    # A hash from the shards that are served to a count that their workers raise.
    beats = _Key("beats")
    # A hash of shards that get no new customers.
    drained = _Key("drained")
    # A hash from gateways to what each reports of its customers (`gateway/sharing.py`).
    gateways = _Key("gateways")
    # A hash from shards to the URL of their Redis, if that is not the directory's.
    servers = _Key("servers")
    # A hash from shards to the names that were made with them.
    incarnations = _Key("incarnations")

    def key(self, what: str) -> str:
        """The key of something that the directory has."""
        return f"{self.prefix}:{{directory}}:{what}"

    @property
    def all(self) -> list[str]:
        """The keys that scripts have, in their order."""
        return [self.key(what) for what in ("customers", "loads", "numbers", "generation", "moves", "beats", "drained")]


def order(entry: bytes) -> tuple[int, int]:
    """An entry's id as two numbers, by which ids are ordered."""
    milliseconds, _, sequence = entry.partition(b"-")
    return int(milliseconds), int(sequence)


def before(entry: bytes) -> bytes:
    """The last id below this one."""
    milliseconds, sequence = order(entry)
    return b"%d-%d" % ((milliseconds, sequence - 1) if sequence else (milliseconds - 1, _MOST_SEQUENCE))


def after(entry: bytes) -> bytes:
    """The first id above this one."""
    milliseconds, sequence = order(entry)
    return b"%d-%d" % ((milliseconds, sequence + 1) if sequence < _MOST_SEQUENCE else (milliseconds + 1, 0))


def weight(stream: int) -> int:
    """The weight of a call of so many bytes while it waits."""
    return stream + CALL_WEIGHT
