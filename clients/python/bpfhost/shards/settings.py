"""The settings of a worker."""

from __future__ import annotations

from dataclasses import dataclass

from bpfhost.shards.lease import SECONDS
from bpfhost.shards.serving import MOST_ASKED

# The most calls, and bytes, between two snapshots.
MOST_ENTRIES, MOST_BYTES = 200_000, 1 << 29
LEAST_REPLY_BYTES = 1 << 10


@dataclass(frozen=True)
class Settings:
    """The settings of a worker.

    These are the seconds of its lease; how many calls, frames, or bytes of frames and replies, a starting worker plays again at most, in
    all of its tenants (a snapshot is taken of the tenant that has most of them); for how long replies are kept for those that have not
    read them, and how many bytes of them at most, of all customers and of one, the oldest dropped first; how many frames a host is sent
    before another one is started with the same state; how long snapshots are taken at the end; and in how many lanes streams are read.
    """

    lease_seconds: float = SECONDS
    snapshot_entries: int = 50_000
    snapshot_frames: int = 400_000
    snapshot_bytes: int = 1 << 28
    reply_seconds: float = 3600.0
    reply_bytes: int = 1 << 30
    reply_bytes_of_customer: int = 1 << 28
    most_asked: int = MOST_ASKED
    demand_durable: bool = True
    drain_seconds: float = 0.0
    lanes: int = 8

    def shares(self, entries: int, frames: int, size: int) -> tuple[float, float, float]:
        """What part of what may be played again so many calls, frames, and bytes of frames and replies are."""
        return entries / self.snapshot_entries, frames / self.snapshot_frames, size / self.snapshot_bytes

    def __post_init__(self) -> None:
        if min(self.reply_bytes, self.reply_bytes_of_customer) < LEAST_REPLY_BYTES:
            raise ValueError(f"replies stay of at least {LEAST_REPLY_BYTES} bytes")
        if not 1 <= self.snapshot_entries <= MOST_ENTRIES or not 1 <= self.snapshot_bytes <= MOST_BYTES:
            raise ValueError(f"between two snapshots lie at most {MOST_ENTRIES} calls and {MOST_BYTES} bytes")
