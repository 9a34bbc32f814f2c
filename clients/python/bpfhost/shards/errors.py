"""The errors of shards, as exceptions. The text of each is a plain sentence."""

from __future__ import annotations

from typing import TYPE_CHECKING

from bpfhost.errors import BpfhostError, HostError, ReplyError

if TYPE_CHECKING:
    from bpfhost.shards.tickets import Ticket


class ShardError(BpfhostError):
    """The base of all errors that this package raises, except for a ValueError if a caller's argument is wrong."""


class RedisError(ShardError):
    """Redis can't be reached, or refuses a command; or it is not durable."""


class Away(RedisError):
    """Redis can't be reached now, or is loading its files; it is not known whether it ran the last command."""


class Moved(RedisError):
    """Another node of a cluster has the slot of a key: the last word of the text is its host and port."""


class OutOfMemory(RedisError):
    """Redis has no memory for a command, and has done nothing of it."""


class NotAllowed(RedisError):
    """This user of Redis may not run a command, or not on these keys."""


class NoScript(RedisError):
    """Redis does not have a script yet."""


class LeaseHeld(ShardError):
    """Another worker serves the shard."""


class LeaseLost(ShardError):
    """Another worker has taken the lease, and nothing can be written by this one any more."""


class LogChanged(ShardError):
    """Another node of a cluster, or a server with another history, has the log now: it may lack what no replica had."""


class Stopped(ShardError):
    """A worker was asked to stop while it waited."""


class OtherShard(ShardError):
    """The shard's Redis is not the one that the directory knows, or the directory is not the one that the shard knows."""


class RepliesDiffer(ShardError):
    """A frame that is played again has another reply than the written one."""


class MemoryRefused(ShardError):
    """The host replied -12 to a frame, whose reply is not written; or it has no memory for a snapshot."""


# After any of these another host takes the place of the one that was asked.
HOST_ENDED = (HostError, ReplyError, MemoryRefused)


class SnapshotDamaged(ShardError):
    """The bytes of a snapshot are not those that were written."""


class CopyDiffers(ShardError):
    """A second copy of a tenant differs from the tenant."""


class StateRefused(ShardError):
    """The replies to the frames of a state are not the expected ones: another build of bpfhost wrote the state."""


class CallError(ShardError):
    """An error of one call; `ticket` is the call, if one was made: a caller can wait for it, also later."""

    def __init__(self, sentence: str, ticket: Ticket | None = None) -> None:
        super().__init__(sentence)
        self.ticket = ticket


class NotTaken(CallError):
    """A call is in no stream, and will be in none: there is no room, or the customer is being moved."""


class NotServed(NotTaken):
    """No shard is served that may have the customer."""


class SessionPassed(NotTaken):
    """Another process continues the session of this call."""


class CallPassed(CallError):
    """A later call of the session was taken before this one was sent; its process knows whether this one was taken."""


class NoReply(CallError):
    """No reply came in time. The call may be in its stream; the caller can wait for its ticket again."""


class SetAside(NoReply):
    """The call, or one before it, is set aside: an operator skips it or tries it again."""


class ReplyGone(CallError):
    """The frames of a call were done, and their replies were dropped before anybody read them."""


class NotDone(CallError):
    """A call was dropped from its stream, or skipped by an operator: its frames were not done, and won't be."""


class MoveError(ShardError):
    """A customer can't be moved or removed."""
