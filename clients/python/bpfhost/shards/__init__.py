"""Customers on many hosts: shards on Redis Streams serve more tenants than one process does.

No tenant is lost when a process dies. docs/SCALING.md of the repository describes how, what is proved, and what depends on Redis.
"""

from bpfhost.shards.blocking import Client, Customer, Directory, abort_move, move, remove
from bpfhost.shards.client import AsyncClient, AsyncCustomer
from bpfhost.shards.directory import Seat
from bpfhost.shards.errors import CallError, CallPassed, LeaseHeld, LeaseLost, MemoryRefused, MoveError, NoReply
from bpfhost.shards.errors import NotDone, NotTaken, OtherShard, RedisError, RepliesDiffer, ReplyGone, SessionPassed
from bpfhost.shards.errors import SetAside, ShardError
from bpfhost.shards.names import ShardKeys
from bpfhost.shards.settings import Settings
from bpfhost.shards.tickets import Place, Ticket
from bpfhost.shards.worker import Worker

__all__ = [
    "AsyncClient", "AsyncCustomer", "CallError", "CallPassed", "Client", "Customer", "Directory", "LeaseHeld", "LeaseLost", "MemoryRefused",
    "MoveError", "NoReply", "NotDone", "NotTaken", "OtherShard", "Place", "RedisError", "RepliesDiffer", "ReplyGone", "Seat",
    "SessionPassed", "SetAside", "Settings", "ShardError", "ShardKeys", "Ticket", "Worker", "abort_move", "move", "remove",
]
