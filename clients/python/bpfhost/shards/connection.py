"""Redis, as shards use it: their commands, their scripts, and a check of its durability."""

from __future__ import annotations

import asyncio
import contextlib
import hashlib
import math
import os
import urllib.parse
from collections.abc import Mapping, Sequence
from typing import Any, cast

from bpfhost.optional import optional_module
from bpfhost.shards.cluster import Line, Nodes
from bpfhost.shards.errors import Away, NoScript, NotAllowed, RedisError
from bpfhost.shards.link import Word
from bpfhost.shards.names import START, before
from bpfhost.shards.system import MACHINE, System, Work

# A server that does not reply for so many seconds, or until the call is to end, is taken to be away, but not before the second time. A call
# blocks for so many seconds at most, the third number.
_SECONDS_TO_ANSWER, _LEAST_SECONDS, _SECONDS_TO_BLOCK = 30.0, 0.25, 1.0
_PAUSE, _LONGEST_PAUSE = 0.01, 0.25
# What the options of a URL begin with that are for only one process.
_OWN = ("username", "password", "ssl_")
_UNSEEN = "this user may not see whether appendfsync is always, as a shard's log needs: `show` of an operator tells it"
_DURABLE = {"appendonly": "yes", "maxmemory-policy": "noeviction", "appendfsync": "always"}

Entry = tuple[bytes, dict[bytes, bytes]]


def as_in(url: str, own: str = "") -> str:
    """A URL without what is for only one process, which is a user, a password, and files of TLS; with those of this process's own URL."""
    found, mine = urllib.parse.urlsplit(url), urllib.parse.urlsplit(own)
    said = [pair for pair in urllib.parse.parse_qsl(found.query) if not pair[0].startswith(_OWN)]
    said += [pair for pair in urllib.parse.parse_qsl(mine.query) if pair[0].startswith(_OWN if found.scheme == "rediss" else _OWN[:2])]
    host = "".join(mine.netloc.rpartition("@")[:2]) + found.netloc.rpartition("@")[2]
    return f"{found.scheme}://{host}{found.path}{'?' if said else ''}{urllib.parse.urlencode(said)}"


def forgotten(task: asyncio.Future[Any]) -> None:
    """Ends something whose result nobody needs any more."""
    task.cancel()
    task.add_done_callback(lambda ended: ended.cancelled() or ended.exception())


class Redis:
    """A server, for one event loop: calls that are under way at the same time have a connection each. Replies are bytes."""

    def __init__(self, url: str | None = None, system: System = MACHINE) -> None:
        """The server of a URL, to which a connection is made when it is first called; raises RedisError if it is no URL.

        It is as `redis://host:6379/0` or `unix:///path`; the default is that of the variable BPFHOST_REDIS, or of this machine's Redis.
        """
        self.url, self.system = url or os.environ.get("BPFHOST_REDIS") or "redis://127.0.0.1:6379/0", system
        self.nodes = Nodes(self.url, system)
        self._slot, self.deadline, self._patience = -1, math.inf, 0.0

    def _with(self, **changed: object) -> Redis:
        # Each call has one: `copy` takes ten times as long.
        other = Redis.__new__(Redis)
        other.__dict__.update(self.__dict__, **changed)
        return other

    def near(self, key: str) -> Redis:
        """The same server; of a cluster, the node of this key. All keys that are used have the key's hash tag."""
        return self._with(_slot=optional_module("redis.crc").key_slot(key.encode())) if self.nodes.is_cluster else self

    def until(self, deadline: float) -> Redis:
        """The same server, whose calls end at a time of the system's clock."""
        return self._with(deadline=deadline)

    def patient(self, deadline: float = math.inf, seconds: float = math.inf) -> Redis:
        """The same, but if the server is away calls are repeated, each for so many seconds: only for calls that may be done twice."""
        return self._with(deadline=deadline, _patience=seconds)

    async def call(self, *words: Word, wait: float = 0.0, text: str = "") -> Any:
        """The reply to a command, which may block for so many seconds. Raises Away if the server can't be reached in time.

        A script is named, and has its text for a server that does not know it yet.
        """
        began, pause = self.system.now(), _PAUSE
        while True:
            line = self.nodes.line()
            try:
                return await self.begin(line, words, wait)
            except NoScript:
                # The server is given the text next.
                words = ("EVAL", text, *words[2:])
            except Away:
                if self.system.now() + pause > min(self.deadline, began + self._patience) or self.nodes.has_changed:
                    raise
            except (asyncio.CancelledError, GeneratorExit):
                # The next command does not wait for the reply to this one.
                line.cut()
                raise
            finally:
                self.nodes.give_back(line)
            await asyncio.sleep(pause)
            pause = min(2 * pause, _LONGEST_PAUSE)

    def begin(self, line: Line, words: Sequence[Word], wait: float = 0.0) -> asyncio.Future[Any]:
        """Begins a command on a line, which may block for so many seconds. The wait for it raises Away if no reply comes."""
        seconds = max(_LEAST_SECONDS, min(wait + _SECONDS_TO_ANSWER, self.deadline - self.system.now()))
        return line.begin(words, seconds, self._slot)

    # Commands, by their names.

    async def hget(self, name: str, field: Word) -> bytes | None:
        return cast("bytes | None", await self.call("HGET", name, field))

    async def hgetall(self, name: str) -> dict[bytes, bytes]:
        return _pairs(await self.call("HGETALL", name))

    async def xrange(self, name: str, least: bytes, most: bytes, many: int) -> list[Entry]:
        """Entries from one id up to another one, at most so many; a `(` before an id excludes it."""
        return _entries(await self.call("XRANGE", name, least, most, "COUNT", many))

    async def xread(self, name: str, place: bytes, many: int) -> list[Entry]:
        """Entries of a stream after an id, at most so many; waits a little if there is none."""
        # The server replies before the client gives the call up.
        wait = max(0.0, min(_SECONDS_TO_BLOCK, (self.deadline - self.system.now()) / 2))
        return entries_of(await self.call(*xread_words({name: place}, many, wait), wait=wait)).get(name, [])

    async def stream(self, name: str) -> dict[bytes, Any]:
        """What Redis reports of a stream (XINFO STREAM): empty if there is no such stream."""
        return _pairs(await self.call("XINFO", "STREAM", name)) if await self.call("EXISTS", name) else {}

    async def last_id(self, name: str) -> bytes:
        """The id of the last entry that was ever added to a stream."""
        return bytes((await self.stream(name)).get(b"last-generated-id", b"0-0"))

    async def dropped_id(self, name: str) -> bytes:
        """An id up to which no entry of a stream is left, though there were some; 0-0 if nothing was dropped."""
        said = await self.stream(name)
        if said.get(b"length") == said.get(b"entries-added"):
            return START
        return bytes(said[b"last-generated-id"]) if not said[b"length"] else before(bytes(said[b"recorded-first-entry-id"]))


def _pairs(flat: Sequence[Any]) -> dict[bytes, Any]:
    return dict(zip(flat[::2], flat[1::2], strict=True))


def _entries(found: Sequence[Any]) -> list[Entry]:
    return [(entry, _pairs(fields)) for entry, fields in found]


def xread_words(places: Mapping[str, bytes], many: int, wait: float) -> list[Word]:
    """The arguments of XREAD, which waits for entries for so many seconds."""
    return ["XREAD", "COUNT", many, "BLOCK", max(1, int(wait * 1000)), "STREAMS", *places, *places.values()]


def entries_of(found: Any) -> dict[str, list[Entry]]:
    """The reply to XREAD: entries by the names of their streams."""
    return {name.decode(): _entries(entries) for name, entries in found or []}


class Script:
    """A script that the server runs as one step: nothing else runs meanwhile, and all of its writes are kept, or none."""

    def __init__(self, text: str, without_memory: bool = False) -> None:
        """`without_memory` is for a script that makes room, or needs almost none: it runs even if the server has no memory left."""
        self.text = f"#!lua{' flags=allow-oom' if without_memory else ''}\n{text}"
        # The name by which a server knows it.
        self.name = hashlib.sha1(self.text.encode()).hexdigest()

    def __call__(self, redis: Redis, keys: Sequence[str], arguments: Sequence[Word]) -> Work[Any]:
        """The result of the script."""
        return redis.call("EVALSHA", self.name, len(keys), *keys, *arguments, text=self.text)

    def begin(self, redis: Redis, line: Line, keys: Sequence[str], arguments: Sequence[Word]) -> asyncio.Future[Any]:
        """Begins the script on a line of a server. If its reply is a NoScript, the caller calls the script once more."""
        return redis.begin(line, ["EVALSHA", self.name, len(keys), *keys, *arguments])


async def told_by(redis: Redis, section: str) -> dict[str, str]:
    """What the server reports of itself in a section of INFO."""
    return dict(line.split(":", 1) for line in bytes(await redis.call("INFO", section)).decode().splitlines() if ":" in line)


async def demand_durable(redis: Redis) -> str:
    """Raises RedisError if the server replies before a change is on its disk, or may drop keys, and Away while it loads its files.

    Returns a sentence on what this user may not ask for, so that it could not be checked, or an empty string.
    """
    said = await told_by(redis, "persistence") | await told_by(redis, "memory")
    if said.get("loading") == "1":
        # Meanwhile it says that it has no log.
        raise Away("Redis loads its files")
    has = {"appendonly": "yes" if said.get("aof_enabled") == "1" else "no", "maxmemory-policy": said.get("maxmemory_policy", "")}
    with contextlib.suppress(NotAllowed):
        has["appendfsync"] = _pairs(await redis.call("CONFIG", "GET", "appendfsync")).get(b"appendfsync", b"").decode()
    for name, found in has.items():
        if found != _DURABLE[name]:
            raise RedisError(f"Redis has {name} {found}, and a shard's log needs {_DURABLE[name]}: else it may lose what it has answered")
    return "" if "appendfsync" in has else _UNSEEN
