"""A cluster of Redis, and replicas: the node that has a key, and whether the replicas have what a command wrote.

The URL selects it: `redis://host:6379/0?cluster=1&replicas=1` names any node of a cluster whose masters have a replica each. With
`replicas`, the reply to a command that writes comes when so many replicas have the write; otherwise the command raises Away, as if its
reply were lost, and is sent again. docs/SCALING.md says what that guarantees. All keys of a shard have the same hash tag (`{...}`), and
so have all keys of the directory, so each of these sets is on one node.
"""

from __future__ import annotations

import asyncio
from collections.abc import Sequence
from typing import Any

from bpfhost.optional import optional_module
from bpfhost.shards.errors import Away, Moved, RedisError
from bpfhost.shards.link import RedisLink, Word
from bpfhost.shards.system import System

# Commands that may write. WAIT is sent after them. It covers the last write, so after a script something is written, also without memory:
# then it covers all that the script has read.
_WRITES = ("EVALSHA", "EVAL", "HSET", "HDEL", "DEL", "SETNX", "XADD", "XTRIM")
_TOUCH = "#!lua flags=allow-oom\nredis.call('SET', KEYS[1], '')"
_SECONDS_FOR_REPLICAS = 1.0
# A command is redirected at most so often.
_MOST_MOVES = 4
# A connection that was not used for so many seconds ends.
SECONDS_IDLE = 30.0


class Nodes:
    """The servers that a URL names, with the connections to them, and what is known of them.

    That is the node of each slot, and whether a node or its history has changed. A caller that watches them (`watch`) gets Away from then
    on if a node or a history has changed.
    """

    def __init__(self, url: str, system: System) -> None:
        """Raises RedisError if it is no URL. With TLS, the name in the server's certificate is checked."""
        redis = optional_module("redis.asyncio")
        try:
            pool = redis.ConnectionPool.from_url(url)
            kind, words = pool.connection_class, pool.connection_kwargs
            words |= {"ssl_check_hostname": True, **words} if kind is redis.SSLConnection else {}
            cluster, replicas = words.pop("cluster", "0"), words.pop("replicas", "0")
            # The class refuses an option that it does not have.
            pool.make_connection()
            if cluster not in ("0", "1") or not replicas.isdecimal() or cluster == "1" and kind is redis.UnixDomainSocketConnection:
                raise ValueError("cluster is 0 or 1, of hosts with ports, and replicas is a number")
        except (AttributeError, TypeError, ValueError, redis.RedisError) as error:
            raise RedisError(f"{url} is no URL of a Redis: {error}") from None
        self._system, self._kind, self._words = system, type("Direct", (RedisLink, kind), {}), words
        self.is_cluster, self.replicas = cluster == "1", int(replicas)
        # Whether it is one server, without replicas.
        self.is_one = not self.is_cluster and not self.replicas
        # The nodes that can be asked, and whether each of them could not be reached the last time.
        self._all = {f"{words.get('host', 'localhost')}:{words.get('port', 6379)}": False}
        # The node of each slot, and the history that each node reports, by its replication id.
        self._known: dict[int | str, str] = {}
        self.is_watched = self.has_changed = False
        # The lines that are not in use, with the times since when, the oldest first; and all of them.
        self._idle, self.lines = list[tuple[float, Line]](), set[Line]()

    # Connections.

    def connect(self, node: str) -> RedisLink:
        """A connection to a node; one server needs no name."""
        host, _, port = node.rpartition(":")
        return self._system.link(self._kind, self._words | ({"host": host, "port": port} if self.is_cluster else {}))

    def line(self) -> Line:
        """A line that nobody else uses until it is given back."""
        return self._idle.pop()[1] if self._idle else Line(self)

    def give_back(self, line: Line) -> None:
        """Keeps a line for the next call, and ends those that were not used for a while."""
        self._idle.append((self._system.now(), line))
        while self._idle[0][0] <= self._system.now() - SECONDS_IDLE:
            _, unused = self._idle.pop(0)
            self.lines.discard(unused)
            unused.cut()

    def close(self) -> None:
        """Ends all connections; the event loop does it in its next round."""
        for line in self.lines:
            line.cut()

    # What is known.

    def watch(self) -> None:
        """From now on each command raises Away if another node of a cluster, or a server with another history, would do it."""
        self.is_watched, self.has_changed = not self.is_one, False

    def find(self, slot: int) -> str:
        """The node of a slot as far as it is known, or a node to ask; raises Away if something has changed since `watch`."""
        if self.has_changed:
            raise Away("Redis has another history since, or another node of its cluster serves a slot")
        return next(one for one in (self._known.get(slot), *self._all) if one and not self._all.get(one))

    def learn(self, of: int | str, now: str) -> bool:
        """Notes the node of a slot, or the history that a node reports; returns whether it differs from what was known before."""
        before, self._known[of] = self._known.get(of, now), now
        self.has_changed |= self.is_watched and before != now
        return before != now

    def note(self, node: str, is_away: bool) -> None:
        """Notes whether a node could be reached. If none could, all are asked again."""
        self._all[node] = is_away
        if all(self._all.values()):
            self._all = dict.fromkeys(self._all, False)


class Line:
    """A connection to each node, on which commands are sent one after another; one that has ended is made anew."""

    def __init__(self, nodes: Nodes) -> None:
        self._nodes, self._links = nodes, dict[str, RedisLink]()
        nodes.lines.add(self)

    def begin(self, words: Sequence[Word], seconds: float, slot: int) -> asyncio.Future[Any]:
        """The reply to a command, from the node that has a slot, within so many seconds.

        Raises Away also if another node has the slot than before, if too few replicas have what the command writes, and if nodes have
        changed since `Nodes.watch`.
        """
        if self._nodes.is_one:
            return self._to("").begin(words, seconds)
        return asyncio.create_task(self._called(words, seconds, slot))

    def _to(self, node: str) -> RedisLink:
        """The connection to a node."""
        if node not in self._links or self._links[node].is_over:
            self._links[node] = self._nodes.connect(node)
        return self._links[node]

    async def _called(self, words: Sequence[Word], seconds: float, slot: int) -> Any:
        node = self._nodes.find(slot)
        for _ in range(_MOST_MOVES):
            try:
                return await self._asked(node, words, seconds)
            except Moved as moved:
                node = str(moved).split()[-1]
                # The caller has to know that the history of the new node of a slot may be another one.
                if self._nodes.learn(slot, node):
                    raise Away(f"{node} of the cluster serves a slot now, which another node served") from None
            except Away:
                # It may report another history when it can be reached again.
                self._links[node].is_checked = False
                self._nodes.note(node, is_away=True)
                raise
        raise Away("the nodes of the cluster do not agree on who serves a slot")

    async def _asked(self, node: str, words: Sequence[Word], seconds: float) -> Any:
        """The reply of a node, whose history is looked at first if that is watched; if the command writes, so many replicas have it."""
        nodes, link = self._nodes, self._to(node)
        if nodes.is_watched and not link.is_checked:
            said = bytes(await link.begin(["INFO", "replication"], seconds)).decode()
            link.is_checked = True
            if nodes.learn(node, said.partition("master_replid:")[2].partition("\r\n")[0]):
                raise Away(f"{node} tells another history than before")
        asked = [words]
        if nodes.replicas and words[0] in _WRITES:
            limit = max(0.001, min(seconds, _SECONDS_FOR_REPLICAS))
            touch = [["EVAL", _TOUCH, 1, f"{words[3]}:touched"]] if words[0] in _WRITES[:2] else []
            asked += [*touch, ["WAIT", nodes.replicas, int(limit * 1000)]]
            seconds += limit
        found, *more = await asyncio.gather(*(link.begin(one, seconds) for one in asked))
        if more and more[-1] < nodes.replicas:
            raise Away(f"{more[-1]} replicas have what was written, and {nodes.replicas} are to have it")
        nodes.note(node, is_away=False)
        return found

    def cut(self) -> None:
        """Ends the connections; the next command makes new ones."""
        for link in self._links.values():
            link.cut()
