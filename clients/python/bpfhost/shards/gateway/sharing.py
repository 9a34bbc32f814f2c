"""What gateways write for one another into the directory, so that a customer has one set of limits, whichever gateways it uses.

Once a second each gateway writes how many connections its customers have, and which of them have sent frames lately; and it reads what the
others have written. A gateway whose text has not changed for a while, by the clock of the one that reads, is gone.
"""

from __future__ import annotations

import json
from collections import Counter
from collections.abc import Mapping

from bpfhost.shards.client import AsyncClient
from bpfhost.shards.names import DirectoryKeys

SECONDS = 1.0
_SECONDS_AWAY, _SECONDS_GONE, _SECONDS_TO_ANSWER = 5.0, 60.0, 5.0


class Sharing:
    """The part of one gateway."""

    def __init__(self, client: AsyncClient) -> None:
        self._client, self._name = client, client.system.fresh().encode()
        self._key, self._turn = DirectoryKeys(client.prefix).gateways, 0
        # What others have written, and since when it has been the same.
        self._seen: dict[bytes, tuple[bytes, float]] = {}
        # The connections of each customer at other gateways, and how many of these it has sent frames to.
        self.connections: Counter[str] = Counter()
        self._senders: Counter[str] = Counter()
        self._sent: tuple[set[str], set[str]] = set(), set()

    def sends(self, customer: str) -> None:
        """Notes that a customer sends frames."""
        self._sent[0].add(customer)

    def part(self, customer: str) -> float:
        """The part of a customer's rates that is this gateway's: those that it sends to have equal parts."""
        return 1 / (1 + self._senders[customer])

    async def exchange(self, connections: Mapping[str, int]) -> None:
        """Writes what this gateway has, and reads what others have."""
        self._turn += 1
        now, (latest, before) = self._client.system.now(), self._sent
        redis = self._client.directory.redis.until(now + _SECONDS_TO_ANSWER)
        await redis.call("HSET", self._key, self._name, json.dumps([self._turn, connections, sorted(latest | before)]))
        self._sent = set(), latest
        found = await redis.hgetall(self._key)
        found.pop(self._name, None)
        self._seen = {name: self._seen[name] if self._seen.get(name, (b"",))[0] == said else (said, now) for name, said in found.items()}
        self.connections, self._senders = Counter(), Counter()
        for name, (said, since) in self._seen.items():
            if since > now - _SECONDS_AWAY:
                _, theirs, senders = json.loads(said)
                self.connections.update(theirs)
                self._senders.update(senders)
            elif since < now - _SECONDS_GONE:
                await redis.call("HDEL", self._key, name)

    async def end(self) -> None:
        """Leaves what a customer may to the others."""
        await self._client.directory.redis.until(self._client.system.now() + _SECONDS_TO_ANSWER).call("HDEL", self._key, self._name)
