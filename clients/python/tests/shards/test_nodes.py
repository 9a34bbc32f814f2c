"""Connections to a cluster, if a node does not serve a slot any more."""

from __future__ import annotations

import asyncio
import unittest
from collections.abc import Sequence
from typing import Any, cast

from bpfhost.shards.cluster import Line, Nodes
from bpfhost.shards.errors import Away, Moved
from bpfhost.shards.link import RedisLink, Word
from bpfhost.shards.system import System


class MovedLink:
    """A connection to a node that redirects each command."""

    is_over = False

    def __init__(self, node: str) -> None:
        self._node = node

    def begin(self, words: Sequence[Word], seconds: float) -> asyncio.Future[Any]:
        reply = asyncio.get_running_loop().create_future()
        reply.set_exception(Moved(f"another node of the cluster has the slot: 5 {self._node}"))
        return reply

    def cut(self) -> None:
        """There is nothing to cut."""


class Redirecting(System):
    """A machine with such connections."""

    def link(self, kind: type[RedisLink], words: dict[str, Any]) -> RedisLink:
        return cast(RedisLink, MovedLink("b:1"))


class SlotThatMoved(unittest.IsolatedAsyncioTestCase):
    def setUp(self) -> None:
        self.nodes = Nodes("redis://a:1/0?cluster=1", Redirecting())
        self.lines = [Line(self.nodes) for _ in range(2)]

    async def test_commands_behind_one_another(self) -> None:
        """One that learns first of the new node of a slot raises Away, as the history there may be another one."""
        sent = [line.begin(["GET", "key"], 1.0, 5) for line in self.lines]
        for task in sent:
            with self.assertRaises(Away):
                await task
        self.assertEqual(self.nodes.find(5), "b:1")

    async def test_calls(self) -> None:
        """A call is redirected to the node that is named, as often as nodes agree."""
        with self.assertRaisesRegex(Away, "do not agree"):
            await self.lines[0].begin(["GET", "key"], 1.0, 5)


if __name__ == "__main__":
    unittest.main()
