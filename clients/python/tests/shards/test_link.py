"""Connections to Redis: replies come in the order of the commands; one that is cut, or too slow, gives nobody another one's reply."""

from __future__ import annotations

import asyncio
import unittest
from pathlib import Path
from unittest import mock

from bpfhost.shards import cluster
from bpfhost.shards.cluster import Nodes
from bpfhost.shards.connection import Redis, forgotten, xread_words
from bpfhost.shards.errors import Away, NoScript, OutOfMemory, RedisError
from bpfhost.shards.link import RedisLink
from bpfhost.shards.system import MACHINE
from tests.common import TimedTest
from tests.shards.common import ShardTest


def linked(url: str) -> RedisLink:
    """A connection to a URL."""
    return Nodes(url, MACHINE).connect("")


class Commands(ShardTest, unittest.IsolatedAsyncioTestCase):
    async def asyncSetUp(self) -> None:
        self.redis = Redis(self.server.url)
        self.addCleanup(self.redis.nodes.close)

    async def test_many_at_once(self) -> None:
        """Replies come in the order of the commands, also those that nobody waits for."""
        line = self.redis.nodes.line()
        tasks = [self.redis.begin(line, ["ECHO", number]) for number in range(50)]
        self.assertEqual(await tasks[7], b"7")
        blocked = self.redis.begin(line, xread_words({"none": b"0-0"}, 1, 0.05), 0.05)
        last = self.redis.begin(line, ["ECHO", "last"])
        self.assertEqual(await asyncio.gather(*tasks[40:], blocked), [*(b"%d" % number for number in range(40, 50)), None])
        self.assertEqual(await last, b"last")

    async def test_what_is_refused(self) -> None:
        """A command that is refused leaves the connection as it is."""
        line = self.redis.nodes.line()
        asked = [self.redis.begin(line, words) for words in (("NONSENSE",), ("EVALSHA", "0" * 40, 0), ("ECHO", 1), ("HGET", "x"))]
        for task, error in zip(asked, (RedisError, NoScript, None, RedisError)):
            if error:
                with self.assertRaises(error):
                    await task
            else:
                self.assertEqual(await task, b"1")
        # A server that is too old for flags of scripts replies this to each script.
        with self.assertRaisesRegex(RedisError, "^Redis is older than version 7.0, and knows no flags of scripts: Error compiling script"):
            await self.redis.call("EVAL", "#", 0)
        await self.redis.call("CONFIG", "SET", "maxmemory", 1)
        with self.assertRaises(OutOfMemory):
            await self.redis.begin(line, ["SET", "a", "b"])

    async def test_a_line_that_is_cut(self) -> None:
        """None of the sent commands has a reply, and the next command has a new connection."""
        line = self.redis.nodes.line()
        self.assertEqual(await self.redis.begin(line, ["ECHO", 0]), b"0")
        blocks = xread_words({"none": b"0-0"}, 1, 60.0)
        waits, behind = self.redis.begin(line, blocks, 60.0), self.redis.begin(line, ["ECHO", 1])
        await asyncio.wait([waits], timeout=0.05)
        self.assertFalse(waits.done())
        line.cut()
        for task in (waits, behind):
            with self.assertRaisesRegex(Away, "Redis can't be reached: .+"):
                await task
        self.assertEqual(await self.redis.begin(line, ["ECHO", 2]), b"2")

    async def test_a_call_that_is_cancelled(self) -> None:
        """Its reply, which comes later, is no other command's: neither of one that was sent after it, nor of the next one."""
        line, blocks = self.redis.nodes.line(), xread_words({"none": b"0-0"}, 1, 0.2)
        for late in (self.redis.begin(line, blocks, 0.2), self.redis.begin(line, ["ECHO", "late"])):
            behind = self.redis.begin(line, ["ECHO", "behind"])
            await asyncio.sleep(0)
            forgotten(late)
            self.assertIn(await asyncio.gather(behind, return_exceptions=True), ([b"behind"], [mock.ANY]))
            for number in range(20):
                self.assertEqual(await self.redis.begin(line, ["ECHO", number]), b"%d" % number)

    async def test_connections_that_nobody_uses(self) -> None:
        """They end after a while."""
        with mock.patch.object(cluster, "SECONDS_IDLE", 0.2):
            await asyncio.gather(*(self.redis.call("BLPOP", f"none-{number}", 0.1, wait=0.1) for number in range(40)))
            clients = len(bytes(await self.redis.call("CLIENT", "LIST")).splitlines())
            self.assertGreaterEqual(clients, 40)
            while len(bytes(await self.redis.call("CLIENT", "LIST")).splitlines()) > 3:
                await asyncio.sleep(0.05)


class Silent(TimedTest, unittest.IsolatedAsyncioTestCase):
    async def test_no_answer_in_time(self) -> None:
        """A server that replies once, and then says nothing."""

        async def replies_once(reader: asyncio.StreamReader, writer: asyncio.StreamWriter) -> None:
            await reader.read(100)
            writer.write(b"+PONG\r\n")
            await asyncio.sleep(60)

        path = str(Path(self.scratch) / "s")
        server = await asyncio.start_unix_server(replies_once, path)
        link = linked(f"unix://{path}")
        self.assertEqual(await link.begin(["PING"], 60.0), b"PONG")
        asked = [link.begin(["PING"], seconds) for seconds in (0.1, 60.0)]
        with self.assertRaisesRegex(Away, "^Redis can't be reached: it does not answer in time$"):
            await asked[0]
        with self.assertRaisesRegex(Away, "^Redis can't be reached: .+"):
            await asked[1]
        link.cut()
        server.close()
        with self.assertRaisesRegex(Away, "^Redis can't be reached: .+"):
            await linked(f"unix://{path}none").begin(["PING"], 1.0)

    async def test_a_connection_that_breaks(self) -> None:
        """An error of the system is one of a server that is away, also on a Unix socket, for which the library has no host to name."""
        path = str(Path(self.scratch) / "s")
        server = await asyncio.start_unix_server(lambda reader, writer: writer.write(b"+"), path)
        link = linked(f"unix://{path}")
        with mock.patch("socket.socket.recv_into", create=True, side_effect=ConnectionResetError(104, "Connection reset by peer")):
            with self.assertRaisesRegex(Away, "^Redis can't be reached: .*Connection reset by peer$"):
                await link.begin(["PING"], 5.0)
        link.cut()
        server.close()

    async def test_what_is_no_redis(self) -> None:
        async def says(reader: asyncio.StreamReader, writer: asyncio.StreamWriter) -> None:
            writer.write(b"HTTP/1.1 400 Bad Request\r\n\r\n")

        path = str(Path(self.scratch) / "s")
        server = await asyncio.start_unix_server(says, path)
        link = linked(f"unix://{path}")
        with self.assertRaises(Away):
            await link.begin(["PING"], 5.0)
        link.cut()
        server.close()


if __name__ == "__main__":
    unittest.main()
