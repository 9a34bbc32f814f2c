"""Customers that are moved and removed, also by calls that are interrupted."""

from __future__ import annotations

import contextlib
import threading
from unittest import mock

from bpfhost import Errno, MapType
from bpfhost.shards import Client, MoveError, Seat, ShardError, ShardKeys, directory_scripts, move, remove, scripts
from bpfhost.shards.connection import Redis, Script
from tests.shards.blocking_redis import shard_of
from tests.shards.common import CREATE, LOOK_UP, ShardTest, WorkerThread, put
from tests.shards.redis_server import RedisServer


class Moves(ShardTest):
    def test_a_move(self) -> None:
        for shard in (0, 1):
            self.shard(shard)
        customer, other = self.client.customer("acme"), self.client.customer("other")
        tenant = customer.tenant()
        counts = tenant.map_create(MapType.HASH, 4, 8, 16)
        counts[b"key1"] = bytes([1] * 8)
        other.ask(CREATE)
        was = self.client.directory.seat("acme")
        seat = move(self.client, "acme")
        self.assertEqual((was and was.shard, seat.shard), (0, 1))
        self.assertEqual(dict(counts.items()), {b"key1": bytes([1] * 8)})
        self.assertEqual(other.ask(LOOK_UP).status, -Errno.ENOENT)
        self.assertEqual(self.client.directory.loads(), {0: 0, 1: 2})
        # Its number is free, and the next customer with it begins as a new tenant.
        third = self.client.customer("third")
        self.assertEqual(third.ask(CREATE).status, 3)
        self.assertEqual(self.client.directory.seat("third"), Seat(0, 0, seat.generation + 1))

    def test_moves_that_can_not_be(self) -> None:
        with self.assertRaisesRegex(ShardError, "customer acme can't be moved: the customer is not in the directory"):
            move(self.client, "acme")
        self.shard(0)
        self.client.customer("acme").ask(CREATE)
        for shard, why in ((None, "there is no other shard"), (0, "the customer is there already"), (7, "there is no such shard")):
            with self.assertRaisesRegex(ShardError, f"customer acme can't be moved: {why}"):
                move(self.client, "acme", shard)

    def test_each_step_is_taken_up_again(self) -> None:
        """A move that breaks off after any of its calls of Redis is completed by the next one."""
        for shard in (0, 1):
            self.shard(shard)
        customer = self.client.customer("acme")
        customer.ask(CREATE)
        right = Script.__call__
        for step in range(5):
            customer.ask(put(step))
            done: list[object] = []

            async def breaks(script: Script, *arguments: object) -> object:
                if len(done) == step:
                    raise RuntimeError("broken off")
                done.append(await right(script, *arguments))  # type: ignore[arg-type]
                return done[-1]

            mover = Client(self.server.url)
            moves = (directory_scripts.BEGIN_MOVE, scripts.CLAIM, scripts.LEAVE, scripts.ARRIVE, scripts.SEAT, directory_scripts.END_MOVE)

            async def only_moves(script: Script, redis: Redis, *arguments: object) -> object:
                if redis.nodes in [one.nodes for one in mover.aio._servers.values()] and script in moves:
                    return await breaks(script, redis, *arguments)
                return await right(script, redis, *arguments)  # type: ignore[arg-type]

            with mock.patch.object(Script, "__call__", only_moves), self.assertRaises(RuntimeError):
                move(mover, "acme")
            mover.close()
            move(self.client, "acme")
            self.assertEqual(customer.ask(LOOK_UP).payload, step.to_bytes(8, "little"))
            self.assertEqual(sum(self.client.directory.loads().values()), 1)
            for shard in (0, 1):
                self.assertEqual(shard_of(self.client, shard)[0].hgetall(ShardKeys(shard).left), {})

    def test_steps_that_come_late(self) -> None:
        """Steps of a move that has ended do nothing any more, also if the next one has begun."""
        for shard in (0, 1):
            self.shard(shard)
        customer = self.client.customer("acme")
        customer.ask_all([CREATE, put(5)])
        self.assertEqual([reply.status for reply in customer.ask_all([CREATE, put(5)])], [3, 0])
        first, second = self.client.directory.begin_move("acme")
        move(self.client, "acme")
        assert second is not None
        self.client.directory.begin_move("acme")
        redis, keys = shard_of(self.client, second.shard)
        leaves = [second.tenant, second.generation, second.owned_by("acme")]
        left = redis.run(scripts.LEAVE, [keys.seats, keys.frames(second.tenant)], leaves)
        # Of the first move, late: the seat stays taken back, and the directory does not have the next one yet.
        self.assertEqual(redis.run(scripts.SEAT, [keys.seats], leaves), 0)
        self.client.directory.end_move("acme", first, second)
        self.assertEqual(self.client.directory.seat("acme"), second)
        self.assertEqual(redis.run(scripts.LEAVE, [keys.seats, keys.frames(second.tenant)], leaves), left)
        third = move(self.client, "acme")
        self.assertNotEqual(third, second)
        self.assertEqual(customer.ask(LOOK_UP).payload, (5).to_bytes(8, "little"))

    def test_two_who_move_at_once(self) -> None:
        for shard in (0, 1):
            self.shard(shard)
        customer = self.client.customer("acme")
        self.assertEqual(customer.ask(CREATE).status, 3)
        for value in range(10):
            customer.ask(put(value)).done()
            movers = [threading.Thread(target=self.move_alone) for _ in range(3)]
            for mover in movers:
                mover.start()
            for mover in movers:
                mover.join()
            self.assertEqual(customer.ask(LOOK_UP).payload, value.to_bytes(8, "little"))
            self.assertEqual(sum(self.client.directory.loads().values()), 1)

    def move_alone(self) -> None:
        """Moves the customer by a client of its own, which may find that the move has ended, or that the customer is gone again."""
        with Client(self.server.url) as client, contextlib.suppress(MoveError):
            move(client, "acme")

    def test_a_customer_that_is_removed(self) -> None:
        self.shard(0)
        customer = self.client.customer("acme")
        customer.ask(CREATE)
        remove(self.client, "acme")
        self.assertEqual((self.client.directory.customers(), self.client.directory.loads()), ({}, {0: 0}))
        # It is a new one then.
        self.assertEqual(customer.ask(LOOK_UP).status, -Errno.EBADF)

    def test_shards_on_two_servers(self) -> None:
        (self.scratch / "two").mkdir()
        with RedisServer(self.scratch / "two") as other:
            far = WorkerThread(other.url, 1, directory=self.server.url)
            far.wait()
            self.shard(0)
            for name in ("one", "two"):
                self.assertEqual(self.client.customer(name).ask(CREATE).status, 3)
            self.client.customer("one").ask(put(6))
            self.assertEqual(move(self.client, "one", 1).shard, 1)
            self.assertEqual(self.client.customer("one").ask(LOOK_UP).payload, (6).to_bytes(8, "little"))
            far.stop()
