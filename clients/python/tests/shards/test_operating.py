"""Operators' commands, and shards that are not the ones that the directory knows."""

from __future__ import annotations

import subprocess
import threading
import time
from unittest import mock

from bpfhost import MapType, frames
from bpfhost.shards import MoveError, NotTaken, OtherShard, Settings, ShardError, ShardKeys, abort_move, move, scripts
from bpfhost.shards import attending
from bpfhost.shards.connection import Script
from tests.shards.blocking_redis import connect, shard_of
from tests.shards.common import CREATE, LOOK_UP, SECONDS, ShardTest, WorkerThread, did, drained, put, registered, shown
from tests.shards.redis_server import RedisServer


class OtherShards(ShardTest):
    def other_server(self) -> RedisServer:
        (self.scratch / "two").mkdir()
        other = RedisServer(self.scratch / "two")
        self.addCleanup(other.kill)
        return other

    def refused(self, worker: WorkerThread, sentence: str) -> None:
        worker.join()
        self.assertIsInstance(worker.error, OtherShard)
        self.assertRegex(str(worker.error), sentence)

    def test_a_worker_with_another_redis(self) -> None:
        """It serves nobody, and takes no customer from the worker that does."""
        self.shard(0)
        customer = self.client.customer("acme")
        customer.ask(CREATE)
        other = self.other_server()
        self.refused(WorkerThread(other.url, 0, directory=self.server.url), "shard 0 is not the one that the directory knows")
        self.assertEqual(self.client.directory.server(0), "")
        self.assertEqual(self.client.customer("acme").ask(LOOK_UP).status, -2)
        self.assertEqual(self.client.customer("new").ask(CREATE).status, 3)

    def test_a_shard_that_has_lost_its_redis(self) -> None:
        other = self.other_server()
        first = WorkerThread(other.url, 3, directory=self.server.url)
        first.wait()
        self.client.customer("acme").ask(CREATE)
        redis = connect(other.url)
        redis.call("FLUSHALL")
        first.join()
        again = WorkerThread(other.url, 3, directory=self.server.url)
        self.refused(again, "this Redis is another one, or has lost what it had; `remove-shard 3 --lost` gives up what was there")
        with self.assertRaisesRegex(ShardError, "shard 3 can't be removed: it has customers: `drain` moves them away"):
            self.client.directory.remove_shard(3)
        self.client.directory.remove_shard(3, lost=True)
        self.assertEqual((self.client.directory.loads(), self.client.directory.customers()), ({}, {}))
        third = WorkerThread(other.url, 3, directory=self.server.url)
        third.wait()
        self.assertEqual(self.client.customer("acme").ask(CREATE).status, 3)
        third.stop()

    def test_another_directory(self) -> None:
        worker = self.shard(0)
        self.client.customer("acme").ask(CREATE)
        worker.stop()
        self.client.directory.remove_shard(0, lost=True)
        self.refused(WorkerThread(self.server.url, 0), "shard 0 has customers, and the directory knows nothing of it")

    def test_a_worker_that_is_refused_takes_nothing(self) -> None:
        self.shard(0)
        second = WorkerThread(self.server.url, 0)
        second.join()
        self.assertEqual(self.client.customer("acme").ask(CREATE).status, 3)
        self.assertIn(0, self.client.directory.beats())


class Offered(ShardTest):
    def test_a_shard_that_is_stopped(self) -> None:
        first = self.shard(0)
        self.client.customer("acme").ask(CREATE)
        first.stop()
        with self.assertRaisesRegex(NotTaken, "customer new: no shard that may have it is served"):
            self.client.customer("new", 0.3).ask(CREATE)
        with self.assertRaisesRegex(ShardError, "shard 0 can't be removed: it has customers"):
            self.client.directory.remove_shard(0)
        self.shard(1)
        self.assertEqual(self.client.customer("new").ask(CREATE).status, 3)
        with self.assertRaisesRegex(MoveError, "no shard that may have it is served"):
            move(self.client, "new", 0)

    def test_a_shard_whose_worker_died(self) -> None:
        """The worker of another shard sees that its count does not change."""
        self.shard(1, Settings(0.6))
        self.empty_shard(0)
        self.until(lambda: 0 not in self.client.directory.beats())
        self.assertEqual([self.client.directory.place(f"customer-{number}").shard for number in range(3)], [1, 1, 1])

    def test_drain_and_remove(self) -> None:
        workers = [self.shard(shard) for shard in (0, 1)]
        customers = [self.client.customer(f"customer-{number}") for number in range(6)]
        for number, customer in enumerate(customers):
            self.assertEqual([reply.status for reply in customer.ask_all([CREATE, put(number)])], [3, 0])
        moved = did(self.client, drained, 0, 20)
        self.assertEqual((len(moved), {seat.shard for _, seat in moved}), (3, {1}))
        self.assertEqual(self.client.directory.loads(), {0: 0, 1: 6})
        self.assertEqual(self.client.customer("new").ask(CREATE).status, 3)
        self.assertEqual(self.client.directory.loads(), {0: 0, 1: 7})
        self.assertRegex(shown(self.client), "shard 0: 0 customers, 0 KiB of calls wait, served by .*, drained")
        for number, customer in enumerate(customers):
            self.assertEqual(customer.ask(LOOK_UP).payload, number.to_bytes(8, "little"))
        with self.assertRaisesRegex(ShardError, "shard 0 can't be removed: it is served: stop its worker first"):
            self.client.directory.remove_shard(0)
        workers[0].stop()
        self.client.directory.remove_shard(0)
        self.assertEqual(self.client.directory.loads(), {1: 7})
        for call in (self.client.directory.remove_shard, self.client.directory.drain):
            with self.assertRaisesRegex(ShardError, "know"):
                call(0)


class BrokenMoves(ShardTest):
    def broken(self, behind: Script, seconds: float = SECONDS) -> None:
        """A customer whose mover dies before it calls a script."""
        for shard in (0, 1):
            self.shard(shard, Settings(seconds))
        self.customer = self.client.customer("acme")
        self.assertEqual([reply.status for reply in self.customer.ask_all([CREATE, put(7)])], [3, 0])
        right = Script.__call__
        mover = threading.get_ident()

        async def dies(script: Script, *arguments: object) -> object:
            if script is behind and threading.get_ident() == mover:
                raise RuntimeError("died")
            return await right(script, *arguments)  # type: ignore[arg-type]

        with mock.patch.object(Script, "__call__", dies), self.assertRaisesRegex(RuntimeError, "died"):
            move(self.client, "acme", 1 - self.client.directory.customers()["acme"].shard)

    def test_a_worker_ends_it(self) -> None:
        for behind in (scripts.LEAVE, scripts.ARRIVE, scripts.SEAT):
            with self.subTest(behind.text.splitlines()[-2]):
                self.setUp()
                self.broken(behind, 0.6)
                self.until(lambda: not self.client.directory.moves())
                self.assertEqual(self.customer.ask(LOOK_UP).payload, (7).to_bytes(8, "little"))
                self.doCleanups()

    def test_show_and_abort(self) -> None:
        with mock.patch.object(attending, "_BEATS_OF_A_MOVE", 10_000):
            for behind in (scripts.LEAVE, scripts.ARRIVE):
                with self.subTest(behind.text.splitlines()[-2]):
                    self.setUp()
                    self.broken(behind)
                    was = self.client.directory.customers()["acme"]
                    wanted = f"acme is being moved: from shard {was.shard} to shard {1 - was.shard}"
                    self.assertIn(wanted, shown(self.client))
                    late = self.client.directory.moves()["acme"]
                    assert late is not None
                    self.assertEqual(abort_move(self.client, "acme").shard, was.shard)
                    self.assertEqual((self.client.directory.moves(), self.client.directory.loads()[1 - was.shard]), ({}, 0))
                    self.assertEqual(self.customer.ask(LOOK_UP).payload, (7).to_bytes(8, "little"))
                    # Late steps of the move that was taken back have no effect.
                    redis, keys = shard_of(self.client, late.shard)
                    used = [keys.seats, keys.frames(late.tenant), keys.sessions(late.generation)]
                    self.assertIsNone(redis.run(scripts.ARRIVE, used, [late.tenant, late.generation, b"{}"]))
                    with self.assertRaisesRegex(MoveError, "customer acme is not being moved"):
                        abort_move(self.client, "acme")
                    self.doCleanups()


class Memory(ShardTest):
    def test_room_is_made(self) -> None:
        """A Redis without memory: old replies are dropped first, and the worker logs what it needs; then all goes on."""
        worker = self.shard(0, Settings(SECONDS, reply_seconds=0.5))
        customer = self.client.customer("acme", 60)
        self.assertEqual(customer.ask(frames.map_create(0, MapType.HASH, 4, 4096, 16)).status, 3)
        customer.ask(frames.map_update_elem(0, 3, b"key1", bytes(4096))).done()
        redis, _ = shard_of(self.client, 0)
        for ticket in [customer.post(LOOK_UP * 400) for _ in range(8)]:
            customer.wait(ticket)
        used = int(redis.call("MEMORY", "STATS")[3])
        redis.call("CONFIG", "SET", "maxmemory", used - 4_000_000)
        with self.assertRaisesRegex(NotTaken, "a call of customer acme is not taken: Redis has no memory"):
            customer.post(LOOK_UP, 0.2)
        self.assertEqual(customer.ask(LOOK_UP).status, 0)
        self.assertIn("shard 0 makes room: Redis has", "\n".join(worker.told))
        self.assertIsNone(worker.error)

    def test_replies_without_memory_wait(self) -> None:
        worker = self.shard(0)
        customer = self.client.customer("acme", 60)
        customer.ask(CREATE)
        redis, _ = shard_of(self.client, 0)
        right, refused = Script.begin, list[int]()

        def forgets(script: Script, *arguments: object) -> object:
            if script is scripts.WRITE and not refused:
                refused.append(1)
                # By a client of its own: this is the worker's thread, which runs a loop already.
                subprocess.run(["redis-cli", "-s", f"{self.scratch}/s", "CONFIG", "SET", "maxmemory", "1"], check=True, capture_output=True)
            return right(script, *arguments)  # type: ignore[arg-type]

        with mock.patch.object(Script, "begin", forgets):
            ticket = customer.post(put(3))
            self.until(lambda: any("no memory" in sentence for sentence in worker.told))
        self.assertRegex(worker.told[-1], "shard 0 waits: Redis has no memory: .*Redis has [0-9]+ bytes of at most 1: it needs more")
        # The lease is kept meanwhile.
        time.sleep(2 * SECONDS)
        redis.call("CONFIG", "SET", "maxmemory", 0)
        self.assertEqual(customer.wait(ticket)[0][8:], bytes(4))
        self.assertIsNone(worker.error)


class Names(ShardTest):
    def test_customers_with_the_names_of_words(self) -> None:
        for shard in (0, 1):
            self.shard(shard)
        for name in ("arrives", "leaves", "closed:", "name:acme", "arrives:1-1"):
            customer = self.client.customer(name)
            customer.ask(CREATE)
            move(self.client, name)
            self.assertEqual(customer.ask(LOOK_UP).status, -2)

    def test_the_name_that_is_made_with_a_shard(self) -> None:
        redis, keys = shard_of(self.client, 5)
        made = [registered(redis, keys, self.client) for _ in range(2)]
        self.assertEqual(made, [redis.get(keys.incarnation)] * 2)
        self.assertTrue(made[0])
        self.assertEqual(ShardKeys(5).incarnation, "bpfhost:{5}:incarnation")
