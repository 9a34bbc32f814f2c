"""A cluster of Redis, whose masters are killed and whose replicas take over: no call that has a reply is lost."""

from __future__ import annotations

import signal
import threading
import time
import unittest
from collections.abc import Callable
from typing import Any, cast

from bpfhost import Host
from bpfhost.shards import Client, NoReply, RedisError, Settings, ShardKeys, move
from bpfhost.shards.cluster import Nodes
from bpfhost.shards.errors import Away
from bpfhost.shards.link import RedisLink
from bpfhost.shards.names import DirectoryKeys
from bpfhost.shards.system import MACHINE, System
from tests.common import PROGRAM, HostTest
from tests.shards.blocking_redis import shard_of
from tests.shards.common import CREATE, WorkerThread, put
from tests.shards.redis_cluster import RedisCluster
from tests.shards.redis_server import missing
from tests.shards.streams import Stream

_WHY = missing()
SECONDS = 60


class Customer:
    """A customer in a thread, whose replies are compared with those of a host that serves only this customer."""

    def __init__(self, url: str, number: int) -> None:
        self.calls, self.failed = 0, ""
        self._url, self._number, self._ended = url, number, threading.Event()
        self._thread = threading.Thread(target=self._run)
        self._thread.start()

    def _run(self) -> None:
        stream = Stream(PROGRAM, self._number)
        try:
            with Client(self._url) as client, Host(PROGRAM) as alone:
                customer = client.customer(f"customer-{self._number}", SECONDS)
                while not self._ended.is_set():
                    frames, wanted = stream.play(alone, 6)
                    replies = customer.wait(customer.post(b"".join(frames)))
                    assert replies == wanted, f"customer {self._number} is told otherwise than alone, in call {self.calls}"
                    self.calls += 1
        except BaseException as error:
            self.failed = repr(error)

    def end(self) -> None:
        """Ends it."""
        self._ended.set()
        self._thread.join(SECONDS)


@unittest.skipIf(_WHY is not None, _WHY or "")
class Cluster(HostTest):
    def setUp(self) -> None:
        super().setUp()
        self.cluster = RedisCluster(self.scratch)
        self.addCleanup(self.cluster.kill)

    def worker(self, shard: int) -> WorkerThread:
        """A worker, which serves."""
        made = WorkerThread(self.cluster.url, shard, Settings(3, snapshot_entries=40))
        self.addCleanup(made.stop)
        made.wait()
        return made

    def test_masters_that_are_killed(self) -> None:
        """Masters of two shards and of the directory are killed during calls; each reply is that of a separate host."""
        workers = [self.worker(shard) for shard in (0, 1)]
        customers = [Customer(self.cluster.url, number) for number in range(3)]
        for key in (ShardKeys(0).lease, DirectoryKeys().customers):
            self.until_more(customers, [one.calls for one in customers])
            master = self.cluster.master_of(key)
            master.kill()
            self.until(lambda: self.cluster.master_of(key) is not master)
            # Until it is there again as a replica, no reply comes.
            master.start()
            self.until_more(customers, [one.calls for one in customers])
            self.cluster.until_whole()
            with Client(self.cluster.url) as client:
                move(client, "customer-0", seconds=SECONDS)
        for one in customers:
            one.end()
        self.assertEqual([one.failed for one in customers], ["", "", ""])
        for worker in workers:
            worker.stop()
            self.assertIsNone(worker.error)
        with Client(self.cluster.url) as client:
            taken = sum(self.entries(client, shard) for shard in (0, 1))
        # Each move has two entries, and there is one entry for each call.
        self.assertEqual(taken, sum(one.calls for one in customers) + 4)
        self.assertTrue(any("begins a new host: another node" in sentence for worker in workers for sentence in worker.told))

    def entries(self, client: Client, shard: int) -> int:
        """How many entries a shard was given, each of which has its reply."""
        redis, keys = shard_of(client, shard)
        found = 0
        for tenant in range(8):
            asked, replied = redis.stream(keys.frames(tenant)), redis.stream(keys.replies(tenant))
            self.assertEqual(asked.get(b"last-generated-id"), replied.get(b"last-generated-id"))
            found += int(asked.get(b"entries-added", 0))
        return found

    def until(self, holds: Callable[[], bool]) -> None:
        """Waits until something holds."""
        until = time.monotonic() + SECONDS
        while not holds():
            self.assertLess(time.monotonic(), until)
            time.sleep(0.05)

    def until_more(self, customers: list[Customer], before: list[int]) -> None:
        """Waits until each customer has a new reply."""
        until = time.monotonic() + SECONDS
        while not all(one.calls > calls + 2 or one.failed for one, calls in zip(customers, before)):
            self.assertLess(time.monotonic(), until, "a customer waits for ever")
            time.sleep(0.02)

    def test_what_no_replica_has(self) -> None:
        """A call that no replica has gets no reply; if it is lost with its master, it is sent again, and done once."""
        worker, keys = self.worker(0), ShardKeys(0)
        with Client(self.cluster.url) as client:
            customer = client.customer("acme", SECONDS)
            self.assertEqual(customer.ask(CREATE).status, 3)
            master = self.cluster.master_of(keys.lease)
            replica = self.cluster.nodes[self.cluster.nodes.index(master) + 3]
            assert replica.process
            # The replica gets nothing from here on, and the master does not know it yet.
            replica.process.send_signal(signal.SIGSTOP)
            with self.assertRaisesRegex(NoReply, "not known whether a call of customer acme was taken: 0 replicas have what was written"):
                customer.post(put(1), 1.5)
            master.kill()
            replica.process.send_signal(signal.SIGCONT)
            self.until(lambda: self.cluster.master_of(keys.lease) is replica)
            master.start()
            self.assertEqual(customer.ask(put(2)).status, 0)
            self.assertEqual(self.entries(client, 0), 3)
        worker.stop()
        self.assertIsNone(worker.error)


class Words(unittest.TestCase):
    def test_urls(self) -> None:
        made = list[dict[str, Any]]()

        class Noting(System):
            def link(self, kind: type[RedisLink], words: dict[str, Any]) -> RedisLink:
                return cast(RedisLink, made.append(words))

        def nodes(url: str) -> Nodes:
            return Nodes(url, Noting())

        known = nodes("redis://u:p@h:1/0?cluster=1&db=2&replicas=2")
        self.assertEqual((known.is_cluster, known.replicas, known.is_one, known.find(7)), (True, 2, False, "h:1"))
        known.connect(known.find(7))
        known.connect("g:2")
        nodes("redis://u:p@h:1/0?replicas=1").connect("h:1")
        words = {"username": "u", "password": "p", "host": "h", "port": "1", "db": 2}
        self.assertEqual(made, [words, {**words, "host": "g", "port": "2"}, {**words, "port": 1, "db": 0}])
        for url, checks in (("rediss://h/0", True), ("REDISS://h/0", True), ("rediss://h/0?ssl_check_hostname=no", False)):
            nodes(url).connect("")
            self.assertIs(made[-1]["ssl_check_hostname"], checks)
        self.assertTrue(nodes("unix:///s").is_one)
        for url in ("redis://h:1/0?cluster=2", "redis://h:1/0?replicas=x", "unix:///s?cluster=1"):
            with self.assertRaisesRegex(RedisError, "cluster is 0 or 1, of hosts with ports, and replicas is a number"):
                nodes(url)
        with self.assertRaisesRegex(RedisError, r"^redis://h/0\?cluster=1&nonsense=1 is no URL of a Redis: .*'nonsense'$"):
            nodes("redis://h/0?cluster=1&nonsense=1")

    def test_nodes(self) -> None:
        nodes = Nodes("redis://a:1/0?cluster=1", MACHINE)
        nodes.watch()
        self.assertEqual((nodes.find(5), nodes.learn(5, "b:2"), nodes.find(5)), ("a:1", False, "b:2"))
        nodes.note("b:2", is_away=True)
        self.assertEqual((nodes.find(5), nodes.learn(5, "b:2"), nodes.has_changed), ("a:1", False, False))
        self.assertEqual((nodes.learn(5, "a:1"), nodes.has_changed), (True, True))
        nodes.watch()
        self.assertEqual((nodes.learn("a:1", "x"), nodes.learn("a:1", "x"), nodes.has_changed), (False, False, False))
        self.assertEqual((nodes.learn("a:1", "y"), nodes.has_changed), (True, True))
        with self.assertRaises(Away):
            nodes.find(5)
        nodes.watch()
        self.assertEqual(nodes.find(5), "a:1")
