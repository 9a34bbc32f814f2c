"""The command: a worker, a client, moves, and each error in one sentence."""

from __future__ import annotations

import os
import re
import signal
import subprocess
import sys
import time
from pathlib import Path

from bpfhost import Host, MapType, frames
from bpfhost.shards import Client, ShardKeys
from bpfhost.shards.settings import Settings
from tests.common import PROGRAM
from tests.shards.blocking_redis import connect
from tests.shards.common import ShardTest
from tests.shards.redis_server import RedisServer
from tests.shards.streams import Stream

FROM_HOST = re.compile(r"served by \S+ process [0-9]+")


class Commands(ShardTest):
    def call(self, *words: str, given: bytes = b"") -> subprocess.CompletedProcess[bytes]:
        """The command with these arguments."""
        return subprocess.run(self.words(*words), input=given, capture_output=True, timeout=150)

    def words(self, *words: str) -> list[str]:
        return [sys.executable, "-m", "bpfhost.shards", words[0], "--redis", self.server.url, *words[1:]]

    def start(self, shard: int, *words: str) -> subprocess.Popen[str]:
        """A worker, which logs that it serves."""
        worker = subprocess.Popen(self.words("worker", str(shard), "--lease", "3", *words), stderr=subprocess.PIPE, text=True)
        assert worker.stderr is not None
        self.addCleanup(worker.stderr.close)
        self.addCleanup(worker.wait)
        self.addCleanup(worker.kill)
        self.assertRegex(worker.stderr.readline(), rf"^shard {shard} is served, from entry [0-9]+-[0-9]+ on\n$")
        return worker

    def test_all_of_it(self) -> None:
        workers = [self.start(shard) for shard in (0, 1)]
        with Host(PROGRAM) as host:
            asked, wanted = Stream(PROGRAM, 1).play(host, 300)
        for at, place in ((0, "shard 1, tenant 0"), (150, "shard 0, tenant 0")):
            called = self.call("client", "acme", given=b"".join(asked[at : at + 150]))
            self.assertEqual((called.stdout, called.stderr), (b"".join(wanted[at : at + 150]), b""))
            self.assertEqual(self.call("move", "acme").stdout.decode(), f"acme: {place}\n")
        self.assertEqual(
            FROM_HOST.sub("served", self.call("show").stdout.decode()),
            "shard 0: 1 customers, 0 KiB of calls wait, served\nshard 1: 0 customers, 0 KiB of calls wait, served\nacme: shard 0, tenant 0\n",
        )
        self.assertEqual(self.call("remove", "acme").returncode, 0)
        for worker in workers:
            worker.send_signal(signal.SIGTERM)
            self.assertEqual(worker.wait(20), 0)
        self.assertIn("shard 0: 0 customers, 0 KiB of calls wait, not served, not offered", self.call("show").stdout.decode())

    def test_a_killed_worker(self) -> None:
        frame = frames.map_create(0, MapType.HASH, 4, 8, 1)
        worker = self.start(0)
        self.assertEqual(self.call("client", "acme", given=frame).returncode, 0)
        worker.kill()
        began = time.monotonic()
        self.start(0)
        # After the lease of the killed worker has run out.
        self.assertGreater(time.monotonic() - began, 1)
        self.assertEqual(self.call("client", "acme", given=frame).stdout[8:], bytes([4, 0, 0, 0]))

    def test_a_shard_with_a_redis_of_its_own(self) -> None:
        (self.scratch / "two").mkdir()
        with RedisServer(self.scratch / "two") as other:
            self.start(4, "--redis", other.url, "--directory", self.server.url)
            frame = frames.map_create(0, MapType.HASH, 4, 8, 1)
            self.assertEqual(self.call("client", "acme", given=frame).stdout[8:], bytes([3, 0, 0, 0]))
            self.assertIn("shard 4: 1 customers, 0 KiB of calls wait, served by", self.call("show").stdout.decode())

    def test_each_word_of_a_worker(self) -> None:
        """Each option has its effect, and no other one."""
        redis = connect(self.server.url)
        self.addCleanup(redis.close)
        for shard, words, seconds, has_snapshot, drops in (
            (5, ["--lease", "2"], b"2000", False, False),
            (6, ["--snapshot-entries", "7"], b"3000", True, False),
            (7, ["--snapshot-entries", "7", "--keep-replies", "0.1"], b"3000", True, True),
        ):
            worker, keys = self.start(shard, *words), ShardKeys(shard)
            with Client(self.server.url) as client:
                client.directory.place(f"customer-{shard}")
                customer = client.customer(f"customer-{shard}")
                for value in range(24):
                    customer.ask(frames.map_create(0, MapType.HASH, 4, 8, 1))
                seat = client.directory.customers()[f"customer-{shard}"]
            self.assertEqual((seat.shard, redis.hget(keys.lease, "milliseconds")), (shard, seconds))
            self.until(lambda: bool(redis.hkeys(keys.snapshots)) == has_snapshot)
            self.until(lambda: (redis.xlen(keys.replies(seat.tenant)) < 24) == drops)
            worker.send_signal(signal.SIGTERM)
            self.assertEqual(worker.wait(20), 0)
        redis.call("CONFIG", "SET", "appendfsync", "everysec")
        refused = self.call("worker", "8")
        self.assertEqual((refused.returncode, refused.stderr[:46]), (3, b"bpfhost.shards: Redis has appendfsync everysec"))
        self.start(8, "--volatile")
        self.start(9, "--volatile", "--prefix", "other")
        self.assertTrue(redis.get("other:{9}:incarnation"))

    def test_words_of_an_operator(self) -> None:
        workers = [self.start(shard) for shard in (0, 1)]
        frame = frames.map_create(0, MapType.HASH, 4, 8, 1)
        self.assertEqual(self.call("client", "acme", given=frame).returncode, 0)
        for words, status, said in (
            (["move", "acme", "--to", "1"], 0, "acme: shard 1, tenant 0\n"),
            (["drain", "1"], 0, "acme: shard 0, tenant [01]\n"),
            (["show"], 0, r"[\s\S]*shard 1: 0 customers, 0 KiB of calls wait, served by [^\n]*, drained\n[\s\S]*"),
            (["drain", "1", "--undo"], 0, ""),
            (["abort-move", "acme"], 1, "bpfhost.shards: customer acme is not being moved\n"),
            (["skip", "acme"], 1, "bpfhost.shards: nothing of customer acme is set aside\n"),
            (["retry", "nobody"], 1, "bpfhost.shards: customer nobody is not in the directory\n"),
            (["remove-shard", "1"], 1, "bpfhost.shards: shard 1 can't be removed: it is served: stop its worker first\n"),
            (["drain", "7"], 1, "bpfhost.shards: the directory knows no shard 7\n"),
        ):
            called = self.call(*words)
            self.assertRegex((called.stdout + called.stderr).decode(), f"^{said}$")
            self.assertEqual(called.returncode, status, words)
        workers[1].send_signal(signal.SIGTERM)
        self.assertEqual(workers[1].wait(20), 0)
        self.assertEqual(self.call("remove-shard", "1").returncode, 0)
        self.assertNotIn("shard 1", self.call("show").stdout.decode())

    def test_one_sentence(self) -> None:
        self.start(0)
        nowhere = ["--redis", f"unix://{self.scratch}/nothing", "--seconds", "0.2"]
        for words, status, sentence in (
            (["worker", "0"], 4, "shard 0 is served by another worker, .*, who raises its lease"),
            (["move", "acme"], 1, "customer acme can't be moved: the customer is not in the directory"),
            (["client", "acme"], 1, "the bytes from 0 on are no whole frame"),
            (["client", "acme", *nowhere], 3, "it is not known whether a call of customer acme was taken: Redis can't be reached: .*"),
            (["show", "--redis", "nonsense"], 3, "nonsense is no URL of a Redis: .*"),
            (["worker", "0", "--bpfhost", "/nothing", "--library", "none"], 3, "/nothing does not start: No such file or directory"),
            (["worker", "x"], 2, "argument SHARD: invalid shard from 0 to 2147483647 value: 'x'"),
            (["move", "a b"], 2, "argument NAME: invalid name of 1 to 255 .*"),
            (["worker", "0", "--lease", "0"], 2, "argument --lease: invalid number of seconds from 0.1 on value: '0'"),
            (["client", "acme", "--seconds"], 2, "argument --seconds: expected one argument"),
        ):
            shard = "1" if "/nothing" in words else words[1] if len(words) > 1 else ""
            given = frames.close(0, 3)[: -1 if status == 1 else None]
            called = self.call(words[0], *([shard] if words[1:] else []), *words[2:], given=given)
            self.assertEqual(called.returncode, status, (words, called.stderr))
            self.assertRegex(called.stderr.decode(), f"^(bpfhost.shards: )?{sentence}\n$")

    def test_urls_that_are_none(self) -> None:
        """An option that is none, or has a wrong value, is refused in one sentence."""
        customers = Path(self.scratch) / "customers.toml"
        customers.write_text("")
        unknown = "redis://host:6379/0?nonsense=1", "nonsense"
        for words, (url, why) in (
            (["worker", "0", "--library", "none"], unknown),
            (["gateway", "--customers", str(customers)], unknown),
            (["client", "acme"], unknown),
            (["client", "acme"], ("unix:///s?nonsense=1", "nonsense")),
            (["client", "acme"], ("rediss://host/0?ssl_cert_reqs=nonsense", "nonsense")),
            (["client", "acme"], ("redis://host/0?parser_class=nonsense", "is not callable")),
        ):
            called = self.call(*words, "--redis", url)
            said = called.stderr.decode()
            self.assertEqual(called.returncode, 3, said)
            self.assertRegex(said, f"^bpfhost.shards: {re.escape(url)} is no URL of a Redis: .*{why}.*\n$")

    def test_there_is_no_room(self) -> None:
        self.start(0)
        for words, given in ((["show"], b""), (["client", "acme"], frames.close(0, 3) * 10_000)):
            with open("/dev/full", "wb") as full:
                called = subprocess.run(self.words(*words), input=given, stdout=full, stderr=subprocess.PIPE)
            self.assertEqual(called.stderr, b"bpfhost.shards: standard input or output: No space left on device\n")
            self.assertEqual(called.returncode, 1)

    def test_connections_of_a_worker(self) -> None:
        """Its own, one to raise the lease at the same time, one for the directory, and one for each lane in which it reads."""
        redis = connect(self.server.url)
        self.addCleanup(redis.close)

        def connections() -> int:
            return bytes(redis.call("CLIENT", "LIST")).count(b"\n")

        before, lanes = connections(), Settings().lanes
        self.start(0)
        ends = time.monotonic() + 20
        while connections() < before + lanes and time.monotonic() < ends:
            time.sleep(0.05)
        # It has raised its lease once more then.
        time.sleep(1.5)
        self.assertIn(connections(), range(before + lanes, before + lanes + 4))

    def test_a_missing_package(self) -> None:
        (self.scratch / "redis.py").write_text("raise ModuleNotFoundError(name='redis')\n")
        environment = {**os.environ, "PYTHONPATH": str(self.scratch)}
        called = subprocess.run(self.words("show"), capture_output=True, text=True, env=environment)
        self.assertEqual(called.returncode, 3)
        self.assertEqual(called.stderr, "bpfhost.shards: the Python package redis is missing: apt-get install python3-redis\n")
