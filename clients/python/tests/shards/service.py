"""The whole service under faults.

It has a cluster of three masters with a replica each, four workers, two gateways, and customers over TLS, half of them with certificates.
Once a second one process of each kind is killed: a worker, a host, a gateway, a server of Redis; and the process of a customer is
replaced by one that continues its session.

usage: python3 -m tests.shards.service [--seconds S] [--seed N]

Each customer's frames are also sent to a host that serves only this customer, and each reply is compared, byte for byte. At the end each
frame was taken once, and each entry of each stream has one reply. The exit status is 1 if anything differs.
"""

from __future__ import annotations

import argparse
import contextlib
import json
import os
import random
import signal
import statistics
import sys
import tempfile
import threading
import time
import traceback
from collections import Counter
from collections.abc import Callable
from dataclasses import dataclass, field
from pathlib import Path

from bpfhost import Host
from bpfhost.numbers import MOST_TENANTS
from bpfhost.shards import Client, RedisError, ShardKeys
from bpfhost.shards.gateway.customers import hash_of
from bpfhost.shards.remote import CustomerTls, GatewayCustomer
from tests.shards.blocking_redis import shard_of
from tests.shards.certificates import OPENSSL, authority, signed
from tests.shards.redis_cluster import Node, RedisCluster
from tests.shards.redis_server import missing
from tests.shards.streams import Stream
from tests.shards.worker_process import WorkerProcess

PROGRAM = os.environ.get("BPFHOST", "")
WORKERS, GATEWAYS, CUSTOMERS = 4, 2, 6
_SECONDS_TO_SETTLE = 120.0
# A server of Redis that is killed stays away until a replica has taken over, one time in so many; otherwise it is started at once.
_ONE_IN = 4


class Differs(Exception):
    """A result differs from the expected one."""


class Kept:
    """A process that is started again whenever it ends."""

    def __init__(self, words: list[str], errors: Path) -> None:
        self._words, self._errors, self._started = words, errors, 0
        self.process = self._start()

    def _start(self) -> WorkerProcess:
        self._started += 1
        return WorkerProcess(self._words, self._errors.with_suffix(f".{self._started}"))

    def look(self) -> None:
        """Starts it again if it has ended; raises Differs if it ended by a fault of its own."""
        if self.process.status() is not None:
            if "Traceback" in self.process.said():
                raise Differs(f"{' '.join(self._words[:2])}: {self.process.said()}")
            self.process = self._start()


@dataclass
class Asked:
    """A customer, and what it has received: how many replies it has, and how long each call took."""

    name: str
    tls: CustomerTls
    token: str | None
    frames: int = 0
    seconds: list[float] = field(default_factory=list)


class Service:
    """All processes, and what is done to them."""

    def __init__(self, folder: Path, seconds: float, seed: int) -> None:
        self._folder, self._seconds, self._seed = folder, seconds, seed
        self._draw, self.counts = random.Random(seed), Counter[str]()
        self._cluster = RedisCluster(folder)
        self._stopped, self._ended, self._failures = threading.Event(), threading.Event(), list[str]()
        self.customers = self._certificates()
        self._workers = [self._worker(number) for number in range(WORKERS)]
        self.addresses = [f"127.0.0.1:{self._cluster.nodes[-1].port + 1 + number}" for number in range(GATEWAYS)]
        self._gateways = [self._gateway(number) for number in range(GATEWAYS)]

    def _worker(self, number: int) -> Kept:
        words = ["worker", str(number), "--redis", self._cluster.url, "--bpfhost", PROGRAM, "--lease", "1", "--snapshot-entries", "200"]
        return Kept(words, self._folder / f"worker-{number}")

    def _gateway(self, number: int) -> Kept:
        words = ["gateway", "--redis", self._cluster.url, "--listen", self.addresses[number], "--customers", f"{self._folder}/customers.toml"]
        words += ["--certificate", f"{self._folder}/gateway.pem", "--key", f"{self._folder}/gateway.key", "--clients", f"{self._folder}/clients.pem"]
        return Kept(words, self._folder / f"gateway-{number}")

    def _certificates(self) -> list[Asked]:
        """Customers with tokens and certificates, which the file of customers knows."""
        own, clients = authority(self._folder), authority(self._folder, "clients")
        signed(self._folder, "gateway", own, "IP:127.0.0.1")
        made, text = [], ""
        for number in range(CUSTOMERS):
            name = f"customer-{number}"
            if number % 2:
                text += f'[customers.{name}]\ncertificate = "{name}.example"\n'
                made.append(Asked(name, CustomerTls(own, *signed(self._folder, f"{name}.example", clients)), None))
            else:
                text += f'[customers.{name}]\ntoken-sha256 = "{hash_of(name)}"\n'
                made.append(Asked(name, CustomerTls(own), name))
        (self._folder / "customers.toml").write_text(text)
        return made

    def run(self) -> None:
        """The whole run; raises Differs if anything is wrong."""
        try:
            self._run()
        finally:
            self._ended.set()
            for kept in (*self._gateways, *self._workers):
                kept.process.send(signal.SIGKILL)
            self._cluster.kill()

    def _run(self) -> None:
        keeper = threading.Thread(target=self._guarded, args=(self._keep,))
        asking = [threading.Thread(target=self._guarded, args=(lambda one=one: self._ask(one),)) for one in self.customers]
        for thread in (keeper, *asking):
            thread.start()
        self._kill_for(self._seconds)
        self._stopped.set()
        for thread in asking:
            thread.join(_SECONDS_TO_SETTLE)
        if any(thread.is_alive() for thread in asking):
            self._failures.append("a customer waits for ever")
        if self._failures:
            raise Differs(self._failures[0])
        self._ended.set()
        keeper.join(_SECONDS_TO_SETTLE)
        self._compare()

    def _guarded(self, run: Callable[[], None]) -> None:
        try:
            run()
        except BaseException:
            self._failures.append(traceback.format_exc())
            self._stopped.set()

    def _keep(self) -> None:
        while not self._ended.is_set():
            for kept in (*self._workers, *self._gateways):
                kept.look()
            time.sleep(0.02)

    # Customers.

    def _ask(self, asked: Asked) -> None:
        """Sends random frames, and compares each reply. Now and then its process ends during calls, and the next one continues."""
        stream, draw = Stream(PROGRAM, f"{self._seed} {asked.name}"), random.Random(f"{self._seed} {asked.name}")
        with Host(PROGRAM) as alone:
            customer = self._customer(asked, draw)
            while not self._stopped.is_set():
                parts = [stream.play(alone, draw.randrange(1, 12)) for _ in range(draw.randrange(1, 5))]
                sent, wanted = [frame for part in parts for frame in part[0]], [reply for part in parts for reply in part[1]]
                began = time.monotonic()
                posted = [customer.post(b"".join(frames)) for frames, _ in parts]
                if draw.random() < 0.03:
                    customer.close()
                    customer = self._customer(asked, draw)
                    told = self._go_on(customer, asked.frames, sent)
                else:
                    told = [reply for one in posted for reply in customer.wait(one)]
                if told != wanted:
                    at = next(at for at, pair in enumerate(zip(told, wanted)) if pair[0] != pair[1])
                    raise Differs(f"{asked.name} is told {told[at].hex()} of {sent[at].hex()}, and alone {wanted[at].hex()}")
                asked.seconds.append(time.monotonic() - began)
                asked.frames += len(sent)
            customer.close()

    def _customer(self, asked: Asked, draw: random.Random) -> GatewayCustomer:
        addresses = draw.sample(self.addresses, GATEWAYS)
        return GatewayCustomer(addresses, asked.token, f"session of {asked.name}", asked.tls, _SECONDS_TO_SETTLE)

    def _go_on(self, customer: GatewayCustomer, answered: int, sent: list[bytes]) -> list[bytes]:
        """Continues after a process that has ended: the replies to taken frames come, and the others are sent."""
        self.counts["customers"] += 1
        taken = customer.resume(answered) - answered
        told = customer.missing()
        if not 0 <= taken <= len(sent) or len(told) != taken:
            raise Differs(f"of {len(sent)} frames {taken} were taken, and {len(told)} replies come")
        return told + (customer.wait(customer.post(b"".join(sent[taken:]))) if sent[taken:] else [])

    # Faults.

    def _kill_for(self, seconds: float) -> None:
        """Kills one process of each kind once a second, after each customer has had a reply."""
        until = time.monotonic() + _SECONDS_TO_SETTLE
        while not all(one.seconds for one in self.customers) and not self._stopped.is_set() and time.monotonic() < until:
            time.sleep(0.02)
        redis = threading.Thread(target=self._guarded, args=(self._kill_servers,))
        redis.start()
        until = time.monotonic() + seconds
        while time.monotonic() < until and not self._stopped.is_set():
            for kill in (self._kill_worker, self._kill_host, self._kill_gateway):
                time.sleep(1 / 3 * self._draw.uniform(0.5, 1.5))
                kill()
        self._stopped.set()
        redis.join(_SECONDS_TO_SETTLE)

    def _kill_worker(self) -> None:
        self._draw.choice(self._workers).process.send(signal.SIGKILL)
        self.counts["workers"] += 1

    def _kill_host(self) -> None:
        host = self._draw.choice(self._workers).process.host()
        if host:
            with contextlib.suppress(ProcessLookupError):
                os.kill(host, signal.SIGKILL)
                self.counts["hosts"] += 1

    def _kill_gateway(self) -> None:
        self._draw.choice(self._gateways).process.send(signal.SIGKILL)
        self.counts["gateways"] += 1

    def _kill_servers(self) -> None:
        """Kills servers of Redis, one a second; some stay away until a replica has taken over."""
        draw = random.Random(f"redis {self._seed}")
        first = True
        while not self._stopped.is_set():
            node = draw.choice(self._cluster.nodes)
            is_master = node.told("replication").get("role") == "master"
            node.kill()
            self.counts["servers"] += 1
            if is_master and (first or not draw.randrange(_ONE_IN)):
                first = False
                self._until_failover(node)
            node.start()
            self._stopped.wait(draw.uniform(0.7, 1.3))
        self._cluster.until_whole()

    def _until_failover(self, node: Node) -> None:
        replicas = [one for one in self._cluster.nodes if one is not node and one.told("replication").get("master_port") == str(node.port)]
        until = time.monotonic() + 20
        while replicas and time.monotonic() < until:
            if any(one.told("replication").get("role") == "master" for one in replicas):
                self.counts["failovers"] += 1
                return
            time.sleep(0.1)

    # The end.

    def _compare(self) -> None:
        """Stops the workers. Each entry has one reply, and each session as many frames as its customer sent."""
        for kept in (*self._gateways, *self._workers):
            kept.process.send(signal.SIGTERM)
            kept.process.wait(_SECONDS_TO_SETTLE)
        with Client(self._cluster.url) as client:
            seats = client.directory.customers()
            for number in range(WORKERS):
                self._compare_shard(client, number)
            for one in self.customers:
                seat = seats[one.name]
                record = shard_of(client, seat.shard)[0].hget(ShardKeys(seat.shard).sessions(seat.generation), f"gateway session of {one.name}")
                if int(json.loads(record or b'{"number": 0}')["number"]) != one.frames:
                    raise Differs(f"{one.name} was answered {one.frames} frames, and its session has {record!r}")

    def _compare_shard(self, client: Client, number: int) -> None:
        redis, keys = shard_of(client, number)
        for tenant in range(MOST_TENANTS):
            try:
                asked, replied = (redis.stream(name) for name in (keys.frames(tenant), keys.replies(tenant)))
            except RedisError as error:
                raise Differs(f"shard {number} can't be read: {error}") from None
            if any(asked.get(what) != replied.get(what) for what in (b"entries-added", b"last-generated-id")):
                raise Differs(f"tenant {tenant} of shard {number} has {asked} and {replied}")
            self.counts["entries"] += asked.get(b"entries-added", 0)

    def summary(self) -> str:
        """What was seen."""
        counts, waits = self.counts, [seconds for one in self.customers for seconds in one.seconds]
        return (
            f"service: {sum(one.frames for one in self.customers):,} frames of {CUSTOMERS} customers by TLS in {counts['entries']:,} calls,\n"
            "    each answered once, as by a host that serves the customer alone;\n"
            f"    {counts['workers']} workers killed, {counts['hosts']} hosts, {counts['gateways']} gateways, {counts['servers']} servers of Redis,\n"
            f"    {counts['failovers']} of them until a replica had taken over; {counts['customers']} customers gone on with by another process;\n"
            f"    a customer waited {statistics.median(waits):.2f} s (median), and at most {max(waits):.1f}"
        )


def main() -> int:
    """The command."""
    parser = argparse.ArgumentParser(prog="service", description="Kills all that serves customers, while they ask by TLS.")
    parser.add_argument("--seconds", type=float, default=60, help="for so long")
    parser.add_argument("--seed", type=int, default=1, help="of the random numbers")
    said = parser.parse_args()
    why = missing() or (None if OPENSSL else "openssl is missing")
    if why:
        print(f"service: skipped, as {why}")
        return 0
    with tempfile.TemporaryDirectory() as folder:
        service = Service(Path(folder), said.seconds, said.seed)
        try:
            service.run()
        except Differs as error:
            print(f"service: {error}")
            return 1
    print(service.summary())
    return 0


if __name__ == "__main__":
    sys.exit(main())
