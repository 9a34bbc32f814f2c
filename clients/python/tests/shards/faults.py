"""Faults while customers send calls.

Workers and hosts are killed at random moments, workers are paused past their lease, Redis is killed and restarted on its files,
connections are cut, customers are moved, and second workers are started on shards that are served.

usage: python3 -m tests.shards.faults [--kills N] [--seconds S] [--seed N]

Each customer's frames are also sent to a host that serves only this customer, and each reply is compared, byte for byte. At the end each
entry of each stream has one reply, and there are as many entries as calls were taken. The run ends after so many kills or seconds, and
prints what was seen. The exit status is 1 if anything differs.
"""

from __future__ import annotations

import argparse
import os
import random
import signal
import sys
import tempfile
import threading
import time
import traceback
from collections import Counter
from collections.abc import Callable
from pathlib import Path

from bpfhost import Host
from bpfhost.numbers import MOST_TENANTS
from bpfhost.shards import Client, MoveError, NoReply, RedisError, move, moving
from tests.shards.blocking_redis import connect, directory_of, shard_of
from tests.shards.common import did
from tests.shards.redis_server import RedisServer, missing
from tests.shards.streams import Stream
from tests.shards.worker_process import WorkerProcess

PROGRAM = os.environ.get("BPFHOST", "")
SHARDS, CUSTOMERS, LEASE = 3, 10, 1.0
SNAPSHOT_ENTRIES = 120
_SECONDS_TO_SETTLE = 150.0
# The sentence that a worker logs when it serves.
_SERVES = "is served, from"
_CAREFUL = "the host is a process of its own at first"
# The exit statuses of a worker that ended because its host or Redis was away, or because another worker has its lease.
_AWAY, _NO_LEASE = 3, 4


class Differs(Exception):
    """A result differs from the expected one."""


class Supervisor:
    """Starts a worker for a shard again whenever it ends, as an init system does."""

    def __init__(self, url: str, shard: int, folder: Path, counts: Counter[str]) -> None:
        self._url, self._shard, self._folder, self._counts = url, shard, folder, counts
        self._started = 0
        self.lock = threading.Lock()
        self.worker = self.start()

    def start(self) -> WorkerProcess:
        """A new worker."""
        self._started += 1
        words = ["worker", str(self._shard), "--redis", self._url, "--bpfhost", PROGRAM, "--lease", str(LEASE)]
        words += ["--snapshot-entries", str(SNAPSHOT_ENTRIES)]
        return WorkerProcess(words, self._folder / f"worker-{self._shard}-{self._started}")

    def look(self) -> None:
        """Starts a new worker if the last one has ended."""
        with self.lock:
            status = self.worker.status()
            if status is not None:
                self.note(self.worker, status)
                self.worker = self.start()

    def note(self, worker: WorkerProcess, status: int) -> None:
        """Notes how a worker has ended; raises Differs if it should not have."""
        said = worker.said()
        self._counts["served"] += _SERVES in said
        self._counts["careful"] += _CAREFUL in said
        if status not in (0, -signal.SIGKILL, _AWAY, _NO_LEASE) or "Traceback" in said:
            raise Differs(f"the worker of shard {self._shard} ended with {status}: {said}")

    def replace(self) -> WorkerProcess:
        """Replaces the running worker by a second one, and returns the first."""
        with self.lock:
            old, self.worker = self.worker, self.start()
            return old


class Faults:
    """Redis, shards, customers and what is done to them."""

    def __init__(self, folder: Path, kills: int, seconds: float, seed: int) -> None:
        self.counts: Counter[str] = Counter()
        self._kills, self._until, self._draw = kills, time.monotonic() + seconds, random.Random(seed)
        self._redis = RedisServer(folder)
        self._seed, self._failures = seed, list[str]()
        # No more faults and calls; no more workers to replace those that end.
        self._stopped, self._ended = threading.Event(), threading.Event()
        self._calls: Counter[str] = Counter()
        self.shards = [Supervisor(self._redis.url, shard, folder, self.counts) for shard in range(SHARDS)]

    def run(self) -> None:
        """The whole run; raises Differs if anything is wrong."""
        try:
            self._run()
        finally:
            for shard in self.shards:
                shard.worker.send(signal.SIGKILL)
            self._redis.kill()

    def _run(self) -> None:
        self._wait_for_shards()
        customers = [threading.Thread(target=self._guarded, args=(self._customer, number)) for number in range(CUSTOMERS)]
        keeper = threading.Thread(target=self._guarded, args=(self._supervise, 0))
        try:
            for thread in (keeper, *customers):
                thread.start()
            self._do_faults()
        finally:
            self._stopped.set()
            for thread in customers:
                thread.join(_SECONDS_TO_SETTLE)
            self._ended.set()
            keeper.join(_SECONDS_TO_SETTLE)
        if any(thread.is_alive() for thread in customers):
            self._failures.append("a customer waits for ever")
        if self._failures:
            raise Differs(self._failures[0])
        self._end()

    def _wait_for_shards(self) -> None:
        with Client(self._redis.url) as client:
            until = time.monotonic() + _SECONDS_TO_SETTLE
            while len(client.directory.loads()) < SHARDS and time.monotonic() < until:
                time.sleep(0.02)

    def _guarded(self, run: Callable[[int], None], number: int) -> None:
        try:
            run(number)
        except BaseException:
            self._failures.append(traceback.format_exc())
            self._stopped.set()

    # Customers.

    def _customer(self, number: int) -> None:
        """Sends random frames, and compares each reply with that of a host that serves only this customer."""
        name, draw = f"customer-{number}", random.Random(f"{self._seed} {number}")
        stream = Stream(PROGRAM, f"{self._seed} {number}")
        with Client(self._redis.url) as client, Host(PROGRAM) as alone:
            customer = client.customer(name, _SECONDS_TO_SETTLE)
            while not self._stopped.is_set():
                frames, wanted = stream.play(alone, draw.randrange(1, 12))
                replies = customer.wait(customer.post(b"".join(frames)))
                if replies != wanted:
                    at = next(at for at, pair in enumerate(zip(replies, wanted)) if pair[0] != pair[1])
                    raise Differs(f"{name} is told {replies[at].hex()} of {frames[at].hex()}, and alone {wanted[at].hex()}")
                self._calls[name] += 1
                self.counts["frames"] += len(frames)

    def _supervise(self, _number: int) -> None:
        while not self._ended.is_set():
            for shard in self.shards:
                shard.look()
            time.sleep(0.01)

    # Faults.

    def _do_faults(self) -> None:
        kinds = {
            self._kill_worker: 72,
            self._kill_host: 8,
            self._end_worker: 12,
            self._pause: 3,
            self._kill_redis: 4,
            self._cut: 6,
            self._move: 6,
            self._second_worker: 1,
        }
        # Each of them happens, also in a short run.
        first = list(kinds)
        while self.counts["kills"] < self._kills or first:
            if time.monotonic() > self._until or self._stopped.is_set():
                return
            time.sleep(self._draw.random() * 0.2)
            (first.pop() if first else self._draw.choices(list(kinds), list(kinds.values()))[0])()

    def _kill_worker(self) -> None:
        self._draw.choice(self.shards).worker.send(signal.SIGKILL)
        self.counts["kills"] += 1

    def _kill_host(self) -> None:
        host = self._draw.choice(self.shards).worker.host()
        if host:
            os.kill(host, signal.SIGKILL)
            self.counts["hosts"] += 1

    def _end_worker(self) -> None:
        """Lets a worker end, after which the next one has its host in its own process, if there is a library."""
        worker = self._served_shard().worker
        worker.send(signal.SIGTERM)
        # A second SIGTERM would end it in the middle.
        worker.wait(_SECONDS_TO_SETTLE)
        self.counts["told to end"] += 1

    def _served_shard(self) -> Supervisor:
        """A shard, once its worker serves it."""
        shard = self._draw.choice(self.shards)
        until = time.monotonic() + _SECONDS_TO_SETTLE
        while _SERVES not in shard.worker.said() and time.monotonic() < until:
            time.sleep(0.01)
        return shard

    def _pause(self) -> None:
        """Pauses a worker until another one has its lease; after it wakes, it may write nothing more."""
        shard = self._served_shard()
        old = shard.worker
        old.send(signal.SIGSTOP)
        shard.replace()
        # Even on a busy machine, another worker has the lease when it wakes.
        until = time.monotonic() + _SECONDS_TO_SETTLE
        while _SERVES not in shard.worker.said() and time.monotonic() < until:
            time.sleep(0.02)
        time.sleep(self._draw.random() * 0.2)
        old.send(signal.SIGCONT)
        status = old.wait(_SECONDS_TO_SETTLE)
        if status is None:
            raise Differs(f"a worker that was paused past its lease goes on: {old.said()}")
        shard.note(old, status)
        self.counts["paused"] += 1

    def _kill_redis(self) -> None:
        self._redis.kill()
        time.sleep(self._draw.random() * 0.3)
        self._redis.start()
        self.counts["redis"] += 1

    def _cut(self) -> None:
        """Closes each connection to Redis, whatever command is in progress there."""
        redis = connect(self._redis.url)
        redis.call("CLIENT", "KILL", "TYPE", "normal")
        redis.close()
        self.counts["cut"] += 1

    def _move(self) -> None:
        """Moves a customer. Half of the moves have little time; the next call, or a worker, completes those that are interrupted."""
        name = f"customer-{self._draw.randrange(CUSTOMERS)}"
        with Client(self._redis.url) as client:
            if client.directory.seat(name) is None:
                return
            try:
                move(client, name, seconds=self._draw.choice((0.02, _SECONDS_TO_SETTLE)))
            except (NoReply, RedisError):
                self.counts["broken off"] += 1
                did(client, moving.end_move, name, _SECONDS_TO_SETTLE)
            except MoveError as error:
                # Both other shards may have lost their workers just now.
                if "is served" not in str(error):
                    raise
                self.counts["not moved"] += 1

    def _second_worker(self) -> None:
        """Starts a second worker on a shard that is served: it ends, and reports why.

        Or the first one paused for longer than its lease, as on a busy machine, and then the second one serves.
        """
        shard = self._served_shard()
        first, second = shard.worker, shard.start()
        until = time.monotonic() + _SECONDS_TO_SETTLE
        while second.status() is None and _SERVES not in second.said() and time.monotonic() < until:
            time.sleep(0.02)
        if second.status() is None:
            if first.wait(_SECONDS_TO_SETTLE) is None:
                raise Differs(f"two workers serve: {first.said()}; {second.said()}")
            second.send(signal.SIGTERM)
            second.wait(_SECONDS_TO_SETTLE)
        elif second.status() not in (_NO_LEASE, _AWAY):
            raise Differs(f"a second worker ends with {second.status()}: {second.said()}")
        self.counts["second"] += "is served by another worker" in second.said()

    # The end.

    def summary(self, wanted: int) -> str:
        """What was seen."""
        counts = self.counts
        short = f" (of {wanted} that were wanted)" if counts["kills"] < wanted else ""
        beside = f"; {counts['careful']} had a host beside them, since the worker before was killed, and the others the library"
        library = beside if counts["careful"] else ""
        return (
            f"faults of shards: {counts['frames']:,} frames of {CUSTOMERS} customers in {counts['calls']:,} calls,\n"
            "    each answered as by a host that serves the customer alone;\n"
            f"    {counts['entries']:,} entries, each with one reply;\n"
            f"    {counts['kills']} workers killed{short} and {counts['hosts']} hosts, {counts['served']} workers had begun to serve;\n"
            f"    {counts['told to end']} workers told to end{library};\n"
            f"    {counts['paused']} workers paused past their lease, {counts['second']} second workers refused;\n"
            f"    Redis killed {counts['redis']} times, connections cut {counts['cut']} times;\n"
            f"    {counts['moved']} moves, {counts['broken off']} of them broken off, and ended by another call or by a worker"
        )

    def _end(self) -> None:
        """Stops the workers, and compares how many entries, replies and calls there are."""
        with Client(self._redis.url) as client:
            for name in client.directory.moves():
                did(client, moving.end_move, name, _SECONDS_TO_SETTLE)
            # Each seat that was given is a customer's first one, or that of a move.
            given = int(directory_of(client).get(client.aio.directory.keys.all[3]) or 0)
            self.counts["moved"] = given - len(client.directory.customers())
        for shard in self.shards:
            shard.worker.send(signal.SIGTERM)
            shard.worker.wait(_SECONDS_TO_SETTLE)
        entries = 0
        with Client(self._redis.url) as client:
            for number in range(SHARDS):
                redis, keys = shard_of(client, number)
                for tenant in range(MOST_TENANTS):
                    asked, replied = (redis.stream(name) for name in (keys.frames(tenant), keys.replies(tenant)))
                    if any(asked.get(what) != replied.get(what) for what in (b"entries-added", b"last-generated-id")):
                        raise Differs(f"tenant {tenant} of shard {number} has {asked} and {replied}")
                    entries += asked.get(b"entries-added", 0)
        calls = sum(self._calls.values())
        if entries != calls + 2 * self.counts["moved"]:
            raise Differs(f"{entries} entries, and {calls} calls and {self.counts['moved']} moves")
        self.counts.update(entries=entries, calls=calls)


def main() -> int:
    """The command."""
    parser = argparse.ArgumentParser(prog="faults", description="Kills and pauses what serves shards, while customers ask.")
    parser.add_argument("--kills", type=int, default=100, help="so many workers are killed")
    parser.add_argument("--seconds", type=float, default=600, help="and then, or after so many seconds, it ends")
    parser.add_argument("--seed", type=int, default=1, help="of the random numbers")
    said = parser.parse_args()
    why = missing()
    if why:
        print(f"faults of shards: skipped, as {why}")
        return 0
    with tempfile.TemporaryDirectory() as folder:
        faults = Faults(Path(folder), said.kills, said.seconds, said.seed)
        try:
            faults.run()
        except Differs as error:
            print(f"faults of shards: {error}")
            return 1
    print(faults.summary(said.kills))
    return 0


if __name__ == "__main__":
    sys.exit(main())
