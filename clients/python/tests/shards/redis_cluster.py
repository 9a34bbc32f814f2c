"""A Redis cluster for tests: three masters, each with a replica; all of them write each change to the disk before they reply."""

from __future__ import annotations

import contextlib
import os
import socket
import subprocess
import time
from pathlib import Path

from bpfhost.optional import optional_module
from bpfhost.shards.connection import told_by
from bpfhost.shards.errors import RedisError
from tests.shards.blocking_redis import Redis, connect
from tests.shards.redis_server import SERVER

MASTERS, SLOTS = 3, 16_384
_SECONDS = 60


def _free_ports(many: int) -> list[int]:
    """Ports that are free at the moment, and whose bus ports, 10,000 above them, are free too.

    All are below 32,768: Linux gives the ports from there on to connections, at any time. Each process begins at another one: the ports of a
    node that is killed are free for a while, and another run of the tests may be near.
    """
    found: list[int] = []
    first = 12_000 + os.getpid() % 100 * 100
    for port in (*range(first, 22_000), *range(12_000, first)):
        with contextlib.suppress(OSError), contextlib.ExitStack() as stack:
            for one in (port, port + 10_000):
                stack.enter_context(socket.create_server(("127.0.0.1", one)))
            found.append(port)
        if len(found) == many:
            return found
    raise AssertionError("no ports are free")


class Node:
    """A server of the cluster."""

    def __init__(self, folder: Path, port: int) -> None:
        self.folder, self.port, self.address = folder, port, f"127.0.0.1:{port}"
        folder.mkdir(exist_ok=True)
        self.process: subprocess.Popen[bytes] | None = None
        self.redis = connect(f"redis://{self.address}/0")

    def start(self) -> None:
        """Starts it on the files in its folder, and waits until it replies."""
        options = {
            "port": str(self.port),
            "bind": "127.0.0.1",
            "dir": str(self.folder),
            "appendonly": "yes",
            "appendfsync": "always",
            "save": "",
            "cluster-enabled": "yes",
            "cluster-node-timeout": "1500",
            "cluster-replica-validity-factor": "0",
            "min-replicas-to-write": "1",
            "repl-diskless-sync-delay": "0",
            "loglevel": "notice",
        }
        words = [part for name, value in options.items() for part in (f"--{name}", value)]
        with open(self.folder / "log", "ab") as log:
            self.process = subprocess.Popen([str(SERVER), *words], stdin=subprocess.DEVNULL, stdout=log, stderr=log)
        _until(self._answers, f"redis-server does not answer: {self.folder}")

    def _answers(self) -> bool:
        if self.process and self.process.poll() is not None:
            raise AssertionError(f"redis-server has ended: {(self.folder / 'log').read_text(errors='replace')[-500:]}")
        with contextlib.suppress(RedisError):
            return bool(self.call("PING"))
        return False

    def call(self, *words: object) -> object:
        """The reply to a command."""
        return self.redis.until(time.monotonic() + 2).call(*words)

    def told(self, section: str) -> dict[str, str]:
        """A section of INFO; empty if it does not reply."""
        with contextlib.suppress(RedisError):
            return self.redis.loop.run(told_by(self.redis.until(time.monotonic() + 2).aio, section))
        return {}

    def kill(self) -> None:
        """Ends it by SIGKILL."""
        if self.process:
            self.process.kill()
            self.process.wait()
            self.process = None


def _until(holds: object, what: str) -> None:
    until = time.monotonic() + _SECONDS
    while not holds():  # type: ignore[operator]
        if time.monotonic() > until:
            raise AssertionError(what)
        time.sleep(0.02)


class RedisCluster:
    """The cluster. It is a context manager, which kills all nodes."""

    def __init__(self, folder: Path) -> None:
        self.nodes = [Node(folder / f"node-{number}", port) for number, port in enumerate(_free_ports(2 * MASTERS))]
        # The second half start as replicas of the first.
        self.url = f"redis://{self.nodes[0].address}/0?cluster=1&replicas=1"
        try:
            self._begin()
        except BaseException:
            self.kill()
            raise

    def __enter__(self) -> RedisCluster:
        return self

    def __exit__(self, *_error: object) -> None:
        self.kill()

    def kill(self) -> None:
        """Kills all nodes."""
        for node in self.nodes:
            node.kill()
            node.redis.close()

    def _begin(self) -> None:
        for number, node in enumerate(self.nodes):
            node.start()
            node.call("CLUSTER", "SET-CONFIG-EPOCH", number + 1)
        for number, node in enumerate(self.nodes[:MASTERS]):
            node.call("CLUSTER", "ADDSLOTSRANGE", SLOTS * number // MASTERS, SLOTS * (number + 1) // MASTERS - 1)
        for node in self.nodes[1:]:
            self.nodes[0].call("CLUSTER", "MEET", "127.0.0.1", node.port)
        _until(lambda: all(b"cluster_known_nodes:%d" % len(self.nodes) in bytes(node.call("CLUSTER", "INFO")) for node in self.nodes), "no cluster")  # type: ignore[call-overload]
        for master, replica in zip(self.nodes[:MASTERS], self.nodes[MASTERS:]):
            name = master.call("CLUSTER", "MYID")
            _until(lambda: self._replicates(replica, name), "a replica knows no master")
        self.until_whole()

    @staticmethod
    def _replicates(replica: Node, name: object) -> bool:
        with contextlib.suppress(RedisError):
            return bool(replica.call("CLUSTER", "REPLICATE", name))
        return False

    def until_whole(self) -> None:
        """Waits until each slot is served, and each master has a replica that is up to date."""
        _until(self._is_whole, "the cluster is not whole")

    def _is_whole(self) -> bool:
        masters = [node for node in self.nodes if node.told("replication").get("role") == "master"]
        have = all("state=online" in node.told("replication").get("slave0", "") for node in masters)
        return len(masters) == MASTERS and have and all(self._is_well(node) for node in self.nodes)

    @staticmethod
    def _is_well(node: Node) -> bool:
        with contextlib.suppress(RedisError):
            return b"cluster_state:ok" in bytes(node.call("CLUSTER", "INFO"))  # type: ignore[call-overload]
        return False

    def master_of(self, key: str) -> Node:
        """The node that serves a key's slot."""
        slot = optional_module("redis.crc").key_slot(key.encode())
        for node in self.nodes:
            with contextlib.suppress(RedisError):
                for first, last, (_, port, *_), *_ in node.call("CLUSTER", "SLOTS"):  # type: ignore[attr-defined]
                    if first <= slot <= last:
                        return next(one for one in self.nodes if one.port == port)
        raise AssertionError(f"nobody serves {key}")

    def redis(self) -> Redis:
        """A connection of the package to the cluster."""
        return connect(self.url)
