"""Workers and gateways from outside: metrics, health, logs, the output of `show`; the files of deploy/; and how they end."""

from __future__ import annotations

import json
import os
import re
import shutil
import signal
import subprocess
import sys
import tempfile
import tomllib
import unittest
import urllib.error
import urllib.request
from dataclasses import asdict
from pathlib import Path
from typing import Any

from bpfhost import frames
from bpfhost.shards import metrics, operating
from bpfhost.shards.metrics import Page, Told
from tests.common import PROGRAM, HostTest
from tests.shards.blocking_redis import shard_of
from tests.shards.common import CREATE, LOOK_UP, ShardTest, WorkerThread, counted, put, did
from tests.shards.gateways import UNCOUNTED, customers_file
from tests.test_command import PACKAGE

DEPLOY = PACKAGE / "deploy"
# The loader of the C library, which lists its settings.
LOADER = "/lib64/ld-linux-x86-64.so.2"
# A line of Prometheus's text format.
_LINE = re.compile(r'(# (HELP|TYPE) [a-z_]+ .+|[a-z_]+(\{[a-z]+="[^"]+"(,[a-z]+="[^"]+")*\})? ([0-9.e+-]+|\+Inf))')


def read(address: str, page: str) -> tuple[int, str]:
    """The status of a page, and its body."""
    try:
        with urllib.request.urlopen(f"http://{address}{page}", timeout=10) as answer:
            return answer.status, answer.read().decode()
    except urllib.error.HTTPError as error:
        with error:
            return error.code, error.read().decode()


def numbers(text: str) -> dict[str, float]:
    """The numbers of a page of metrics, each line of which is right."""
    found = {}
    for line in text.splitlines():
        assert _LINE.fullmatch(line), line
        if not line.startswith("#"):
            name, _, value = line.rpartition(" ")
            found[name] = float(value)
    return found


@unittest.skipIf(UNCOUNTED is not None, UNCOUNTED or "")
class Pages(HostTest):
    def test_pages(self) -> None:
        told = Told(metrics.GATEWAY, lambda: {"bpfhost_gateway_unknown": 5})
        told.add("bpfhost_gateway_calls_total", 3, "acme")
        told.add("bpfhost_gateway_refusals_total", 2, "who")
        told.saw("bpfhost_gateway_call_seconds", 0.003, "acme")
        well = [True]
        page = Page("127.0.0.1:0", told.text, lambda: (well[0], {"serves": well[0]}))
        self.addCleanup(page.close)
        status, text = read(page.address, "/metrics")
        found = numbers(text)
        self.assertEqual((status, found['bpfhost_gateway_calls_total{customer="acme"}'], found['bpfhost_gateway_refusals_total{why="who"}']), (200, 3, 2))
        self.assertEqual(found["bpfhost_gateway_unknown"], 5)
        buckets = [found[f'bpfhost_gateway_call_seconds_bucket{{customer="acme",le="{most}"}}'] for most in (0.0025, 0.005, "+Inf")]
        self.assertEqual(buckets, [0, 1, 1])
        self.assertGreater(found["process_resident_memory_bytes"], 1 << 20)
        self.assertEqual(read(page.address, "/health"), (200, '{"serves": true}\n'))
        well[0] = False
        self.assertEqual(read(page.address, "/health"), (503, '{"serves": false}\n'))
        self.assertEqual(read(page.address, "/other"), (404, "there are /metrics and /health\n"))
        for address in (page.address, "here", "127.0.0.1:x", "127.0.0.1:99999"):
            with self.assertRaisesRegex(Exception, "metrics (can't be|are) read at"):
                Page(address, told.text, lambda: (True, {}))


@unittest.skipIf(UNCOUNTED is not None, UNCOUNTED or "")
class Numbers(ShardTest):
    def test_a_worker(self) -> None:
        worker = self.shard(0)
        customer = self.client.customer("acme")
        customer.ask(CREATE)
        for value in range(3):
            customer.wait(customer.post(put(value) * 5))
        self.until(lambda: numbers(worker.worker.metrics.text())["bpfhost_worker_redis_memory_bytes"] > 0)
        # A reply is there before it is counted.
        self.until(lambda: counted(worker.worker.metrics, "bpfhost_worker_calls_total") == 4)
        found = numbers(worker.worker.metrics.text())
        self.assertEqual([found[f"bpfhost_worker_{name}"] for name in ("calls_total", "frames_total", "serves", "aside")], [4, 16, 1, 0])
        self.assertGreaterEqual(found["bpfhost_worker_lease_age_seconds"], 0)
        self.until(lambda: worker.worker.health()[0])
        said = worker.worker.health()[1]
        self.assertEqual((said["shard"], said["serves"]), (0, True))
        worker.stop()
        self.assertFalse(worker.worker.health()[0])
        again = self.shard(0)
        self.assertEqual(numbers(again.worker.metrics.text())["bpfhost_worker_replayed_frames_total"], 16)

    def test_what_is_shown_as_json(self) -> None:
        self.shard(0)
        self.client.customer("acme").ask(CREATE)
        said: dict[str, Any] = json.loads(json.dumps(asdict(did(self.client, operating.look))))
        self.assertEqual(said["customers"], {"acme": {"shard": 0, "tenant": 0, "generation": 1}})
        shard = said["shards"][0]
        self.assertRegex(shard.pop("served_by"), "process [0-9]+")
        self.assertEqual(
            shard,
            {"shard": 0, "customers": 1, "waiting": 0, "raises": True, "offered": True, "drained": False, "unreachable": "", "wrong": ""},
        )
        self.assertEqual((said["moves"], said["aside"]), ({}, []))


class Processes(ShardTest):
    def start(self, *words: str) -> subprocess.Popen[str]:
        """The command as a process."""
        command = [sys.executable, "-m", "bpfhost.shards", words[0], "--redis", self.server.url, *words[1:]]
        made = subprocess.Popen(command, stderr=subprocess.PIPE, text=True)
        self.addCleanup(made.wait)
        self.addCleanup(made.kill)
        assert made.stderr
        self.addCleanup(made.stderr.close)
        return made

    def line(self, process: subprocess.Popen[str]) -> dict[str, Any]:
        """The next line of its log."""
        assert process.stderr
        said: dict[str, Any] = json.loads(process.stderr.readline())
        self.assertRegex(said.pop("time"), r"^20\d\d-\d\d-\d\dT\d\d:\d\d:\d\d\.\d\d\d\+00:00$")
        self.assertEqual(said.pop("process"), process.pid)
        return said

    def test_the_end_of_a_worker(self) -> None:
        """A worker that is asked to end replies to what came, and takes snapshots: the next one plays nothing again."""
        (self.scratch / "shards.toml").write_text(f'redis = "unix:///nowhere"\nlog = "json"\n[worker]\nlease = 3\nbpfhost = "{PROGRAM}"\n')
        worker = self.start("worker", "0", "--config", f"{self.scratch}/shards.toml")
        self.assertEqual(self.line(worker), {"word": "worker", "shard": 0, "says": "shard 0 is served, from entry 0-0 on"})
        customers = [self.client.customer(f"customer-{number}") for number in range(3)]
        for customer in customers:
            customer.ask(CREATE)
            tickets = [customer.post(put(value)) for value in range(30)]
        worker.send_signal(signal.SIGTERM)
        self.assertEqual(worker.wait(30), 0)
        redis, keys = shard_of(self.client, 0)
        self.assertEqual(sorted(redis.hgetall(keys.snapshots)), [b"0", b"1", b"2"])
        self.assertIsNone(redis.hget(keys.lease, "token"))
        second = self.shard(0)
        self.assertEqual([customers[2].wait(ticket)[0][8:] for ticket in tickets], [bytes(4)] * 30)
        self.assertEqual(customers[2].ask(LOOK_UP).payload, (29).to_bytes(8, "little"))
        self.assertLess(numbers(second.worker.metrics.text())["bpfhost_worker_replayed_frames_total"], 31)

    @unittest.skipIf(UNCOUNTED is not None, UNCOUNTED or "")
    def test_a_gateway_in_json(self) -> None:
        file = customers_file(self.scratch, acme="token")
        words = ["--customers", str(file), "--listen", f"unix:{self.scratch}/g", "--log", "json", "--metrics", "127.0.0.1:0"]
        gateway = self.start("gateway", *words)
        said = [self.line(gateway) for _ in range(2)]
        address = said[0]["says"].removeprefix("metrics are read at ")
        self.assertEqual(said[1], {"word": "gateway", "says": f"the gateway serves 1 customers at unix:{self.scratch}/g"})
        self.until(lambda: read(address, "/health")[0] == 200)
        self.assertEqual(numbers(read(address, "/metrics")[1])["bpfhost_gateway_connections"], 0)
        self.server.kill()
        self.until(lambda: read(address, "/health")[0] == 503)

    def test_a_wrong_configuration(self) -> None:
        file = self.scratch / "shards.toml"
        for text, sentence in (
            ("[", "the configuration: "),
            ("speed = 1", "speed is no word of the command"),
            ("[workers]", "the table workers is for no word of the command"),
            ("[worker]\nspeed = 1", "speed is no word of worker"),
            ("[worker]\nlease = 0", "lease is a number of seconds from 0.1 on, and not 0"),
            ("[worker]\nlease = [1]", "lease is a text or a number, and not .1."),
            ("[worker]\nvolatile = 1", "volatile is true or false, and not 1"),
            ('log = "xml"', "log is one of text, json, and not xml"),
        ):
            file.write_text(text)
            called = subprocess.run(
                [sys.executable, "-m", "bpfhost.shards", "show"],
                capture_output=True, text=True, env={**os.environ, "BPFHOST_SHARDS_CONFIG": str(file)},
            )  # fmt: skip
            self.assertRegex(called.stderr, f"^bpfhost.shards: {file}[:,] .*{sentence}.*\n$")
            self.assertEqual(called.returncode, 2)


class Files(unittest.TestCase):
    def test_the_dashboard(self) -> None:
        """Each number that it shows is a metric of a worker, a gateway or a process, and it shows each of these."""
        told = {*metrics.WORKER, *metrics.GATEWAY}
        shown = {name.removesuffix("_bucket") for name in re.findall(r"bpfhost_[a-z_]+", " ".join(self.expressions()))}
        self.assertEqual(shown - told, set())
        left = {f"bpfhost_{name}" for name in ("worker_bytes_total", "worker_turns_total", "worker_turn_seconds", "worker_restore_seconds", "worker_snapshots_total", "gateway_bytes_total", "gateway_new_connections_total", "gateway_unread_bytes")}
        self.assertEqual(told - shown, left)

    def expressions(self) -> list[str]:
        """The queries of the dashboard to Prometheus."""
        board = json.loads((DEPLOY / "grafana.json").read_text())
        return [target["expr"] for panel in board["panels"] for target in panel["targets"]]

    def test_the_configuration(self) -> None:
        """The file has only keys that the command knows."""
        for word in ("worker", "gateway"):
            asked = [sys.executable, "-m", "bpfhost.shards", word, "--config", str(DEPLOY / "shards.toml"), "--help"]
            self.assertEqual(subprocess.run(asked, capture_output=True).returncode, 0)
        self.assertEqual(set(tomllib.loads((DEPLOY / "shards.toml").read_text())), {"redis", "log", "worker", "gateway"})

    def test_the_container(self) -> None:
        """The files that it copies are in the repository, or come from the build; and it needs no more packages than the gateway."""
        text = (DEPLOY / "Containerfile").read_text()
        top = PACKAGE.parents[1]
        copied = re.findall(r"^COPY (\S+) ", text, re.M)
        self.assertEqual([source for source in copied if not (top / source).exists()], ["crates/bpfhost/out/bpfhost"] * (not (top / copied[0]).exists()))
        self.assertIn("python3 python3-redis python3-hiredis python3-prometheus-client", text)

    @unittest.skipIf(shutil.which("systemd-analyze") is None, "systemd-analyze is missing")
    def test_the_units(self) -> None:
        for unit in ("bpfhost-worker@.service", "bpfhost-gateway.service"):
            scratch = tempfile.TemporaryDirectory()
            self.addCleanup(scratch.cleanup)
            copy = Path(scratch.name, unit)
            # The command is that of the installed package.
            copy.write_text((DEPLOY / unit).read_text().replace("/usr/bin/bpfhost-shards", sys.executable))
            found = subprocess.run(["systemd-analyze", "verify", "--man=no", str(copy)], capture_output=True, text=True)
            said = [line for line in found.stderr.splitlines() if unit in line]
            self.assertEqual(said, [])

    def test_no_limit_of_starts(self) -> None:
        """systemd starts a worker and a gateway again however often they have ended."""
        for unit in ("bpfhost-worker@.service", "bpfhost-gateway.service"):
            self.assertIn("StartLimitIntervalSec=0", (DEPLOY / unit).read_text().partition("[Service]")[0].splitlines())

    def test_a_worker_keeps_what_is_freed(self) -> None:
        """The C library knows the settings of the unit, and they are those that EMBEDDING.md has for a program in C."""
        unit = (DEPLOY / "bpfhost-worker@.service").read_text()
        settings = dict(line.split("=", 2)[1:] for line in unit.splitlines() if line.startswith("Environment="))
        said = dict(re.findall(r"glibc\.malloc\.(\w+)_threshold=(\d+)", settings["GLIBC_TUNABLES"]))
        wanted = re.findall(r"mallopt\(M_(\w+)_THRESHOLD, 1 << (\d+)\)", (PACKAGE.parents[1] / "docs/EMBEDDING.md").read_text())
        self.assertEqual({name: int(value) for name, value in said.items()}, {name.lower(): 1 << int(bits) for name, bits in wanted})
        listed = subprocess.run([LOADER, "--list-tunables"], env=settings, capture_output=True, text=True, check=True).stdout
        for name, value in said.items():
            self.assertIn(f"glibc.malloc.{name}_threshold: {int(value):#x} ", listed)

    def test_the_redis(self) -> None:
        """The file has the commands that a worker uses."""
        said = dict(line.split(None, 1) for line in (DEPLOY / "redis.conf").read_text().splitlines() if line and line[0] != "#")
        self.assertEqual((said["appendonly"], said["appendfsync"], said["maxmemory-policy"]), ("yes", "always", "noeviction"))
        self.assertTrue(Path(said["aclfile"]).name == "users.acl")


class Upgrade(ShardTest):
    def test_one_after_the_other(self) -> None:
        """Workers of another build take over, one after the other, and customers continue."""
        other = self.scratch / "other-build"
        other.write_bytes(Path(PROGRAM).read_bytes() + b"\0")
        other.chmod(0o755)
        workers = [self.shard(shard) for shard in (0, 1)]
        customers = [self.client.customer(f"customer-{number}") for number in range(4)]
        for customer in customers:
            customer.ask(CREATE)
        value = 0
        for shard in (0, 1):
            workers[shard].stop()
            workers[shard] = WorkerThread(self.server.url, shard, program=str(other))
            self.addCleanup(workers[shard].stop)
            for customer in customers:
                value += 1
                self.assertEqual(customer.ask(put(value)).status, 0)
                self.assertEqual(customer.ask(LOOK_UP).payload, value.to_bytes(8, "little"))
        self.assertEqual([worker.error for worker in workers], [None, None])
        self.assertEqual(customers[0].ask(frames.close(0, 9)).status, -9)


@unittest.skipIf(UNCOUNTED is not None, UNCOUNTED or "")
class TakenPort(ShardTest):
    def test_a_second_worker_with_the_same_address(self) -> None:
        """It serves all the same, and prints a notice."""
        page = Page("127.0.0.1:0", str, lambda: (True, {}))
        self.addCleanup(page.close)
        command = [sys.executable, "-m", "bpfhost.shards", "worker", "0", "--redis", self.server.url, "--bpfhost", PROGRAM, "--metrics", page.address]
        with subprocess.Popen(command, stderr=subprocess.PIPE, text=True) as worker:
            assert worker.stderr
            self.addCleanup(worker.kill)
            lines = [worker.stderr.readline() for _ in range(2)]
            worker.terminate()
        self.assertEqual(lines[0], f"shard 0: metrics can't be read at {page.address}: Address already in use; it is served without\n")
        self.assertRegex(lines[1], "^shard 0 is served")
