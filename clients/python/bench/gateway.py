#!/usr/bin/env python3
"""Measures how long a customer waits at a gateway, by TLS, alone and beside thousands of connections of others, of which each third says
nothing, sends half a frame that says who it is, or has a wrong token; and what a frame costs each process.

usage: gateway.py [BPFHOST] [--connections N] [--seconds S] [--folder FOLDER] [--before TREE [--rounds N] [--library PATH]]

All is on this machine, with a Redis of its own. Only figures of one run are to be compared.

With --before, what a frame costs is measured with another clone of the repository too, with hosts that are processes, and by a library if
one is named, in rounds in which the versions take turns; their medians are compared. Gateways up to commit 6a09426 need python3-greenlet.
"""

from __future__ import annotations

import argparse
import asyncio
import contextlib
import json
import multiprocessing
import os
import resource
import socket
import ssl
import statistics
import subprocess
import sys
import tempfile
import time
from collections.abc import Iterator
from pathlib import Path
from typing import NamedTuple

sys.dont_write_bytecode = True
# The clone that is measured is another one if the process was started for it.
_TREE = "BPFHOST_BENCH_TREE"
sys.path.insert(0, os.environ.get(_TREE) or str(Path(__file__).resolve().parents[1]))

from bpfhost import find_program  # noqa: E402
from bpfhost.shards.command import main as command  # noqa: E402
from bpfhost.shards.gateway.protocol import hello  # noqa: E402
from bpfhost.shards.remote import CustomerTls, GatewayCustomer  # noqa: E402
from shards import begins, call, children, processor_time  # noqa: E402
from tests.shards.certificates import OPENSSL, authority, signed  # noqa: E402
from tests.shards.gateways import customers_file  # noqa: E402
from tests.shards.redis_server import RedisServer, missing  # noqa: E402

_context = multiprocessing.get_context("fork")
# Kinds of crowds: a connection says these bytes, and waits.
_SAYS = (b"", hello("wrong")[:-3], hello("wrong"))
_FRAMES, _SIZES = 200_000, (1, 16, 256)


def run(words: list[str]) -> None:
    """The command, in a process of its own."""
    resource.setrlimit(resource.RLIMIT_NOFILE, (resource.getrlimit(resource.RLIMIT_NOFILE)[1],) * 2)
    sys.exit(command(words))


def crowd(port: int, authority: Path, many: int) -> None:
    """Keeps so many connections to the gateway on their way, and makes each anew that ends."""
    resource.setrlimit(resource.RLIMIT_NOFILE, (resource.getrlimit(resource.RLIMIT_NOFILE)[1],) * 2)
    tls = ssl.create_default_context(cafile=authority)

    async def one(number: int) -> None:
        while True:
            with contextlib.suppress(OSError, ssl.SSLError, asyncio.TimeoutError, ConnectionError):
                async with asyncio.timeout(60):
                    reader, writer = await asyncio.open_connection("127.0.0.1", port, ssl=tls if number % 2 else None)
                    writer.write(_SAYS[number % len(_SAYS)])
                    await reader.read()
            await asyncio.sleep(1)

    async def all_of_them() -> None:
        await asyncio.gather(*(one(number) for number in range(many)))

    asyncio.run(all_of_them())


def waits(customer: GatewayCustomer, seconds: float) -> str:
    """How long a customer waits for a run, one after the other."""
    found, until = [], time.monotonic() + seconds
    while time.monotonic() < until:
        began = time.monotonic()
        customer.wait(customer.post(call(1)))
        found.append((time.monotonic() - began) * 1000)
    found.sort()
    return f"{statistics.median(found):.1f} ms (median), 99 in a hundred {found[len(found) * 99 // 100]:.0f}, at most {found[-1]:.0f}"


def memory(process: int) -> float:
    """The resident memory of a process in MB."""
    return int(Path(f"/proc/{process}/statm").read_text().split()[1]) * 4096 / 1e6


class Service(NamedTuple):
    """A customer, the port of its gateway with the authority of its certificate, and the processes."""

    customer: GatewayCustomer
    port: int
    authority: Path
    processes: dict[str, list[int]]


@contextlib.contextmanager
def started(words: list[str]) -> Iterator[int]:
    """The command in a process, which is killed at the end."""
    process = _context.Process(target=run, args=(words,), daemon=False)
    process.start()
    try:
        yield process.pid or 0
    finally:
        process.terminate()
        process.join()


@contextlib.contextmanager
def service(folder: Path, program: str, words: list[str]) -> Iterator[Service]:
    """A worker, a gateway and a customer by TLS, with what it sends first."""
    own = authority(folder)
    certificate, key = signed(folder, "gateway", own, "IP:127.0.0.1")
    with socket.create_server(("127.0.0.1", 0)) as free:
        port = free.getsockname()[1]
    served = ["worker", "0", "--bpfhost", program, "--volatile", *words]
    words = ["gateway", "--customers", str(customers_file(folder, acme="token")), "--listen", f"127.0.0.1:{port}"]
    with RedisServer(folder) as server, started([*served, "--redis", server.url]) as worker:
        with started([*words, "--redis", server.url, "--certificate", str(certificate), "--key", str(key)]) as gateway:
            with GatewayCustomer([f"127.0.0.1:{port}"], "token", tls=CustomerTls(own)) as customer:
                for frame in begins(program):
                    customer.ask(frame)
                yield Service(customer, port, own, {"gateway": [gateway], "worker": [worker], "host": children([worker])})


def measure(folder: Path, program: str, many: int, seconds: float) -> None:
    """Measures, and prints it."""
    with service(folder, program, []) as made:
        customer, (gateway,) = made.customer, made.processes["gateway"]
        for size in _SIZES:
            speed, costs = measured(made, size)
            print(f"{size} frames a post: {speed:,.0f} frames a second; us a frame: {_shown(costs)}")
        print(f"alone: {waits(customer, seconds)}; the gateway has {memory(gateway):.0f} MB", flush=True)
        others = _context.Process(target=crowd, args=(made.port, made.authority, many), daemon=True)
        others.start()
        time.sleep(2)
        before = processor_time([gateway])
        told = waits(customer, seconds)
        share = (processor_time([gateway]) - before) / seconds
        print(f"beside {many:,} connections: {told}; the gateway has {memory(gateway):.0f} MB and takes {share:.2f} of a processor")
        others.kill()
        others.join()


def measured(made: Service, size: int) -> tuple[float, dict[str, float]]:
    """How many frames there are in a second, in posts of so many, and what each costs, in us of each process."""
    before, began = {kind: processor_time(of) for kind, of in made.processes.items()}, time.monotonic()
    own, many = time.process_time(), _FRAMES if size > 1 else _FRAMES // 10
    posted = [made.customer.post(call(size)) for _ in range(many // size)]
    for one in posted:
        made.customer.wait(one)
    took = time.monotonic() - began
    costs = {"customer": (time.process_time() - own) / many * 1e6}
    costs |= {kind: (processor_time(of) - before[kind]) / many * 1e6 for kind, of in made.processes.items()}
    return many / took, costs


def _shown(costs: dict[str, float]) -> str:
    return ", ".join(f"{kind} {cost:.1f}" for kind, cost in costs.items())


# Next to another clone.


def measure_sizes(folder: Path, program: str, words: list[str]) -> None:
    """Measures each size, and writes what was found as JSON."""
    with service(folder, program, words) as made:
        print(json.dumps([measured(made, size) for size in _SIZES]))


def compare(said: argparse.Namespace, program: str) -> None:
    """Compares this clone with another one, and prints the medians of the rounds."""
    trees = {"before": said.before, "now": Path(__file__).resolve().parents[3]}
    forms = {"by the pipe": ["--library=none"]}
    if said.library:
        forms["by the library"] = [f"--library={said.library}"]
    for name, words in forms.items():
        found: dict[str, list[list[tuple[float, dict[str, float]]]]] = {which: [] for which in trees}
        for _ in range(said.rounds):
            for which, tree in trees.items():
                environment = {**os.environ, _TREE: str(tree / "clients/python")}
                asked = [sys.executable, __file__, program, "--folder", str(said.folder), "--sizes", *(f"--word={word}" for word in words)]
                ended = subprocess.run(asked, env=environment, check=True, capture_output=True, text=True)
                found[which].append(json.loads(ended.stdout))
        print(f"{name}:")
        for at, size in enumerate(_SIZES):
            before, now = ([one[at] for one in found[which]] for which in trees)
            speed = statistics.median(one[0] / was[0] for one, was in zip(now, before))
            costs = statistics.median(sum(one[1].values()) / sum(was[1].values()) for one, was in zip(now, before))
            print(f"  {size} frames a post: {speed:.2f} times the speed, {costs:.2f} times the processor time", flush=True)


def main() -> int:
    """Measures, and prints it."""
    parser = argparse.ArgumentParser(description="Measures a gateway beside thousands of connections.")
    parser.add_argument("bpfhost", nargs="?")
    parser.add_argument("--connections", type=int, default=10_000)
    parser.add_argument("--seconds", type=float, default=15)
    parser.add_argument("--folder", type=Path, default=Path(tempfile.gettempdir()), help="for the files of Redis")
    parser.add_argument("--before", type=Path, metavar="TREE", help="another clone, which is measured too")
    parser.add_argument("--rounds", type=int, default=3)
    parser.add_argument("--library", help="the library of the workers of both clones")
    # Of a process that measures one clone.
    parser.add_argument("--sizes", action="store_true", help=argparse.SUPPRESS)
    parser.add_argument("--word", action="append", default=[], help=argparse.SUPPRESS)
    said = parser.parse_args()
    why = missing() or (None if OPENSSL else "openssl is missing")
    if why:
        print(f"gateway: skipped, as {why}")
        return 0
    with tempfile.TemporaryDirectory(dir=said.folder) as folder:
        program = find_program(said.bpfhost)
        if said.sizes:
            measure_sizes(Path(folder), program, said.word)
        elif said.before:
            compare(said, program)
        else:
            measure(Path(folder), program, said.connections, said.seconds)
    return 0


if __name__ == "__main__":
    sys.exit(main())
