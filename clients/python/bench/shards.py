#!/usr/bin/env python3
"""Compares shards with a host by pipe: frames a second of 1, 2 and 4 shards, what a frame costs each process, and how long a worker
takes to play frames again.

usage: shards.py [BPFHOST] [--frames N] [--folder FOLDER] [--library PATH] [--before TREE [--rounds N]]

A customer's frames are test runs of a program that counts packets of 64 bytes in a hash map. They come in calls of so many frames each.
All is on this machine, customers too, with a Redis of its own that writes each change to FOLDER before it replies: the processes share
the processors, and FOLDER's disk tells how long a write takes. Only figures of one run are to be compared.

With --before, another clone of the repository is measured too: one shard, in rounds in which the versions take turns, and
their medians are compared.
"""

from __future__ import annotations

import argparse
import contextlib
import json
import multiprocessing
import os
import statistics
import subprocess
import sys
import tempfile
import time
from collections.abc import Callable, Iterable
from dataclasses import dataclass
from pathlib import Path
from typing import Any

sys.dont_write_bytecode = True
# The clone that is measured is another one if the process was started for it.
_TREE = "BPFHOST_BENCH_TREE"
sys.path.insert(0, os.environ.get(_TREE) or str(Path(__file__).resolve().parents[1]))

from bpfhost import Host, MapType, find_program, frames  # noqa: E402
from bpfhost.shards import Client  # noqa: E402
from bpfhost.shards.command import main as command  # noqa: E402
from bpfhost.shards.settings import MOST_ENTRIES  # noqa: E402
from tests.shards.redis_server import RedisServer, missing  # noqa: E402
from tests.shards.streams import slots_of  # noqa: E402

CALLS = (1, 16, 256)
# How many shards there are, and how many servers of Redis they have together.
SHARDS = ((1, 1), (2, 1), (4, 1), (4, 4))
# The first of these again; what a customer has sent and not waited for goes in one call.
TOGETHER = "1, sent together"
# A customer sends so many calls before it waits for the reply to the first one.
CUSTOMERS, AHEAD = 8, 8
REPLAYED = 100_000
_context = multiprocessing.get_context("fork")
_TICKS = os.sysconf("SC_CLK_TCK")


def begins(program: str) -> list[bytes]:
    """What a customer sends first."""
    made = frames.map_create(0, MapType.HASH, 4, 8, 16)
    return [made, frames.prog_load(0, slots_of(program, "add")), frames.map_update_elem(0, 3, bytes(4), bytes(8))]


def call(size: int) -> bytes:
    """So many test runs."""
    return frames.prog_test_run(0, 4, bytes(64)) * size


def by_pipe(program: str, many: int, size: int) -> float:
    """Frames a second of a host that is asked by pipe, so many at a time."""
    with Host(program) as host:
        for frame in begins(program):
            host.ask(frame).done()
        asked = [call(1)] * size
        began = time.monotonic()
        for _ in range(many // size):
            for _reply in host.ask_bytes(asked):
                pass
        return many / (time.monotonic() - began)


def work(url: str, program: str, shard: int, directory: str, more: list[str]) -> None:
    """A worker, by the command, with as few snapshots as it allows."""
    words = ["worker", str(shard), "--redis", url, "--bpfhost", program, "--snapshot-entries", str(MOST_ENTRIES), "--volatile", *more]
    with open(os.devnull, "w") as nowhere, contextlib.redirect_stderr(nowhere):
        sys.exit(command(words + (["--directory", directory] if directory != url else [])))


def ask(url: str, program: str, name: str, calls: int, size: int, barrier: Any, together: bool) -> None:
    """A customer that sends its calls when all others do; together, if they may go in one call."""
    stream = call(size)
    with Client(url) as client:
        customer = client.customer(name)
        customer.wait(customer.post(b"".join(begins(program))))
        send: Callable[[bytes], Any] = lambda sent: customer.send(sent) if together else customer.post(sent)
        wait: Callable[[Any], list[bytes]] = lambda ticket: customer.receive(ticket) if together else customer.wait(ticket)
        barrier.wait()
        tickets = []
        for at in range(calls):
            tickets.append(send(stream))
            if at >= AHEAD:
                wait(tickets[at - AHEAD])
        for ticket in tickets[-AHEAD:]:
            wait(ticket)
        barrier.wait()
        # So that its time can still be looked at.
        barrier.wait()


def until_served(client: Client, shards: int) -> None:
    """Waits until so many shards are served."""
    while len(client.directory.beats()) < shards:
        time.sleep(0.005)


def processor_time(processes: Iterable[int]) -> float:
    """The seconds of processor time that processes have taken."""
    fields = [Path(f"/proc/{process}/stat").read_text().rpartition(")")[2].split() for process in processes]
    return sum(int(one[11]) + int(one[12]) for one in fields) / _TICKS


def children(processes: Iterable[int]) -> list[int]:
    """The processes that these have started."""
    return [int(one) for process in processes for one in Path(f"/proc/{process}/task/{process}/children").read_text().split()]


@dataclass
class Measured:
    """Frames a second; what a frame costs each kind of process, in microseconds of processor time; its bytes in Redis's log."""

    speed: float
    costs: dict[str, float]
    logged: float


class Shards:
    """So many shards with their workers, on so many servers of Redis, and customers who ask them."""

    def __init__(
        self, folder: Path, program: str, shards: int, servers: int, together: bool = False, words: list[str] | None = None
    ) -> None:
        """With more words for the workers."""
        self._folder, self._program, self._shards, self._many, self._together = folder, program, shards, servers, together
        self._words = words or []

    def measure(self, many: int, size: int) -> Measured:
        """Each customer sends its part of so many frames, in calls of so many."""
        with contextlib.ExitStack() as stack:
            servers = [_server(stack, self._folder) for _ in range(self._many)]
            urls = [servers[shard % self._many].url for shard in range(self._shards)]
            barrier = _context.Barrier(CUSTOMERS + 1)
            calls = max(1, many // CUSTOMERS // size)
            workers = [_context.Process(target=work, args=(url, self._program, shard, urls[0], self._words)) for shard, url in enumerate(urls)]
            customers = [
                _context.Process(target=ask, args=(urls[0], self._program, f"customer-{number}", calls, size, barrier, self._together))
                for number in range(CUSTOMERS)
            ]
            try:
                for process in workers:
                    process.start()
                self._place(urls)
                for process in customers:
                    process.start()
                measured = self._measured(servers, workers, customers, barrier, calls * size * CUSTOMERS)
            finally:
                for process in (*customers, *workers):
                    process.kill()
                    process.join()
        return measured

    def _place(self, urls: list[str]) -> None:
        """Gives each shard as many customers as the others, when all are served."""
        with Client(urls[0]) as client:
            until_served(client, len(urls))
            for number in range(CUSTOMERS):
                client.directory.place(f"customer-{number}")

    def _measured(self, servers: list[RedisServer], workers: list[Any], customers: list[Any], barrier: Any, many: int) -> Measured:
        barrier.wait()
        kinds = {"worker": [one.pid for one in workers], "customer": [one.pid for one in customers]}
        kinds |= {"host": children(kinds["worker"]), "Redis": [one.process.pid for one in servers if one.process]}
        before, logged = {kind: processor_time(of) for kind, of in kinds.items()}, sum(map(_size, servers))
        began = time.monotonic()
        barrier.wait()
        took = time.monotonic() - began
        costs = {kind: (processor_time(of) - before[kind]) / many * 1e6 for kind, of in kinds.items()}
        logged = sum(map(_size, servers)) - logged
        barrier.wait()
        return Measured(many / took, costs, logged / many)


def _server(stack: contextlib.ExitStack, folder: Path) -> RedisServer:
    return stack.enter_context(RedisServer(Path(stack.enter_context(tempfile.TemporaryDirectory(dir=folder)))))


def _size(server: RedisServer) -> int:
    return sum(file.stat().st_size for file in (server.folder / "appendonlydir").iterdir())


def replay(folder: Path, program: str, size: int) -> float:
    """The seconds from the start of a worker's process until it serves, if frames in calls of so many have replies already.

    Redis does not wait for its disk here, since nothing is written in this time, and much before it.
    """
    with tempfile.TemporaryDirectory(dir=folder) as room, RedisServer(Path(room), "no") as server, Client(server.url) as client:
        redis, keys = client.loop.run(client.aio.shard(0))
        workers = [_context.Process(target=work, args=(server.url, program, 0, server.url, []), daemon=True) for _ in range(2)]
        workers[0].start()
        until_served(client, 1)
        customer = client.customer("one", 600)
        customer.wait(customer.post(b"".join(begins(program))))
        for ticket in [customer.post(call(size), 600) for _ in range(REPLAYED // size)][-1:]:
            customer.wait(ticket)
        workers[0].kill()
        workers[0].join()
        client.loop.run(redis.call("HDEL", keys.lease, "token"))
        client.directory.withdraw(0)
        began = time.monotonic()
        workers[1].start()
        until_served(client, 1)
        took = time.monotonic() - began
        workers[1].kill()
        workers[1].join()
        return took


def tell(program: str, folder: Path, many: int, size: int, words: list[str]) -> None:
    """Measures calls of so many frames, and prints it."""
    piped = by_pipe(program, many, size)
    found = {f"{each[0]} on {each[1]} Redis": Shards(folder, program, *each, words=words).measure(many, size) for each in SHARDS}
    found[TOGETHER] = Shards(folder, program, *SHARDS[0], together=True, words=words).measure(many, size)
    speeds = ", ".join(f"{what} {one.speed:,.0f} ({one.speed / piped:.3f})" for what, one in found.items())
    print(f"{size} frames a call: by pipe {piped:,.0f}; shards {speeds}")
    for what in (next(iter(found)), TOGETHER):
        print(f"  us a frame of {what}: {_costs(found[what].costs)}; {found[what].logged:.0f} bytes a frame in the log", flush=True)


def _costs(costs: dict[str, float]) -> str:
    return ", ".join(f"{kind} {cost:.2f}" for kind, cost in costs.items())


# Beside another clone.


@dataclass(frozen=True)
class Form:
    """A form of one shard: its name, its clone, whether what is sent goes together, and more words for the worker."""

    name: str
    tree: Path
    together: bool
    words: tuple[str, ...] = ()

    def measure(self, said: argparse.Namespace, program: str, many: int, size: int) -> Measured:
        """Measures it in a process of its own."""
        words = [sys.executable, __file__, program, "--folder", str(said.folder), "--frames", str(many), "--size", str(size)]
        words += ["--together"] * self.together + [f"--word={word}" for word in self.words]
        environment = {**os.environ, _TREE: str(self.tree / "clients/python")}
        ended = subprocess.run(words, env=environment, check=True, capture_output=True, text=True)
        return Measured(**json.loads(ended.stdout))


def measure_one(said: argparse.Namespace, program: str) -> None:
    """Measures one form, and writes it as JSON."""
    found = Shards(said.folder, program, *SHARDS[0], together=said.together, words=said.word).measure(said.frames, said.size)
    print(json.dumps({"speed": found.speed, "costs": found.costs, "logged": found.logged}))


def compare(said: argparse.Namespace, program: str, library: list[str]) -> None:
    """Compares this clone with another one, and prints the medians of the rounds."""
    here = Path(__file__).resolve().parents[3]
    kinds = (("a call each", False, tuple(library)), ("together", True, tuple(library)), ("together, by the pipe", True, ("--library=none",)))
    forms = [Form(name, tree, together, words) for name, together, words in kinds for tree in (said.before, here)]
    for size in CALLS:
        found: dict[Form, list[Measured]] = {form: [] for form in forms}
        for _ in range(said.rounds):
            for form in forms:
                many = said.frames * size // (5 * CALLS[-1] // CALLS[1] + size)
                found[form].append(form.measure(said, program, many * 4 if form.together else many, size))
        print(f"{size} frames a send:")
        for old, new in zip(forms[::2], forms[1::2]):
            before, after = _median(found[old]), _median(found[new])
            ratios = [one.speed / was.speed for one, was in zip(found[new], found[old])]
            costs = sum(after.costs.values()) / sum(before.costs.values())
            print(f"  {new.name}: {before.speed:,.0f} and {after.speed:,.0f} frames a second, {statistics.median(ratios):.2f} times the speed")
            print(f"    us a frame: {_costs(before.costs)}; and {_costs(after.costs)}; {costs:.2f} times the processor time", flush=True)


def _median(measured: list[Measured]) -> Measured:
    """The medians of each number."""
    costs = {kind: statistics.median(one.costs[kind] for one in measured) for kind in measured[0].costs}
    return Measured(statistics.median(one.speed for one in measured), costs, statistics.median(one.logged for one in measured))


def _parser() -> argparse.ArgumentParser:
    parser = argparse.ArgumentParser(description="Compares shards with a host by pipe.")
    parser.add_argument("bpfhost", nargs="?")
    parser.add_argument("--frames", type=int, default=100_000)
    parser.add_argument("--folder", type=Path, default=Path(tempfile.gettempdir()), help="for the files of Redis")
    parser.add_argument("--library", help="the library of the workers; without it, as a worker finds it")
    parser.add_argument("--before", type=Path, metavar="TREE", help="another clone, which is measured too")
    parser.add_argument("--rounds", type=int, default=3)
    # Of a process that measures one form.
    parser.add_argument("--size", type=int, help=argparse.SUPPRESS)
    parser.add_argument("--together", action="store_true", help=argparse.SUPPRESS)
    parser.add_argument("--word", action="append", default=[], help=argparse.SUPPRESS)
    return parser


def main() -> int:
    """Measures, and prints it."""
    said = _parser().parse_args()
    why = missing()
    if why:
        print(f"shards: skipped, as {why}")
        return 0
    program = find_program(said.bpfhost)
    if said.size:
        measure_one(said, program)
        return 0
    library = [f"--library={said.library}"] if said.library else []
    print(f"{os.cpu_count()} processors, {CUSTOMERS} customers; frames a second")
    if said.before:
        compare(said, program, library)
        return 0
    for size in CALLS:
        tell(program, said.folder, said.frames if size > 1 else said.frames // 5, size, library)
    for size in CALLS:
        print(f"{REPLAYED:,} frames in calls of {size} are played again in {replay(said.folder, program, size):.2f} s", flush=True)
    return 0


if __name__ == "__main__":
    sys.exit(main())
