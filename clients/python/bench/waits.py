#!/usr/bin/env python3
"""How long another customer of a shard waits for a look-up, by the clock, while the shard has much to do.

usage: waits.py [BPFHOST] [--library PATH] [--folder FOLDER] [--rounds N] [--seconds S]

Three cases: snapshots of a customer with eight full maps; snapshots of forty customers with maps that only programs have; and calls of 512
frames of one customer, as many as it can send. The worker is started by the command, and each customer is a process of its own. All is on
this machine, with a Redis of its own that writes each change to FOLDER before it replies, so the machine has to have nothing else to do.
It takes a minute and a half.
"""

from __future__ import annotations

import argparse
import contextlib
import multiprocessing
import os
import statistics
import sys
import tempfile
import time
from collections.abc import Callable, Iterator
from pathlib import Path

sys.dont_write_bytecode = True
sys.path.insert(0, str(Path(__file__).resolve().parents[1]))

from bpfhost import MapType, find_program, frames  # noqa: E402
from bpfhost.shards import Client, Customer  # noqa: E402
from bpfhost.shards.command import main as command  # noqa: E402
from shards import until_served  # noqa: E402
from tests.shards.redis_server import RedisServer, missing  # noqa: E402
from tests.shards.streams import slots_of  # noqa: E402

SNAPSHOT_ENTRIES, CLOSED, SECONDS_TO_BEGIN = 30, 40, 60.0
_context = multiprocessing.get_context("fork")


def full_maps(customer: Customer, _program: str) -> Iterator[None]:
    """Eight maps with 4,096 keys each; then an update in each call, so that there is a snapshot each thirty calls."""
    for number in range(8):
        made = [frames.map_create(0, MapType.HASH, 8, 8, 4096)]
        made += [frames.map_update_elem(0, 3 + number, key.to_bytes(8, "little"), bytes(8)) for key in range(4096)]
        for _reply in customer.ask_bytes(made):
            pass
    while True:
        yield
        customer.ask(frames.map_update_elem(0, 3, bytes(8), bytes(8))).done()


def closed_maps(customer: Customer, program: str) -> Iterator[None]:
    """A map whose descriptor is closed, and which a program keeps; then a run in each call."""
    run = frames.prog_test_run(0, 4)
    begin = [frames.map_create(0, MapType.ARRAY, 4, 8, 1), frames.prog_load(0, slots_of(program, "add")), frames.close(0, 3)]
    for _reply in customer.ask_bytes([*begin, *[run] * 300]):
        pass
    while True:
        yield
        customer.ask(run).done()


def bulk(customer: Customer, _program: str) -> Iterator[None]:
    """Calls of 512 frames, eight ahead."""
    customer.ask(frames.map_create(0, MapType.HASH, 4, 8, 16)).done()
    call = frames.map_update_elem(0, 3, b"key1", bytes(8)) * 512
    tickets = [customer.post(call) for _ in range(8)]
    while True:
        yield
        tickets.append(customer.post(call))
        customer.wait(tickets.pop(0))


CASES = (
    ("snapshots of a customer with eight full maps", full_maps, 1),
    (f"snapshots of {CLOSED} customers with maps that only programs have", closed_maps, CLOSED),
    ("calls of 512 frames of one customer", bulk, 1),
)
Work = Callable[[Customer, str], Iterator[None]]


def serve(url: str, program: str, words: list[str]) -> None:
    """The worker of shard 0."""
    with open(os.devnull, "w") as nowhere, contextlib.redirect_stderr(nowhere):
        sys.exit(command(["worker", "0", "--redis", url, "--bpfhost", program, "--snapshot-entries", str(SNAPSHOT_ENTRIES), *words]))


def busy(url: str, program: str, work: Work, first: int, many: int, begun: Callable[[], object]) -> None:
    """Customers who take turns, until the process is ended."""
    with Client(url) as client:
        steps = [work(client.customer(f"busy-{number}", 100), program) for number in range(first, first + many)]
        for one in steps:
            next(one)
        begun()
        while True:
            for one in steps:
                next(one)


def waits(folder: Path, program: str, words: list[str], work: Work, many: int, seconds: float) -> list[float]:
    """The waits of another customer for its look-ups, in so many seconds."""
    with tempfile.TemporaryDirectory(dir=folder) as room, RedisServer(Path(room)) as server, Client(server.url) as client:
        has_begun = _context.Event()
        processes = [_context.Process(target=serve, args=(server.url, program, words), daemon=True)]
        processes.append(_context.Process(target=busy, args=(server.url, program, work, 0, many, has_begun.set), daemon=True))
        try:
            processes[0].start()
            until_served(client, 1)
            processes[1].start()
            other = client.customer("other", SECONDS_TO_BEGIN)
            made = [frames.map_create(0, MapType.HASH, 4, 8, 16), frames.map_update_elem(0, 3, b"key1", bytes(8))]
            for reply in other.ask_all(made):
                reply.done()
            if not has_begun.wait(SECONDS_TO_BEGIN):
                raise SystemExit("waits: the other customers do not begin")
            return list(_look_ups(other, time.monotonic() + seconds))
        finally:
            for process in reversed(processes):
                process.kill()
                process.join()


def _look_ups(customer: Customer, until: float) -> Iterator[float]:
    while (began := time.monotonic()) < until:
        customer.ask(frames.map_lookup_elem(0, 3, b"key1")).done()
        yield time.monotonic() - began
        # It asks now and then, and is not busy itself.
        time.sleep(0.01)


def main() -> int:
    """Measures, and prints it."""
    parser = argparse.ArgumentParser(description="How long another customer of a busy shard waits for a look-up.")
    parser.add_argument("bpfhost", nargs="?")
    parser.add_argument("--library", help="the library of the worker; without it, as a worker finds it")
    parser.add_argument("--folder", type=Path, default=Path(tempfile.gettempdir()), help="for the files of Redis")
    parser.add_argument("--rounds", type=int, default=3)
    parser.add_argument("--seconds", type=float, default=8.0)
    said = parser.parse_args()
    why = missing()
    if why:
        print(f"waits: skipped, as {why}")
        return 0
    program = find_program(said.bpfhost)
    words = [f"--library={said.library}"] if said.library else []
    print(f"{os.cpu_count()} processors; milliseconds that a look-up of another customer takes")
    for name, work, many in CASES:
        for _ in range(said.rounds):
            found = sorted(1000 * one for one in waits(said.folder, program, words, work, many, said.seconds))
            hundredth = found[len(found) * 99 // 100]
            print(f"{name}: median {statistics.median(found):.1f}, 99 of 100 {hundredth:.1f}, most {found[-1]:.1f} of {len(found)}", flush=True)
    return 0


if __name__ == "__main__":
    sys.exit(main())
