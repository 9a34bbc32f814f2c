#!/usr/bin/env python3
"""Measures packets by the batch through the shared library, beside frames to the program over two pipes.

usage: batches.py LIBRARY [BPFHOST] [--packets N] [--rounds N]; LIBRARY is a shared object (docs/EMBEDDING.md)

A program of two instructions is run on packets of 64 bytes, so many by each call. What is printed is processor time for each packet,
of this process and of the program, the least of the rounds. Before anything is timed the results are compared.
"""

from __future__ import annotations

import argparse
import resource
import sys
from collections.abc import Callable
from pathlib import Path

sys.dont_write_bytecode = True
sys.path.insert(0, str(Path(__file__).resolve().parents[1]))

from bpfhost import Host, Packets, assemble, find_program  # noqa: E402
from bpfhost.library import Library  # noqa: E402

SIZES = (1, 8, 64, 512, 4096)
LENGTH = "r0 = *(u32 *)(r1 + 0)\nexit\n"


def processor_time(whose: int) -> float:
    """The seconds of processor time that this process, or the processes that it has waited for, have taken."""
    used = resource.getrusage(whose)
    return used.ru_utime + used.ru_stime


def nanoseconds(run: Callable[[], None]) -> float:
    """Processor time of a run, in both processes."""
    before = [processor_time(whose) for whose in (resource.RUSAGE_SELF, resource.RUSAGE_CHILDREN)]
    run()
    after = [processor_time(whose) for whose in (resource.RUSAGE_SELF, resource.RUSAGE_CHILDREN)]
    return (sum(after) - sum(before)) * 1e9


def by_library(library: Library, slots: bytes, packets: Packets, times: int) -> None:
    """So many calls for a batch."""
    with library.host() as host:
        tenant = host.tenant()
        descriptor = tenant.prog_load(slots)
        for _ in range(times):
            if tenant.run_packets(descriptor, packets) != packets.lengths:
                sys.exit("batches: a result is wrong")


def by_pipes(program: str, slots: bytes, packets: Packets, times: int) -> None:
    """The same by frames, of which as many are sent at once as the pipes hold."""
    with Host(program) as host:
        tenant = host.tenant()
        pieces = (packets for _ in range(times))
        for results in tenant.prog_test_runs(tenant.prog_load(slots), pieces):
            if set(results) != {packets.lengths[0]}:
                sys.exit("batches: a result is wrong")


def main() -> None:
    parser = argparse.ArgumentParser(description="Measures packets by the batch through the library, beside frames over pipes.")
    parser.add_argument("library")
    parser.add_argument("bpfhost", nargs="?")
    parser.add_argument("--packets", type=int, default=65_536, help="at least 4096")
    parser.add_argument("--rounds", type=int, default=5)
    said = parser.parse_args()
    library, program = Library(said.library), find_program(said.bpfhost)
    slots = assemble(program, LENGTH)
    print("ns of processor time a packet\n batch   library     pipes   pipes to library")
    for size in SIZES:
        packets, times = Packets.of([bytes(64)] * size, 0), said.packets // size
        rounds = range(said.rounds)
        call = min(nanoseconds(lambda: by_library(library, slots, packets, times)) for _ in rounds) / (times * size)
        pipe = min(nanoseconds(lambda: by_pipes(program, slots, packets, times)) for _ in rounds) / (times * size)
        print(f"{size:>6}{call:>10.0f}{pipe:>10.0f}{pipe / call:>19.1f}", flush=True)


if __name__ == "__main__":
    main()
