#!/usr/bin/env python3
"""Times filters on packets by the batch. bench/README.md explains the output.

usage: packets.py [--rounds N] [--batches 1,8,..] [--sizes 64,..] [--only WORD] [--no-counts] PACKETS [PACKETS_WITH_DPDK]
"""

from __future__ import annotations

import argparse
import subprocess
import sys
import tempfile
from collections.abc import Iterator
from dataclasses import dataclass, replace
from itertools import product
from pathlib import Path
from statistics import median

from measure import Count, counter
from programs import FILTERS, segment
from streams import runs_of

# Machine instructions are counted with packets of the first size. Those of a batch are the difference of two counts.
FEWER, MORE = 4, 12


@dataclass(frozen=True)
class Case:
    """A filter on batches of packets of one size."""

    name: str
    stream: Path
    size: int
    batch: int


class Way:
    """How the packets are run: a program, with its name for the way."""

    def __init__(self, name: str, program: str, word: str) -> None:
        self.name, self.program, self.word = name, program, word

    def command(self, case: Case, batches: int) -> list[str]:
        return [self.program, self.word, str(case.stream), str(case.size), str(case.batch), str(batches)]

    def says(self, case: Case, batches: int) -> str:
        ended = subprocess.run(self.command(case, batches), capture_output=True, text=True, check=False)
        if ended.returncode:
            sys.exit(f"{self.name}, {case.name}: {ended.stderr.strip() or f'ended with {ended.returncode}'}")
        return ended.stdout

    def time(self, case: Case) -> float:
        """Nanoseconds per packet."""
        return float(self.says(case, 0))

    def instructions(self, case: Case, count: Count) -> float:
        """Machine instructions per packet."""
        counts = [count(self.command(case, batches), subprocess.DEVNULL) for batches in (FEWER, MORE)]
        if counts[0] is None or counts[1] is None:
            sys.exit(f"{self.name}, {case.name}: its machine instructions can't be counted")
        return (counts[1] - counts[0]) / (MORE - FEWER) / case.batch


def same_answers(case: Case, ways: list[Way]) -> None:
    """All ways return the same for the packets of a third batch."""
    if len({way.says(case, 3) for way in ways}) > 1:
        sys.exit(f"{case.name}: {', '.join(way.name for way in ways)} give different results")


def print_times(cases: list[Case], ways: list[Way], rounds: int) -> None:
    """For each case the medians of the times of each way over the rounds, and their ratios to the plain interpreter's in the same round."""
    shown = "".join(f"{way.name:>10}" for way in ways)
    ratios = "".join(f"{f'{way.name} to {other.name}':>17}" for way, other in compared(ways))
    print(f"ns a packet\n{'':<21}{'size':>6}{'batch':>6}{shown}{ratios}")
    for case in cases:
        found = [{way.name: way.time(case) for way in ways} for _ in range(rounds)]
        times = "".join(f"{median(times[way.name] for times in found):>10.1f}" for way in ways)
        ratios = "".join(
            f"{median(times[way.name] / times[other.name] for times in found):>17.2f}" for way, other in compared(ways)
        )
        print(f"{case.name:<21}{case.size:>6}{case.batch:>6}{times}{ratios}", flush=True)


def compared(ways: list[Way]) -> Iterator[tuple[Way, Way]]:
    """The call compared with each of the others, and a frame for each packet compared with the plain interpreter."""
    call, frames, plain, *others = ways
    yield call, plain
    yield frames, plain
    for other in others:
        yield call, other


def print_counts(cases: list[Case], ways: list[Way], tool: str, count: Count) -> None:
    """Machine instructions per packet; except for the call, those of a batch are a multiple of those of a packet."""
    batches = sorted({case.batch for case in cases})
    head = "".join(f"{f'{ways[0].name}, {batch}':>12}" for batch in batches) + "".join(f"{way.name:>12}" for way in ways[1:])
    print(f"machine instructions a packet, by {tool}, {cases[0].size} bytes\n{'':<21}{head}")
    for name, group in ((case.name, case) for case in cases if (case.size, case.batch) == (cases[0].size, batches[-1])):
        found = [ways[0].instructions(replace(group, batch=batch), count) for batch in batches]
        found += [way.instructions(group, count) for way in ways[1:]]
        print(f"{name:<21}" + "".join(f"{it:>12.1f}" for it in found), flush=True)


def numbers(text: str) -> list[int]:
    return [int(word) for word in text.split(",")]


def read_arguments() -> argparse.Namespace:
    parser = argparse.ArgumentParser(description="Times filters on packets by the batch.")
    parser.add_argument("--rounds", type=int, default=5)
    parser.add_argument("--batches", type=numbers, default=[1, 8, 64, 512])
    parser.add_argument("--sizes", type=numbers, default=[64, 1500])
    parser.add_argument("--only", default="", help="filters with this word in their names")
    parser.add_argument("--no-counts", action="store_true", help="counts no machine instructions")
    parser.add_argument("packets")
    parser.add_argument("with_dpdk", nargs="?")
    return parser.parse_args()


def main() -> None:
    arguments = read_arguments()
    words = {"call": "batch", "frames": "frames", "C": "plain", "contexts": "contexts", "scattered": "places"}
    ways = [Way(name, arguments.packets, word) for name, word in words.items()]
    if arguments.with_dpdk:
        ways.append(Way("DPDK", arguments.with_dpdk, "burst"))
    with tempfile.TemporaryDirectory() as folder:
        cases = []
        for number, (name, make) in enumerate((name, make) for name, make in FILTERS.items() if arguments.only in name):
            stream = Path(folder) / str(number)
            stream.write_bytes(runs_of(replace(make(), packet=segment()), 1))
            cases += [Case(name, stream, size, batch) for size, batch in product(arguments.sizes, arguments.batches)]
        for case in cases:
            same_answers(case, ways)
        print_times(cases, ways, arguments.rounds)
        tool, count = (None, None) if arguments.no_counts else counter()
        if tool and count:
            print_counts(cases, ways, tool, count)
        elif not arguments.no_counts:
            print("machine instructions: neither perf nor valgrind counts here")


if __name__ == "__main__":
    main()
