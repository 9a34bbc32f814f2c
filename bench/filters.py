#!/usr/bin/env python3
"""Times filters written as for tcpdump, compared with libpcap's interpreter. bench/README.md explains the output.

usage: filters.py [--rounds N] [--only WORD] [--no-counts] FILTERS; FILTERS is the program built from filters.c
"""

from __future__ import annotations

import argparse
import contextlib
import ctypes
import random
import struct
import subprocess
import sys
import tempfile
from collections.abc import Iterator, Mapping
from dataclasses import dataclass
from pathlib import Path
from statistics import median

from means import mean_of
from measure import Count, counter

TOP = Path(__file__).resolve().parent.parent
sys.path.insert(0, str(TOP / "clients/python"))

from bpfhost.classic import ClassicError, ClassicProgram, ExpressionError, libpcap  # noqa: E402
from bpfhost.program import hex_lines  # noqa: E402

# The expressions that are compared, one a line; and others, of which some are drawn: those of the client's tests.
EXPRESSIONS, OTHERS = TOP / "bench/expressions.txt", TOP / "clients/python/tests/classic/expressions.txt"
DRAWN, SEED = 40, "expressions that are drawn"
LONGEST_NAME = 34
# Machine instructions are the difference of two counts.
FEWER, MORE = 4, 12


@dataclass(frozen=True)
class Case:
    """An expression on packets: the files of its slots, fast and plain, of its classic program, and of the packets; and what it belongs to."""

    name: str
    group: str
    fast: Path
    plain: Path
    classic: Path
    packets: Path
    count: int


class Way:
    """How the packets are run."""

    def __init__(self, name: str, program: str, word: str) -> None:
        self.name, self.program, self.word = name, program, word

    def command(self, case: Case, passes: int) -> list[str]:
        slots = case.plain if self.name == "plain" else case.fast
        return [self.program, self.word, str(slots), str(case.classic), str(case.packets), str(passes)]

    def says(self, case: Case, passes: int) -> str:
        ended = subprocess.run(self.command(case, passes), capture_output=True, text=True, check=False)
        if ended.returncode:
            sys.exit(f"{self.name}, {case.name}: {ended.stderr.strip() or f'ended with {ended.returncode}'}")
        return ended.stdout

    def time(self, case: Case) -> float:
        """Nanoseconds per packet."""
        return float(self.says(case, 0))

    def instructions(self, case: Case, count: Count) -> float:
        """Machine instructions per packet."""
        counts = [count(self.command(case, passes), subprocess.DEVNULL) for passes in (FEWER, MORE)]
        if counts[0] is None or counts[1] is None:
            sys.exit(f"{self.name}, {case.name}: its machine instructions can't be counted")
        return (counts[1] - counts[0]) / (MORE - FEWER) / case.count


def lines_of(path: Path) -> list[str]:
    return [line for line in path.read_text().splitlines() if line and not line.startswith("#")]


def programs() -> Iterator[tuple[str, str, ClassicProgram]]:
    """The expressions, and those that are drawn, each with its group and its program."""
    chosen = lines_of(EXPRESSIONS)
    for expression in chosen:
        yield f"{len(chosen)} expressions", expression, ClassicProgram.of_expression(expression)
    others = [each for each in lines_of(OTHERS) if each not in chosen]
    left = DRAWN
    for expression in random.Random(SEED).sample(others, len(others)):
        # libpcap has no names of ports and protocols if the system has no list of them, and some programs are rejected.
        with contextlib.suppress(ExpressionError, ClassicError):
            program = ClassicProgram.of_expression(expression)
            program.translated()
            left -= 1
            yield f"{DRAWN} others", expression, program
        if not left:
            return


def made_cases(folder: Path, only: str) -> Iterator[Case]:
    """Each expression on each capture."""
    for capture_name, packets in captures(folder).items():
        file = folder / f"{capture_name}.packets"
        file.write_bytes(b"".join(struct.pack("=I", len(packet)) + packet for packet in packets))
        for number, (group, expression, program) in enumerate(programs()):
            fast, plain, classic = (folder / f"{number}.{way}" for way in ("fast", "plain", "classic"))
            fast.write_text(hex_lines(program.translated().slots))
            plain.write_text(hex_lines(program.translated(fast=False).slots))
            classic.write_text(program.decimals())
            if only in f"{expression}, {capture_name}":
                yield Case(expression, f"{group}, {capture_name}", fast, plain, classic, file, len(packets))


def shortened(name: str) -> str:
    return name if len(name) <= LONGEST_NAME else f"{name[: LONGEST_NAME - 3]}..."


def captures(folder: Path) -> dict[str, list[bytes]]:
    """The packets of two captures: that of examples/capture, and the one that examples/filters makes."""
    made = folder / "made.pcap"
    subprocess.run([sys.executable, str(TOP / "examples/filters/make_traffic.py"), str(made)], check=True)
    return {"flows": packets_of(TOP / "examples/capture/sample.pcap"), "mixed": packets_of(made)}


def packets_of(path: Path) -> list[bytes]:
    """The packets of a little-endian pcap file, as both scripts write them."""
    data, at, found = path.read_bytes(), 24, []
    while at < len(data):
        (length,) = struct.unpack_from("<8xI4x", data, at)
        at += 16
        found.append(data[at : at + length])
        at += length
    return found


def print_times(cases: list[Case], ways: list[Way], rounds: int) -> None:
    """For each case the medians of the times of each way over the rounds, and their ratios to libpcap's in the same round."""
    fast, plain, libpcap = ways
    print(f"ns a packet\n{'':<36}" + "".join(f"{way.name:>10}" for way in ways) + f"{'fast to libpcap':>18}{'plain to libpcap':>18}")
    ratios: dict[str, dict[str, float]] = {}
    for case, is_first in with_firsts(cases):
        if is_first:
            print(case.group)
        found = [{way.name: way.time(case) for way in ways} for _ in range(rounds)]
        times = "".join(f"{median(each[way.name] for each in found):>10.1f}" for way in ways)
        both = [median(each[way.name] / each[libpcap.name] for each in found) for way in (fast, plain)]
        ratios.setdefault(case.group, {})[case.name] = both[0]
        print(f"{shortened(case.name):<36}{times}" + "".join(f"{each:>18.2f}" for each in both), flush=True)
    print_means("times", ratios)


def print_means(what: str, ratios: Mapping[str, Mapping[str, float]]) -> None:
    """The geometric mean of each group."""
    for group, found in ratios.items():
        print(f"{what} of {group}, fast to libpcap: geometric mean {mean_of(found)}")


def with_firsts(cases: list[Case]) -> Iterator[tuple[Case, bool]]:
    """The cases, each with whether it is the first of its group."""
    for before, case in zip([None, *cases], cases):
        yield case, before is None or before.group != case.group


def print_counts(cases: list[Case], ways: list[Way], tool: str, count: Count) -> None:
    """Machine instructions per packet."""
    print(f"machine instructions a packet, by {tool}\n{'':<36}" + "".join(f"{way.name:>10}" for way in ways))
    ratios: dict[str, dict[str, float]] = {}
    for case, is_first in with_firsts(cases):
        if is_first:
            print(case.group)
        found = {way.name: way.instructions(case, count) for way in ways}
        ratios.setdefault(case.group, {})[case.name] = found["fast"] / found["libpcap"]
        print(f"{shortened(case.name):<36}" + "".join(f"{each:>10.1f}" for each in found.values()), flush=True)
    print_means("machine instructions", ratios)


def libpcap_version() -> str:
    """What libpcap says of itself."""
    version = libpcap.library().pcap_lib_version
    version.restype = ctypes.c_char_p
    return bytes(version()).decode()


def read_arguments() -> argparse.Namespace:
    parser = argparse.ArgumentParser(description="Times filters as tcpdump writes them beside libpcap's interpreter.")
    parser.add_argument("--rounds", type=int, default=5)
    parser.add_argument("--only", default="", help="cases with this word in their names")
    parser.add_argument("--no-counts", action="store_true", help="counts no machine instructions")
    parser.add_argument("filters")
    return parser.parse_args()


def main() -> None:
    arguments = read_arguments()
    program = arguments.filters
    ways = [Way("fast", program, "batch"), Way("plain", program, "batch"), Way("libpcap", program, "libpcap")]
    with tempfile.TemporaryDirectory() as folder:
        print(libpcap_version())
        cases = list(made_cases(Path(folder), arguments.only))
        for case in cases:
            if len({way.says(case, 1) for way in ways}) > 1:
                sys.exit(f"{case.name}, {case.group}: {', '.join(way.name for way in ways)} give different results")
        print_times(cases, ways, arguments.rounds)
        tool, count = (None, None) if arguments.no_counts else counter()
        if tool and count:
            print_counts(cases, ways, tool, count)
        elif not arguments.no_counts:
            print("machine instructions: neither perf nor valgrind counts here")


if __name__ == "__main__":
    main()
