#!/usr/bin/env python3
"""Measures a built bpfhost, and other interpreters for comparison. bench/README.md explains the output.

usage: measure.py [--rounds N] [--only WORD] [--no-counts] [--no-loads] [--before BPFHOST] [--counting PROGRAM] BPFHOST [PLAIN [DPDK]]
--before is another build of the program, measured in the same rounds. PROGRAM counts the instructions that its runs execute; without it,
the filters that clang compiles are left out.
"""

from __future__ import annotations

import argparse
import math
import os
import re
import shutil
import subprocess
import sys
import tempfile
from collections.abc import Callable, Mapping
from pathlib import Path
from statistics import median
from typing import IO, Protocol

from compiled import compiled
from means import lines
from programs import LOADED, LONG, RUN, SLOTS, Program
from streams import loads_of, runs_of

SERVE = ["serve", "--tenants", "1"]
# About how many instructions each timed stream executes, and the most runs that it has.
EXECUTED, MOST_RUNS = 60_000_000, 200_000
# Loads in each timed stream; and runs and loads if a slow tool counts the machine instructions.
LOADS, COUNTED_RUNS, COUNTED_LOADS = 60, 60, 2

Programs = dict[str, Program]
# The machine instructions of each program, by its name and the host's; and its times, one for each round.
Found = dict[tuple[str, str], float]
Rounds = dict[tuple[str, str], list[float]]


# The input of a stream, and the command that counts the machine instructions of another; None if it does not count here.
Input = IO[bytes] | int


class Count(Protocol):
    def __call__(self, command: list[str], frames: Input, environment: Mapping[str, str] | None = None) -> int | None: ...


class Host:
    """A program that reads frames and writes replies. Without calls it runs only programs that call no helper."""

    def __init__(self, name: str, command: list[str], calls: bool = True) -> None:
        self.name, self.command, self.calls = name, command, calls

    def runs(self, program: Program) -> bool:
        return self.calls or not program.calls

    def replies(self, stream: str) -> bytes:
        with open(stream, "rb") as frames:
            return subprocess.run(self.command, stdin=frames, stdout=subprocess.PIPE, check=True).stdout

    def seconds(self, stream: str) -> float:
        """The processor time of the process, in user and in system mode: other load on the machine changes it little."""
        with open(stream, "rb") as frames:
            process = subprocess.Popen(self.command, stdin=frames, stdout=subprocess.DEVNULL)
            _, status, usage = os.wait4(process.pid, 0)
        process.returncode = os.waitstatus_to_exitcode(status)
        if process.returncode:
            sys.exit(f"{self.name} ended with {process.returncode}")
        return float(usage.ru_utime + usage.ru_stime)


def counted_by_perf(command: list[str], frames: Input, environment: Mapping[str, str] | None = None) -> int | None:
    words = ["perf", "stat", "-x,", "-e", "instructions:u", *command]
    said = subprocess.run(words, stdin=frames, stdout=subprocess.DEVNULL, stderr=subprocess.PIPE, text=True, env=environment).stderr
    found = re.search(r"^(\d+),", said, re.M)
    return int(found[1]) if found else None


def counted_by_valgrind(command: list[str], frames: Input, environment: Mapping[str, str] | None = None) -> int | None:
    words = ["valgrind", "--tool=callgrind", "--callgrind-out-file=/dev/null", *command]
    said = subprocess.run(words, stdin=frames, stdout=subprocess.DEVNULL, stderr=subprocess.PIPE, text=True, env=environment).stderr
    found = re.search(r"Collected : (\d+)", said)
    return int(found[1]) if found else None


def counter() -> tuple[str, Count] | tuple[None, None]:
    """The tool that counts machine instructions here, if there is one."""
    for tool, count in (("perf", counted_by_perf), ("valgrind", counted_by_valgrind)):
        if shutil.which(tool) and count(["true"], subprocess.DEVNULL):
            return tool, count
    return None, None


def count_of(count: Count, host: Host, stream: str) -> int:
    with open(stream, "rb") as frames:
        counted = count(host.command, frames)
    if counted is None:
        sys.exit(f"{host.name}: its machine instructions can't be counted")
    return counted


class Streams:
    """Streams as files of a folder, each written once."""

    def __init__(self, folder: str) -> None:
        self.folder = folder
        self.written: dict[tuple[str, int, int], str] = {}

    def of(self, make: Callable[[Program, int], bytes], program: Program, count: int) -> str:
        key = make.__name__, id(program), count
        if key not in self.written:
            path = os.path.join(self.folder, str(len(self.written)))
            with open(path, "wb") as file:
                file.write(make(program, count))
            self.written[key] = path
        return self.written[key]


def tell(progress: str) -> None:
    """Writes how far the measurement is, over what it wrote before, if somebody sees it."""
    if sys.stderr.isatty():
        print(f"\r{' ' * 30}\r{progress}", end="", file=sys.stderr, flush=True)


def least(rounds: int, tasks: list[tuple[Host, str]]) -> dict[tuple[Host, str], float]:
    """The least time of each task, (host, stream), over rounds in which all take turns."""
    best: dict[tuple[Host, str], float] = {}
    for at in range(rounds):
        tell(f"round {at + 1} of {rounds} ")
        for host, stream in tasks:
            taken = host.seconds(stream)
            best[host, stream] = min(taken, best.get((host, stream), taken))
    tell("")
    return best


def runs_for(program: Program) -> int:
    return min(MOST_RUNS, EXECUTED // program.executed)


def same_replies(streams: Streams, programs: Programs, hosts: list[Host]) -> None:
    for name, program in programs.items():
        stream = streams.of(runs_of, program, 100)
        asked = [host for host in hosts if host.runs(program)]
        if len({host.replies(stream) for host in asked}) > 1:
            sys.exit(f"{name}: {' and '.join(host.name for host in asked)} give different results")


def seconds_of_runs(streams: Streams, host: Host, program: Program, runs: int) -> float:
    """The processor time of so many runs, with their frames, without the start of the host and the load."""
    return host.seconds(streams.of(runs_of, program, runs)) - host.seconds(streams.of(runs_of, program, 0))


def measured_runs(streams: Streams, programs: Programs, hosts: list[Host], rounds: int) -> Rounds:
    """Seconds per run of each program on each host, in each round: more than those of the empty program; of that one with its frame. The
    empty program is measured next to each other one, and the hosts one after the other, as the clock of a processor changes."""
    found: Rounds = {}
    for at in range(rounds):
        tell(f"round {at + 1} of {rounds} ")
        for name, program in programs.items():
            runs = runs_for(program)
            for host in (host for host in hosts if host.runs(program)):
                seconds = seconds_of_runs(streams, host, program, runs)
                if name != "empty":
                    seconds -= seconds_of_runs(streams, host, programs["empty"], runs)
                found.setdefault((name, host.name), []).append(seconds / runs)
    tell("")
    return found


def counted_runs(streams: Streams, programs: Programs, hosts: list[Host], count: Count) -> Found:
    """Machine instructions per run of each program on each host, with its frame."""
    found = {}
    for name, program in programs.items():
        few, more = (streams.of(runs_of, program, runs) for runs in (COUNTED_RUNS, 2 * COUNTED_RUNS))
        for host in (host for host in hosts if host.runs(program)):
            found[name, host.name] = (count_of(count, host, more) - count_of(count, host, few)) / COUNTED_RUNS
    return found


def print_runs(streams: Streams, programs: Programs, hosts: list[Host], rounds: int, count: Count | None) -> None:
    seconds = measured_runs(streams, programs, hosts, rounds)
    counts = counted_runs(streams, programs, hosts, count) if count else None
    for host in hosts:
        told = f", {counts['empty', host.name]:.0f} machine instructions" if counts else ""
        print(f"a frame with a run of two instructions, {host.name}: {median(seconds['empty', host.name]) * 1e9:.0f} ns{told}")
    head = f"{'':18}{'executed':>9}" + "".join(f"{host.name + ', ns':>14}" for host in hosts)
    head += "".join(f"{'to ' + host.name:>9}" for host in hosts[1:])
    print(head + "".join(f"{host.name + ', ins.':>15}" for host in hosts if counts))
    for name, program in programs.items():
        if name == "empty":
            continue
        executed = program.executed - programs["empty"].executed
        taken = [median(seconds[name, host.name]) * 1e9 / executed if host.runs(program) else None for host in hosts]
        line = f"{name:18}{program.executed:>9}" + "".join(f"{shown(it, 3):>14}" for it in taken)
        line += "".join(f"{shown(ratio(seconds, name, hosts[0], host), 2):>9}" for host in hosts[1:])
        if counts:
            line += "".join(f"{shown(more_of(counts, name, host, 1 / executed), 2):>15}" for host in hosts)
        print(line)
    print_means(programs, seconds, hosts)


def print_means(programs: Programs, seconds: Rounds, hosts: list[Host]) -> None:
    """The means of the ratios of times, of the programs of this folder and of the filters in C."""
    groups = {"programs of bench": LONG, "filters in C": tuple(name for name in programs if name.endswith(".c"))}
    for group, names in groups.items():
        found = {name: {host.name: ratio(seconds, name, hosts[0], host) for host in hosts[1:]} for name in names if name in programs}
        by_host = {host.name: {name: it for name in found if (it := found[name][host.name]) is not None} for host in hosts[1:]}
        for line in lines(group, by_host):
            print(line)


def ratio(seconds: Rounds, name: str, host: Host, other: Host) -> float | None:
    """The time of a program on a host divided by that on another one: the median over the rounds. None if it does not run on both, or if
    this is not above 0, as each time is a difference."""
    pairs = zip(seconds.get((name, host.name), []), seconds.get((name, other.name), []))
    ratios = [time / compared if compared > 0 else math.inf for time, compared in pairs]
    found = median(ratios) if ratios else 0
    return found if 0 < found < math.inf else None


def more_of(found: Found, name: str, host: Host, scale: float) -> float | None:
    """How many more machine instructions a run takes than one of the empty program, or None if this host does not run the program."""
    if (name, host.name) not in found:
        return None
    return (found[name, host.name] - found["empty", host.name]) * scale


def shown(number: float | None, digits: int) -> str:
    return "" if number is None else f"{number:.{digits}f}"


def print_loads(streams: Streams, programs: Programs, host: Host, rounds: int, count: Count | None) -> None:
    """Loads, minus those of the empty program."""
    bare = RUN["empty"]()
    every = {"empty": bare, **programs}
    files = {name: streams.of(loads_of, program, LOADS) for name, program in every.items()}
    best = least(rounds, [(host, file) for file in files.values()])
    print(f"{'load of 4,096':18}{'ms':>9}{'ns a slot':>14}" + (f"{'ins. a slot':>15}" if count else ""))
    base = 0.0
    for name, program in every.items():
        milliseconds = (best[host, files[name]] - best[host, files["empty"]]) * 1e3 / LOADS
        counted = 0.0
        if count:
            few, more = (streams.of(loads_of, program, loads) for loads in (COUNTED_LOADS, 2 * COUNTED_LOADS))
            counted = (count_of(count, host, more) - count_of(count, host, few)) / COUNTED_LOADS
        if name == "empty":
            base = counted
            continue
        told = f"{(counted - base) / SLOTS:>15.0f}" if count else ""
        print(f"{name:18}{milliseconds:>9.3f}{milliseconds * 1e6 / SLOTS:>14.1f}{told}")


def main() -> None:
    parser = argparse.ArgumentParser(description=__doc__.split("\n")[0])
    parser.add_argument("--rounds", type=int, default=9)
    parser.add_argument("--only", default="", help="a word of the programs' names")
    parser.add_argument("--no-counts", action="store_true", help="counts no machine instructions")
    parser.add_argument("--no-loads", action="store_true", help="measures no loads")
    parser.add_argument("--before", help="another build of bpfhost")
    parser.add_argument("--counting", help="plain.c built with -DCOUNT")
    parser.add_argument("bpfhost")
    parser.add_argument("plain", nargs="?")
    parser.add_argument("dpdk", nargs="?")
    given = parser.parse_args()
    hosts = [Host("bpfhost", [given.bpfhost, *SERVE])]
    if given.before:
        hosts.append(Host("before", [given.before, *SERVE]))
    if given.plain:
        hosts.append(Host("C", [given.plain]))
    if given.dpdk:
        hosts.append(Host("DPDK", [given.dpdk], calls=False))
    tool, count = (None, None) if given.no_counts else counter()
    if not given.no_counts:
        print(f"machine instructions are counted by {tool}" if tool else "machine instructions are not counted: no perf, no valgrind")
    with tempfile.TemporaryDirectory() as folder:
        streams = Streams(folder)
        programs = {name: make() for name, make in RUN.items()}
        if given.counting:
            programs |= compiled(given.bpfhost, given.counting, Path(folder), given.only)
        programs = {name: program for name, program in programs.items() if name == "empty" or given.only in name}
        same_replies(streams, programs, hosts)
        if len(programs) > 1:
            print_runs(streams, programs, hosts, given.rounds, count)
        loaded = {name: make() for name, make in LOADED.items() if given.only in name}
        if loaded and not given.no_loads:
            print_loads(streams, loaded, hosts[0], given.rounds, count)


if __name__ == "__main__":
    main()
