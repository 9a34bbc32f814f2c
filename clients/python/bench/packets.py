#!/usr/bin/env python3
"""Measures the cost of a filter's run on a capture for the client, compared with the cost for the host.

usage: packets.py [BPFHOST] [--packets N] [--longest N] [--rounds N] [--filter EXPRESSION]

It makes captures of packets of 64 to 1,500 bytes, or up to another length, in a temporary folder, one in each format, and runs a filter of
two instructions on them in turn, as `python3 -m bpfhost run` does. It prints the processor time for each packet, of this process and of
the host. A busy machine makes both longer: so it prints all rounds, and the one that cost the client least.

With --filter it runs the command `run --filter EXPRESSION` instead, client and host together, in turn with `tcpdump -w`: on a capture
without packets, and on one in the format pcap, without and with `--accepted`. It prints the processor time of each, the medians of the
rounds and their ratios, and compares the files.
"""

from __future__ import annotations

import argparse
import os
import random
import resource
import shutil
import statistics
import struct
import subprocess
import sys
import tempfile
from pathlib import Path
from typing import BinaryIO

sys.dont_write_bytecode = True
sys.path.insert(0, str(Path(__file__).resolve().parents[1]))

from bpfhost import Host, TestRuns, assemble, find_program  # noqa: E402
from bpfhost.captures import open_capture  # noqa: E402
from bpfhost.filtering import Filter, Outcome  # noqa: E402

SHORTEST, LONGEST = 64, 1500
LENGTH = "r0 = *(u32 *)(r1 + 0)\nexit\n"
IPV4 = bytes(12) + b"\x08\x00"
MICROSECONDS_WANTED = 3.0


def write_pcap(file: BinaryIO, lengths: list[int]) -> None:
    """A capture of IPv4 packets of these lengths, filled up with zeros."""
    file.write(struct.pack("<IHHiIII", 0xA1B2C3D4, 2, 4, 0, 0, 65_536, 1))
    for at, length in enumerate(lengths):
        file.write(struct.pack("<IIII", at, 0, length, length) + IPV4 + bytes(length - len(IPV4)))


def write_pcapng(file: BinaryIO, lengths: list[int]) -> None:
    """The same in the other format."""
    file.write(struct.pack("<IIIHHqI", 0x0A0D0D0A, 28, 0x1A2B3C4D, 1, 0, -1, 28))
    file.write(struct.pack("<IIHHII", 1, 20, 1, 0, 65_536, 20))
    for at, length in enumerate(lengths):
        block = 32 + (length + 3) // 4 * 4
        packet = IPV4 + bytes(length - len(IPV4))
        file.write(struct.pack("<7I", 6, block, 0, 0, at, length, length) + packet.ljust(block - 32, b"\0"))
        file.write(struct.pack("<I", block))


def processor_time(whose: int) -> float:
    """The seconds of processor time that this process, or the processes that it has waited for, have taken."""
    used = resource.getrusage(whose)
    return used.ru_utime + used.ru_stime


def run_filter(program: str, capture: Path) -> Outcome:
    """Runs the filter on the capture, and ends the host."""
    with open_capture(capture) as opened, Host(program) as host:
        loaded = host.tenant().prog_load(assemble(program, LENGTH))
        return Filter([TestRuns(host, 0, loaded)]).run(opened)


def measure(program: str, capture: Path, lengths: list[int]) -> tuple[float, float]:
    """The processor time of this process and of the host, in microseconds for each packet."""
    before = [processor_time(whose) for whose in (resource.RUSAGE_SELF, resource.RUSAGE_CHILDREN)]
    outcome = run_filter(program, capture)
    behind = [processor_time(whose) for whose in (resource.RUSAGE_SELF, resource.RUSAGE_CHILDREN)]
    if outcome.packets != len(lengths) or outcome.bytes_kept != sum(lengths) or outcome.fault:
        sys.exit(f"packets: the filter has kept {outcome.bytes_kept} bytes of {outcome.packets} packets")
    client, host = ((late - early) / len(lengths) * 1e6 for early, late in zip(before, behind))
    return client, host


def command_time(call: list[str], folder: str) -> float:
    """The processor time of a command and of all that it starts, in seconds."""
    package = str(Path(__file__).resolve().parents[1])
    before = processor_time(resource.RUSAGE_CHILDREN)
    ended = subprocess.run(call, cwd=folder, env={**os.environ, "PYTHONPATH": package}, capture_output=True, check=False)
    if ended.returncode:
        sys.exit(f"packets: {' '.join(call)} has status {ended.returncode}: {ended.stderr.decode(errors='replace').strip()}")
    return processor_time(resource.RUSAGE_CHILDREN) - before


def measure_filter(said: argparse.Namespace, lengths: list[int], scratch: str) -> None:
    """Prints the processor time of a filter's run and of tcpdump's, and compares what they write."""
    for name, some in (("empty", lengths[:0]), ("full", lengths)):
        with open(Path(scratch, name), "wb") as file:
            write_pcap(file, some)
    run = [sys.executable, "-m", "bpfhost", "run", "--bpfhost", find_program(said.bpfhost), "--filter", said.filter]
    calls = {"no packets": [*run, "empty"], "run": [*run, "full"], "run --accepted": [*run, "full", "--accepted", "ours"]}
    if shutil.which("tcpdump"):
        as_root = ["-Z", "root"] if os.geteuid() == 0 else []
        calls["tcpdump -w"] = ["tcpdump", *as_root, "-r", "full", "-w", "theirs", said.filter]
    measured: dict[str, list[float]] = {name: [] for name in calls}
    for _ in range(said.rounds):
        for name, call in calls.items():
            measured[name].append(command_time(call, scratch))
            print(f"{name}: {measured[name][-1]:.2f} s")
    if "tcpdump -w" in calls and Path(scratch, "ours").read_bytes() != Path(scratch, "theirs").read_bytes():
        sys.exit("packets: the files of run --accepted and of tcpdump -w differ")
    middle = {name: statistics.median(rounds) for name, rounds in measured.items()}
    print(", ".join(f"{name}: {seconds:.2f} s" for name, seconds in middle.items()))
    for name in ("run", "run --accepted"):
        more = middle[name] - middle["no packets"]
        ratio = f", {more / middle['tcpdump -w']:.1f} times tcpdump -w" if middle.get("tcpdump -w") else ""
        print(f"{name}: {more:.2f} s more than without packets, for {said.packets:,} packets{ratio}")


WRITERS = {"pcap": write_pcap, "pcapng": write_pcapng}


def main() -> None:
    """Makes the captures, and prints what was measured."""
    parser = argparse.ArgumentParser(description="Measures what a run on a capture costs the client.")
    parser.add_argument("bpfhost", nargs="?")
    parser.add_argument("--packets", type=int, default=1_000_000)
    parser.add_argument("--longest", type=int, default=LONGEST)
    parser.add_argument("--rounds", type=int, default=3)
    parser.add_argument("--filter", metavar="EXPRESSION", help="run a filter as for tcpdump, next to tcpdump")
    said = parser.parse_args()
    draw = random.Random(37)
    lengths = [draw.randint(SHORTEST, said.longest) for _ in range(said.packets)]
    measured: dict[str, list[tuple[float, float]]] = {name: [] for name in WRITERS}
    with tempfile.TemporaryDirectory() as scratch:
        if said.filter is not None:
            measure_filter(said, lengths, scratch)
            return
        for name, write in WRITERS.items():
            with open(Path(scratch, name), "wb") as file:
                write(file, lengths)
        for _ in range(said.rounds):
            for name in WRITERS:
                measured[name].append(measure(find_program(said.bpfhost), Path(scratch, name), lengths))
                client, host = measured[name][-1]
                print(f"{name}, {said.packets:,} packets: client {client:.2f} us a packet, host {host:.2f}, ratio {client / host:.2f}")
    for name, rounds in measured.items():
        print(f"{name}: the client costs {min(rounds)[0]:.2f} us a packet at least, and is to cost less than {MICROSECONDS_WANTED:.0f}")


if __name__ == "__main__":
    main()
