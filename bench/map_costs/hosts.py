"""Processes that read command frames and write replies, and what they cost."""

from __future__ import annotations

import os
import subprocess
import sys
from dataclasses import dataclass, field
from pathlib import Path

from map_costs.keys import Seed
from measure import Count

# What known_seed.c prints when the seed is taken from it.
IS_KNOWN = b"the seed is known"


@dataclass(frozen=True)
class Host:
    name: str
    command: tuple[str, ...]
    # Added to the environment.
    variables: tuple[tuple[str, str], ...] = ()
    # Whether its process does the work itself, so that its machine instructions can be counted.
    counts: bool = True

    @property
    def environment(self) -> dict[str, str]:
        return {**os.environ, **dict(self.variables)}

    def run(self, stream: Path) -> subprocess.CompletedProcess[bytes]:
        with stream.open("rb") as frames:
            return subprocess.run(self.command, stdin=frames, capture_output=True, env=self.environment)

    def seconds(self, stream: Path) -> float:
        """The processor time of the process, in user and in system mode: other load on the machine changes it little."""
        with stream.open("rb") as frames:
            process = subprocess.Popen(
                self.command, stdin=frames, stdout=subprocess.DEVNULL, stderr=subprocess.DEVNULL, env=self.environment
            )
            _, status, usage = os.wait4(process.pid, 0)
        process.returncode = os.waitstatus_to_exitcode(status)
        if process.returncode:
            sys.exit(f"{self.name} ended with {process.returncode}")
        return float(usage.ru_utime + usage.ru_stime)

    def instructions(self, count: Count, stream: Path) -> int:
        with stream.open("rb") as frames:
            counted = count(list(self.command), frames, self.environment)
        if counted is None:
            sys.exit(f"{self.name}: its machine instructions can't be counted")
        return counted


@dataclass(frozen=True)
class Built:
    """The programs compiled from this folder's C, and the seed that all of them get."""

    folder: Path
    seed: Seed

    @property
    def colliding(self) -> Path:
        return self.folder / "colliding"

    def served(self, name: str, program: str) -> Host:
        """A bpfhost with the known seed: known_seed.c returns it for its random draws."""
        variables = (("LD_PRELOAD", str(self.folder / "known_seed.so")), ("BENCH_SEED", self.seed.words))
        return Host(name, (program, "serve", "--tenants", "1"), variables)

    def plain(self) -> Host:
        return Host("C", (str(self.folder / "plain"),), (("BENCH_SEED", self.seed.words),))

    def kernel(self) -> Host:
        return Host("bpf(2)", (str(self.folder / "kernel"),), counts=False)


@dataclass
class Files:
    """Streams as files of a folder, each written once."""

    folder: Path
    written: dict[bytes, Path] = field(default_factory=dict)

    def of(self, stream: bytes) -> Path:
        if stream not in self.written:
            self.written[stream] = self.folder / str(len(self.written))
            self.written[stream].write_bytes(stream)
        return self.written[stream]


def least(rounds: int, tasks: list[tuple[Host, Path]]) -> dict[tuple[Host, Path], float]:
    """The least time of each task over rounds in which all take turns."""
    best: dict[tuple[Host, Path], float] = {}
    for _ in range(rounds):
        for host, stream in tasks:
            taken = host.seconds(stream)
            best[host, stream] = min(taken, best.get((host, stream), taken))
    return best
