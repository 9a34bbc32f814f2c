"""What the step of a script takes: machine instructions, by valgrind, and times."""

from __future__ import annotations

import os
import re
import shutil
import statistics
import struct
import subprocess
from dataclasses import dataclass
from enum import StrEnum
from pathlib import Path
from types import TracebackType

# The C library copies and clears long blocks by vectors, and not by one string instruction of which valgrind counts each repetition.
NO_STRINGS = "glibc.cpu.x86_rep_movsb_threshold=1000000000:glibc.cpu.x86_rep_stosb_threshold=1000000000"
TOTAL = re.compile(r"^(?:totals|summary): (\d+)", re.M)


class Malloc(StrEnum):
    """What malloc of the C library does with large blocks, by the tunables that set it."""

    # They come from the system and go back to it at once.
    NEW = "glibc.malloc.mmap_threshold=131072:glibc.malloc.trim_threshold=131072"
    # Blocks of the size of one that was freed are kept from then on.
    DEFAULT = ""
    # All are kept.
    KEPT = "glibc.malloc.mmap_threshold=33554432:glibc.malloc.trim_threshold=1073741824"

    def environment(self, *more: str) -> dict[str, str]:
        return {**os.environ, "GLIBC_TUNABLES": ":".join(filter(None, [self.value, *more]))}


def can_count() -> bool:
    return shutil.which("valgrind") is not None


@dataclass(frozen=True)
class Counted:
    """The status of a step and its machine instructions."""

    status: int
    instructions: int


class Counter:
    """A process of worst.c under valgrind, which carries out script after script."""

    def __init__(self, driver: Path, folder: Path) -> None:
        self.folder, self.scripts = folder, 0
        words = ["valgrind", "-q", "--tool=callgrind", "--toggle-collect=measured_step", "--dump-after=measured_step"]
        words += [f"--callgrind-out-file={folder}/profile", str(driver), "serve"]
        environment = Malloc.NEW.environment(NO_STRINGS)
        self.process = subprocess.Popen(words, stdin=subprocess.PIPE, stdout=subprocess.PIPE, stderr=subprocess.DEVNULL, env=environment)

    def __enter__(self) -> Counter:
        return self

    def __exit__(self, kind: type[BaseException] | None, error: BaseException | None, trace: TracebackType | None) -> None:
        assert self.process.stdin and self.process.stdout
        self.process.stdin.close()
        self.process.wait()
        self.process.stdout.close()

    def count(self, script: bytes) -> Counted | None:
        """None: a frame before the step is refused."""
        assert self.process.stdin and self.process.stdout
        self.process.stdin.write(struct.pack("<I", len(script)) + script)
        self.process.stdin.flush()
        said = self.process.stdout.readline().decode().strip()
        if not said:
            raise OSError("worst.c ended under valgrind")
        return None if said == "refused" else Counted(int(said), self.profiled())

    def profiled(self) -> int:
        """The machine instructions in the newest profile, which is removed."""
        self.scripts += 1
        profile = self.folder / f"profile.{self.scripts}"
        found = TOTAL.search(profile.read_text())
        profile.unlink()
        if not found:
            raise OSError("a profile has no total")
        return int(found[1])


@dataclass(frozen=True)
class Round:
    """In nanoseconds: the step; a neighbour's look-up that arrives with it; the processor time of both. How often they were interrupted."""

    step: float
    beside: float
    processor: float
    interruptions: int


@dataclass(frozen=True)
class Times:
    """The rounds of a script that no other process interrupted. If fewer than half are so, all of them, with processor time."""

    rounds: list[Round]
    is_processor_time: bool

    @classmethod
    def of(cls, rounds: list[Round]) -> Times:
        quiet = [it for it in rounds if not it.interruptions]
        if 2 * len(quiet) >= len(rounds):
            return cls(quiet, False)
        return cls([Round(it.processor, it.processor, it.processor, 0) for it in rounds], True)

    @property
    def step(self) -> float:
        """The median."""
        return statistics.median(it.step for it in self.rounds)

    @property
    def beside(self) -> tuple[float, float, float]:
        """The neighbour's look-up: the median, that which 99 of 100 do not pass, and the longest."""
        took = sorted(it.beside for it in self.rounds)
        return statistics.median(took), took[-1 - len(took) // 100], took[-1]


def times(driver: Path, script: Path, rounds: int, malloc: Malloc = Malloc.NEW) -> Times:
    words: list[str | Path] = [driver, "rounds", str(rounds), script]
    said = subprocess.run(words, stdout=subprocess.PIPE, check=True, text=True, env=malloc.environment()).stdout
    numbers = [line.split() for line in said.splitlines()]
    return Times.of([Round(float(step), float(beside), float(used), int(count)) for step, beside, used, count in numbers])


def longest(driver: Path, script: Path, malloc: Malloc, rounds: int = 5) -> int:
    """Which of the repeated frames of a script takes longest, from 0."""
    words: list[str | Path] = [driver, "longest", str(rounds), script]
    said = subprocess.run(words, stdout=subprocess.PIPE, stderr=subprocess.DEVNULL, text=True, env=malloc.environment())
    if said.returncode:
        raise OSError("a frame is refused")
    return int(said.stdout.split()[0])
