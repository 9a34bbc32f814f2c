"""The search for the dearest step of a kind: hill climbing over cases, from what was known to be dear."""

from __future__ import annotations

import math
import random
import struct
import subprocess
import time
from collections.abc import Iterator
from dataclasses import dataclass, replace
from pathlib import Path

from worst_costs.building import NoCase, packets_of, script
from worst_costs.cases import Case, all_cases
from worst_costs.counting import Counter, Malloc, longest, times
from worst_costs.edits import edited
from worst_costs.starts import starts

# Rounds of which the least time counts.
TIMED = 5
# A case whose script is longer would take too long, or memory.
LONGEST_SCRIPT = 20_000_000
# Tries without a dearer case after which another start is taken.
PATIENCE = 150


@dataclass
class Search:
    """A search for one kind of step, with a counter, in a folder for files. By time: not by machine instructions."""

    kind: str
    counter: Counter
    driver: Path
    folder: Path
    seed: int
    malloc: Malloc
    by_time: bool = False
    tries: int = 0

    def __post_init__(self) -> None:
        self.drawn = random.Random(self.seed)

    def cost(self, case: Case) -> float:
        """Of the step, or of a packet; 0 if the case has no stream, or if its step is refused and the kind has no refused steps."""
        self.tries += 1
        try:
            made = script(case)
        except (NoCase, ValueError, TypeError, KeyError, IndexError, OverflowError, struct.error):
            return 0
        if len(made) > LONGEST_SCRIPT:
            return 0
        return (self.time_of(made) if self.by_time else self.instructions_of(case, made)) / packets_of(case)

    def instructions_of(self, case: Case, made: bytes) -> float:
        counted = self.counter.count(made)
        is_case = counted is not None and (counted.status >= 0 or case.kind in ("load", "create"))
        return counted.instructions if counted and is_case else 0

    def time_of(self, made: bytes) -> float:
        """The least of some rounds, so that other processes count little; in steps of a twentieth, which they do not reach."""
        (self.folder / "script").write_bytes(made)
        try:
            found = times(self.driver, self.folder / "script", TIMED, self.malloc)
        except subprocess.CalledProcessError:
            return 0
        return float(round(1.05 ** round(math.log(min(it.processor for it in found.rounds), 1.05))))

    def settled(self, case: Case) -> Case:
        """Of a table that is filled anew: the step becomes the delete that does it, which is the longest of those before."""
        if case.kind != "delete, sweep":
            return case
        try:
            (self.folder / "script").write_bytes(script(case))
            at = longest(self.driver, self.folder / "script", self.malloc) // 2
        except (NoCase, ValueError, TypeError, IndexError, OSError):
            return case
        name, fd, keys, count, _ = case.before[-1]
        return replace(case, before=[*case.before[:-1], [name, fd, keys, count, at]], step=["delete", fd, keys, at % count])

    def climb(self, start: Case, until: float) -> Iterator[tuple[float, Case]]:
        """Ever dearer cases."""
        best = self.settled(start)
        cost, failed = self.cost(best), 0
        yield cost, best
        while failed < PATIENCE and time.monotonic() < until:
            made = self.settled(edited(self.drawn, best))
            found = self.cost(made) if made.knows_seed == start.knows_seed else 0
            failed = 0 if found > cost else failed + 1
            if found > cost:
                cost, best = found, made
                yield cost, best
            elif found == cost > 0:
                best = made


def shortened(it: Search, case: Case) -> Case:
    """Without the commands that the cost does not need."""
    least = it.cost(case)
    for at in reversed(range(len(case.before))):
        shorter = replace(case, before=[*case.before[:at], *case.before[at + 1 :]])
        if it.cost(shorter) >= least:
            case = shorter
    return case


def search(it: Search, knows_seed: bool, seconds: float) -> Iterator[Case]:
    """The dearest case so far, whenever a dearer one is found. First all starts are counted, with the cases that are kept; the dearest is climbed
    from first."""
    until, best, dearest = time.monotonic() + seconds, 0.0, None
    kept = [case for case in all_cases().values() if case.kind == it.kind]
    begins = [it.settled(case) for case in (*kept, *starts(it.kind)) if case.knows_seed == knows_seed]
    order = sorted(begins, key=it.cost, reverse=True)
    while order and time.monotonic() < until:
        for start in order:
            for cost, case in it.climb(start, until):
                if cost > best:
                    best, dearest = cost, replace(case, kept=round(cost))
                    print(f"{it.kind}: {cost:,.0f} after {it.tries} tries", flush=True)
                    yield dearest
            if time.monotonic() >= until:
                break
    if dearest:
        yield shortened(it, dearest)
    print(f"{it.kind}: {it.tries} tries", flush=True)
