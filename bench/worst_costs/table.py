"""Replays of the cases: the table of docs/PROTOCOL.md, and the check that the gate runs."""

from __future__ import annotations

from collections.abc import Iterator
from dataclasses import dataclass
from pathlib import Path

from worst_costs.building import packets_of, script
from worst_costs.cases import Case
from worst_costs.counting import Counter, Malloc, Times, can_count, times

# What a case may take, as a multiple of what it took when it was kept: builds with and without proofs differ by some hundredths.
SLACK = 1.1
LEFT_OUT = "machine instructions are left out, as valgrind is missing: apt-get install valgrind"
HEAD = """| Step | Machine instructions | Bound | Time | A neighbour's look-up beside it: median, 99 of 100, most |
|---|---|---|---|---|"""


@dataclass(frozen=True)
class Bench:
    """The program of worst.c, a folder for files, the rounds of times, and what malloc does in them."""

    driver: Path
    folder: Path
    rounds: int
    malloc: Malloc

    def instructions(self, case: Case) -> float | None:
        """Of the step, or of a packet. None without valgrind."""
        if not can_count():
            return None
        with Counter(self.driver, self.folder) as counter:
            counted = counter.count(script(case))
        if counted is None:
            raise ValueError(f"{case.kind}: a frame before the step is refused")
        return counted.instructions / packets_of(case)

    def times(self, case: Case, rounds: int) -> Times:
        path = self.folder / "script"
        path.write_bytes(script(case))
        return times(self.driver, path, rounds, self.malloc)


def shown(nanoseconds: float) -> str:
    """A time in µs, or in ms if it is long."""
    if nanoseconds < 1e5:
        return f"{nanoseconds / 1e3:.2g} µs" if nanoseconds < 1e4 else f"{nanoseconds / 1e3:.0f} µs"
    return f"{nanoseconds / 1e6:.2f} ms" if nanoseconds < 1e7 else f"{nanoseconds / 1e6:.0f} ms"


def row(bench: Bench, case: Case) -> str:
    counted, packets = bench.instructions(case), packets_of(case)
    found = bench.times(case, bench.rounds)
    number = "not counted" if counted is None else f"{counted:,.0f}"
    bound = f"{case.bound:,}" if case.bound else ""
    beside = ", ".join(shown(it) for it in found.beside)
    by_seed = ", by who knows the seed" if case.knows_seed else ""
    took = shown(found.step / packets) + (", of the processor" if found.is_processor_time else "")
    return f"| {case.kind}{by_seed}: {case.what} | {number} | {bound} | {took} | {beside} |"


def print_table(bench: Bench, cases: list[Case]) -> None:
    print(HEAD)
    for case in cases:
        print(row(bench, case), flush=True)
    if not can_count():
        print(f"worst: {LEFT_OUT}")


def faults(bench: Bench, cases: dict[str, Case]) -> Iterator[str]:
    """Cases whose frames are refused, or whose step is dearer than it was by more than a tenth."""
    for name, case in cases.items():
        if not can_count():
            bench.times(case, 1)
            continue
        found = bench.instructions(case)
        if found is not None and found > SLACK * case.kept:
            yield f"worst: {name} takes {found:,.0f} machine instructions, and took {case.kept:,}"


def is_checked(case: Case) -> bool:
    """Maps of colliding keys take too long to fill."""
    return not any("colliding" in command for command in (*case.before, case.step))


def check(bench: Bench, cases: dict[str, Case]) -> bool:
    """Whether no case is dearer than it was. Prints what is left out."""
    checked = {name: case for name, case in cases.items() if is_checked(case)}
    found = list(faults(bench, checked))
    good = "are no dearer than they were" if can_count() else "have no frame before the step that is refused"
    for line in found or [f"worst: {len(checked)} cases {good}"]:
        print(line)
    if len(checked) < len(cases):
        print(f"worst: {len(cases) - len(checked)} cases with colliding keys are left out, as these take long to add")
    if not can_count():
        print(f"worst: {LEFT_OUT}")
    return not found
