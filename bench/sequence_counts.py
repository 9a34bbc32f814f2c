#!/usr/bin/env python3
"""Counts the sequences that a load marks, and neighbouring instructions, in filters in C and in expressions of tcpdump.

usage: sequence_counts.py [--table FILE] [--top N] [--choose N] BPFHOST
The sequences are the rows of FILE, by default crates/insn_codec/src/sequences.rt. bench/README.md explains the output.
"""

from __future__ import annotations

import argparse
from collections import Counter
from collections.abc import Callable, Iterable, Sequence
from functools import partial
from pathlib import Path

from parts import (
    ALSO, ATOMIC_ADD, BE16, LDDW_MAP, LDDW_VALUE, LOAD_BYTES, MOV32, MOV64, SECOND, Parts, ahead, begins, is_last, names, parts_of, table,
)
from sequence_sources import TOP, Source, of_expressions, of_filters

TABLE = TOP / "crates/insn_codec/src/sequences.rt"
# About how many machine instructions a dispatch takes, and the tests of an instruction whose form its opcode does not determine.
DISPATCH, TESTS = 5, {MOV64: 2, MOV32: 2, BE16: 3, LDDW_VALUE: 4, LDDW_MAP: 4, ATOMIC_ADD: 4}
# The most instructions of a sequence that is chosen.
LONGEST = 6
# A turn: the sequence, or no parts, and its first part.
Turn = tuple[Parts, int | None]


def turns(rows: Sequence[Parts], slots: bytes) -> Counter[Turn]:
    """How many of the slots to which a run may come begin each turn."""
    parts, found = parts_of(slots), Counter[Turn]()
    open_slots, seen = [0], set[int]()
    while open_slots:
        at = open_slots.pop()
        if at not in seen:
            seen.add(at)
            row = next((row for row in rows if begins(parts[at : at + len(row)], row)), ())
            found[row, parts[at]] += 1
            open_slots += ahead(slots, at, max(1, len(row)))
    return found


def marked(rows: Sequence[Parts], slots: bytes) -> Counter[Parts]:
    """How many turns execute each sequence; no parts for a turn of one instruction without a mark."""
    found = Counter[Parts]()
    for (row, _), count in turns(rows, slots).items():
        found[row] += count
    return found


def neighbours(slots: bytes, count: int) -> Counter[Parts]:
    """The instructions that follow one another, so many each time, of which only the last may jump, call or exit."""
    parts = [part if part is None or part == LOAD_BYTES else ALSO.get(part, part) for part in parts_of(slots)]
    found = Counter[Parts]()
    places = [at for at, part in enumerate(parts) if part != SECOND] + [len(slots) // 8]
    for first, end in zip(places, places[count:]):
        few = tuple(part for part in parts[first:end] if part is not None)
        if len(few) == end - first and not any(is_last(part) for part in few[:-1]):
            found[few] += 1
    return found


def instructions(source: Source) -> int:
    return sum(part != SECOND for slots in source for part in parts_of(slots))


class Shares:
    """How often sequences occur in some sources: their shares in the instructions of each source, all its programs together."""

    def __init__(self, sources: Sequence[Source], count: Callable[[bytes], Counter[Parts]]) -> None:
        self.each: list[dict[Parts, float]] = []
        for source in sources:
            counts = sum(map(count, source), Counter[Parts]())
            self.each.append({parts: 1000 * number / instructions(source) for parts, number in counts.items()})

    def mean(self, parts: Parts) -> float:
        """The mean of the shares in all sources, of 1,000 instructions."""
        return sum(share.get(parts, 0.0) for share in self.each) / len(self.each)

    def having(self, parts: Parts) -> int:
        """In how many sources it occurs."""
        return sum(parts in share for share in self.each)


def print_table(title: str, groups: Sequence[Shares], rows: Iterable[Parts]) -> None:
    """A row for each of these sequences, with their shares in filters and in expressions."""
    print(f"\n| {title} | Filters | Of 1,000 | Expressions | Of 1,000 |\n| --- | --- | --- | --- | --- |")
    for parts in rows:
        cells = " | ".join(f"{group.having(parts)} | {group.mean(parts):.1f}" for group in groups)
        print(f"| {names(parts) or 'without a mark'} | {cells} |")


def most_frequent(groups: Sequence[Shares], most: int) -> list[Parts]:
    """The most frequent sequences, all sources with the same weight."""
    total = Counter[Parts]()
    for share in (share for group in groups for share in group.each):
        total.update({parts: round(1e6 * value) for parts, value in share.items()})
    return sorted(total, key=lambda parts: (-total[parts], parts))[:most]


def cost(rows: Sequence[Parts], sources: Sequence[Source]) -> float:
    """The dispatches and tests for each instruction, in machine instructions, as the mean over all sources."""

    def of(source: Source) -> float:
        found = sum((turns(rows, slots) for slots in source), Counter[Turn]())
        each = (count * (DISPATCH + (0 if row or part is None else TESTS.get(ALSO.get(part, part), 0))) for (row, part), count in found.items())
        return sum(each) / instructions(source)

    return sum(map(of, sources)) / len(sources)


def in_order(rows: Iterable[Parts]) -> list[Parts]:
    """By the first opcode, the longer of two that begin alike first."""
    return sorted(rows, key=lambda row: (row[0], -len(row), row))


def choose(title: str, sources: Sequence[Source], rows: list[Parts], count: int) -> list[Parts]:
    """These sequences and so many more, which it prints: each time the one with which the sources cost least."""
    frequent = Counter[Parts]()
    for source in sources:
        for size in range(2, LONGEST + 1):
            for parts, number in sum((neighbours(slots, size) for slots in source), Counter[Parts]()).items():
                frequent[parts] += round(1e6 * (size - 1) * number / instructions(source))
    wide = {LDDW_VALUE, LDDW_MAP}
    candidates = [(part, SECOND) if part in wide else (part,) for part in TESTS] + [parts for parts, _ in frequent.most_common(70)]
    before = cost(in_order(rows), sources)
    print(f"\n| Chosen by {title} | Saves of {before:.2f} |\n| --- | --- |")
    for _ in range(count):
        costs = {parts: cost(in_order([*rows, parts]), sources) for parts in candidates if parts not in rows}
        best = min(costs, key=lambda parts: (costs[parts], parts))
        print(f"| {names(best)} | {before - costs[best]:.3f} |", flush=True)
        rows, before = [*rows, best], costs[best]
    return rows


def print_counts(rows: list[Parts], filters: list[Source], expressions: list[Source], top: int) -> None:
    """The tables of turns, and of instructions, pairs and triples."""
    print(f"{sum(map(len, filters))} programs of {len(filters)} filters in C, {len(expressions)} of expressions.")
    both = [Shares(sources, partial(marked, rows)) for sources in (filters, expressions)]
    print_table("Executed in one turn", both, [*rows, ()])
    for size, title in ((1, "Instruction"), (2, "Pair"), (3, "Triple")):
        both = [Shares(sources, partial(neighbours, count=size)) for sources in (filters, expressions)]
        print_table(title, both, most_frequent(both, top))


def main() -> None:
    parser = argparse.ArgumentParser(description=(__doc__ or "").splitlines()[0])
    parser.add_argument("--table", type=Path, default=TABLE, help="a file with the rows of another table")
    parser.add_argument("--top", type=int, default=40, help="so many of the most frequent neighbours")
    parser.add_argument("--choose", type=int, default=0, help="chooses so many sequences for filters, and three more for expressions")
    parser.add_argument("bpfhost")
    given = parser.parse_args()
    filters, expressions = of_filters(given.bpfhost), of_expressions()
    if given.choose:
        chosen = choose("filters", filters, [], given.choose)
        choose("expressions", expressions, chosen, 3)
        return
    print_counts(table(given.table.read_text()), filters, expressions, given.top)


if __name__ == "__main__":
    main()
