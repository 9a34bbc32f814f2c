"""Counts and times the dearest steps, or searches for them. bench/README.md explains the output.

usage: python3 -m worst_costs [--check | --search SECONDS] [--only KIND] [--rounds N] .. SCRATCH
"""

from __future__ import annotations

import argparse
import sys
from pathlib import Path

from worst_costs.cases import FOLDER, KINDS, all_cases, write
from worst_costs.climbing import Search, search
from worst_costs.counting import Counter, Malloc, can_count
from worst_costs.table import LEFT_OUT, Bench, check, print_table


def read_arguments() -> argparse.Namespace:
    parser = argparse.ArgumentParser(description="Counts and times the dearest steps, or searches for them.")
    parser.add_argument("--only", default="", help="steps of this kind")
    parser.add_argument("--check", action="store_true", help="only compares the machine instructions with those of the cases")
    parser.add_argument("--search", type=float, default=0, metavar="SECONDS", help="searches for dearer cases, so long for each kind")
    parser.add_argument("--by-time", action="store_true", help="searches by time in place of machine instructions")
    parser.add_argument("--knows-seed", action="store_true", help="searches among keys of who knows the seed")
    parser.add_argument("--random", type=int, default=1, metavar="N", help="the seed of the search's random edits")
    parser.add_argument("--into", type=Path, default=Path("."), help="the folder for the cases that a search finds")
    parser.add_argument("--rounds", type=int, default=300, help="rounds of the times")
    parser.add_argument("--malloc", choices=[it.name.lower() for it in Malloc], default="new", help="what it does with large blocks")
    parser.add_argument("scratch", type=Path)
    arguments = parser.parse_args()
    arguments.malloc = Malloc[arguments.malloc.upper()]
    return arguments


def searches(arguments: argparse.Namespace, kinds: list[str]) -> None:
    """Writes the dearest case of each kind, whenever a dearer one is found."""
    if not can_count() and not arguments.by_time:
        sys.exit(f"worst: {LEFT_OUT}; --by-time searches without them")
    for kind in kinds:
        with Counter(arguments.scratch / "worst", arguments.scratch) as counter:
            it = Search(kind, counter, arguments.scratch / "worst", arguments.scratch, arguments.random, arguments.malloc, arguments.by_time)
            for case in search(it, arguments.knows_seed, arguments.search):
                words = [*kind.replace(",", "").split(), *(["seed"] if case.knows_seed else []), *(["time"] if arguments.by_time else [])]
                write(arguments.into / f"{'_'.join(words)}.json", case)


def main() -> None:
    arguments = read_arguments()
    kinds = [kind for kind in KINDS if arguments.only in ("", kind)]
    if arguments.search:
        searches(arguments, kinds)
        return
    bench = Bench(arguments.scratch / "worst", arguments.scratch, arguments.rounds, arguments.malloc)
    cases = {name: case for name, case in all_cases().items() if case.kind in kinds}
    if arguments.check:
        sys.exit(not check(bench, cases))
    print_table(bench, list(cases.values()))


if __name__ == "__main__":
    main()
