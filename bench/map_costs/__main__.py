"""Counts and times commands and calls on hash maps. bench/README.md explains the output.

usage: python3 -m map_costs [--rounds N] [--key-sizes N,..] [--entries N,..] [--only PART] [--seed SEED] BUILT BPFHOST..
BUILT is a folder with what bench/maps compiles. PART is commands, keys, calls or steps. SEED is two hexadecimal words.
"""

from __future__ import annotations

import argparse
import sys
from collections.abc import Iterator
from dataclasses import dataclass
from pathlib import Path

from map_costs import calls, costs, steps
from map_costs.commands import FILL, OPERATIONS, streams_of
from map_costs.costs import Shape, scratch
from map_costs.hosts import IS_KNOWN, Built, Host
from map_costs.keys import RANDOM, SEED, Family, Searched, Seed, with_seed, without_seed
from measure import Count, counter

PARTS = ("commands", "keys", "calls", "steps")
# What to compare for families of keys.
COMPARED = [FILL, "look-up", "oldest"]


@dataclass(frozen=True)
class Bench:
    count: Count | None
    rounds: int
    shapes: list[Shape]
    seed: Seed
    # The bpfhosts, the first of which is compared with the others, and the other hosts that are measured.
    hosts: list[Host]
    beside: list[Host]
    families: list[Family]

    @property
    def host(self) -> Host:
        return self.hosts[0]


def numbers(text: str) -> list[int]:
    return [int(word) for word in text.split(",")]


def arguments() -> argparse.Namespace:
    parser = argparse.ArgumentParser(description=__doc__, formatter_class=argparse.RawDescriptionHelpFormatter)
    parser.add_argument("--rounds", type=int, default=5)
    parser.add_argument("--key-sizes", type=numbers, default=[4, 16, 64, 512])
    parser.add_argument("--entries", type=numbers, default=[64, 512, 4096])
    parser.add_argument("--only", choices=PARTS)
    parser.add_argument("--seed", type=Seed.of_words, default=SEED)
    parser.add_argument("built", type=Path)
    parser.add_argument("bpfhost", nargs="+")
    return parser.parse_args()


def takes_seed(host: Host) -> bool:
    with scratch() as files:
        return IS_KNOWN in host.run(files.of(b"")).stderr


def kernel(built: Built) -> list[Host]:
    """The kernel's maps, if bpf(2) is available."""
    host = built.kernel()
    with scratch() as files:
        told = host.run(files.of(streams_of(FILL, RANDOM.keys(4, 64), 64).whole))
    if told.returncode == 0:
        return [host]
    print(f"bpf(2) is skipped: {told.stderr.decode().strip() or told.returncode}")
    return []


def named(programs: list[str]) -> Iterator[tuple[str, str]]:
    """The programs by the names of their files, numbered if a name occurs twice."""
    names: list[str] = []
    for program in programs:
        names.append(Path(program).name)
        again = names.count(names[-1])
        yield names[-1] + (f" {again}" if again > 1 else ""), program


def bench_of(given: argparse.Namespace) -> Bench:
    built = Built(given.built, given.seed)
    _, count = counter()
    if not count:
        print("machine instructions are not counted, as neither perf nor valgrind counts here")
    hosts = [built.served(name, program) for name, program in named(given.bpfhost)]
    searched = Searched(built.colliding)
    families = without_seed(searched)
    for host in hosts:
        if not takes_seed(host):
            print(f"{host.name} takes no seed from known_seed.c: keys that collide under its seed say nothing of it")
    if takes_seed(hosts[0]):
        families.append(with_seed(searched, given.seed))
    shapes = [Shape(size, entries) for size in given.key_sizes for entries in given.entries]
    return Bench(count, given.rounds, shapes, given.seed, hosts, [built.plain(), *kernel(built)], families)


def same_replies(bench: Bench, shape: Shape) -> None:
    """All hosts give the same replies, except that the kernel returns its keys in another order."""
    keys = RANDOM.keys(shape.key_size, shape.entries)
    for name in OPERATIONS:
        asked = [host for host in (*bench.hosts, *bench.beside) if host.counts or name != "walk"]
        with scratch() as files:
            stream = files.of(streams_of(name, keys, 3 * shape.entries).whole)
            if len({host.run(stream).stdout for host in asked}) > 1:
                sys.exit(f"{name}: {' and '.join(host.name for host in asked)} give different results")


def print_commands(bench: Bench) -> None:
    hosts = [*bench.hosts, *bench.beside]
    counted = [host for host in hosts if host.counts and bench.count]
    head = "".join(f"{host.name + ', ins.':>17}" for host in counted) + f"{bench.host.name + ', ns':>14}"
    print(f"{'key, keys, step':24}{head}" + "".join(f"{'to ' + host.name:>14}" for host in hosts[1:]))
    for shape in bench.shapes:
        same_replies(bench, shape)
        keys = RANDOM.keys(shape.key_size, shape.entries)
        found = costs.instructions(bench.count, hosts, RANDOM, keys, list(OPERATIONS)) if bench.count else {}
        taken = costs.times(bench.rounds, hosts, {RANDOM.name: (RANDOM, keys)}, list(OPERATIONS))
        for name in OPERATIONS:
            own = taken[RANDOM.name, name, bench.host.name]
            line = f"{shape.key_size:4}{shape.entries:6}  {name:12}"
            line += "".join(f"{found[name, host.name]:>17.0f}" for host in counted) + f"{own * 1e9:>14.0f}"
            print(line + "".join(f"{own / taken[RANDOM.name, name, host.name]:>14.2f}" for host in hosts[1:]), flush=True)


def family_lines(bench: Bench, host: Host, shape: Shape) -> Iterator[str]:
    """The cost of each family, and its ratio to that of random keys."""
    keys = {family.name: (family, family.keys(shape.key_size, shape.entries)) for family in (RANDOM, *bench.families)}
    taken = costs.times(bench.rounds, [host], keys, COMPARED)
    counted = {
        name: costs.instructions(bench.count, [host], family, own, COMPARED) if bench.count else {} for name, (family, own) in keys.items()
    }
    for name in keys:
        line = f"{shape.key_size:4}{shape.entries:6}  {name:38}"
        for step in COMPARED:
            if bench.count:
                found, random = (counted[it][step, host.name] for it in (name, RANDOM.name))
                line += f"{found:>12.0f}{found / random:>8.2f}"
            line += f"{taken[name, step, host.name] / taken[RANDOM.name, step, host.name]:>8.2f}"
        yield line


def print_families(bench: Bench) -> None:
    columns = ", times" if bench.count else ""
    print(f"machine instructions a step, and how many times those of random keys{columns}; then the same of times")
    for host in (host for host in (*bench.hosts, *bench.beside) if host.counts):
        width = 28 if bench.count else 8
        print(f"{host.name:50}" + "".join(f"{step:>{width}}" for step in COMPARED))
        for shape in bench.shapes:
            for line in family_lines(bench, host, shape):
                print(line, flush=True)


def print_calls(bench: Bench) -> None:
    if not bench.count:
        return
    print("machine instructions of a helper's call, by " + ", ".join(host.name for host in bench.hosts))
    for shape in bench.shapes:
        for family in (RANDOM, *bench.families):
            keys = family.keys(shape.key_size, shape.entries)
            line = f"{shape.key_size:4}{shape.entries:6}  {family.name:38}"
            for helper in calls.HELPERS:
                if calls.can_be_called(helper, shape.key_size):
                    told = "".join(f"{calls.instructions(bench.count, host, keys, helper):>9.0f}" for host in bench.hosts)
                    line += f"{helper:>12}{told}"
            print(line, flush=True)


def print_steps(bench: Bench) -> None:
    print("the longest single step: which command on the map, its time and the median one over two pipes, its machine instructions")
    shapes = [shape for shape in bench.shapes if shape.entries == max(shape.entries for shape in bench.shapes)]
    for shape in shapes:
        for host in (host for host in (*bench.hosts, *bench.beside) if host.counts):
            for name, what, step in steps_of(bench, host, shape):
                told = "" if step.instructions is None else f"{step.instructions:>12}"
                told += "" if step.fills is None else f", the table filled anew {step.fills} times"
                line = f"{shape.key_size:4}{shape.entries:6}  {name:26}{host.name:12}{what:9}{step.frame:>7}"
                print(f"{line}{step.seconds * 1e6:>10.1f} µs{step.median * 1e6:>8.1f} µs{told}", flush=True)


def steps_of(bench: Bench, host: Host, shape: Shape) -> Iterator[tuple[str, str, steps.Step]]:
    """By the name of the keys and what is done with them."""
    knowing = [family for family in bench.families if family.knows_seed]
    for family, put_back in ((RANDOM, steps.PUT_BACK), *((family, steps.PUT_BACK_COLLIDING) for family in knowing)):
        keys = family.keys(shape.key_size, shape.entries)
        for what, step in steps.longest_steps(bench.count, host, keys, put_back):
            yield family.name, what, step
    if host in bench.hosts and knowing:
        yield "a crowd in one group", *steps.swept(bench.count, host, bench.seed, shape.key_size, shape.entries)


def main() -> None:
    given = arguments()
    bench = bench_of(given)
    printers = {"commands": print_commands, "keys": print_families, "calls": print_calls, "steps": print_steps}
    for part in PARTS:
        if given.only in (None, part):
            print(f"== {part}")
            printers[part](bench)


if __name__ == "__main__":
    main()
