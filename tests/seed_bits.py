#!/usr/bin/env python3
"""Changes each single bit of a built bpfhost's seed, and counts what that changes.
usage: seed_bits.py BPFHOST LIBRARY

`serve` takes the seed of its hash maps from the system, sixteen bytes; here choose_seeds.c returns them. `serve` adds keys to a hash map
and looks up each of them, with one seed and with each seed that differs from it in one bit. No reply may change. But with another seed
the keys are at other places in the table of the map, and other keys collide. So valgrind has to count other numbers of machine
instructions, of loads, of stores or of misses in the small caches that it simulates; and the same numbers again with the same seed, except
for a few misses.
"""

from __future__ import annotations

import os
import re
import shutil
import subprocess
import sys
import tempfile
from operator import le, sub
from pathlib import Path

sys.dont_write_bytecode = True

from common import MAP, number  # noqa: E402
from refusals import ends  # noqa: E402
from bpfhost import MapType, frames  # noqa: E402

SERVE = ["serve", "--tenants", "1"]
KEYS = 500

# Small caches with one line for each address: how often they miss depends on the places of the keys.
VALGRIND = [
    *["valgrind", "--tool=callgrind", "--callgrind-out-file=/dev/null", "--vgdb=no", "--zero-before=seed_is_chosen"],
    *["--cache-sim=yes", "--I1=1024,1,64", "--D1=1024,1,64", "--LL=32768,1,64"],
]

BITS = 128
# Digits of pi: two words that are not related.
BASE = 0x243F6A8885A308D3_13198A2E03707344

# Numbers of machine instructions, loads and stores, and for each of them the misses of both caches.
Counts = tuple[int, ...]
# The first three; and by how many the misses of one seed may differ.
EXACT, MOST_APART = 3, 10


class Differs(Exception):
    """A bit changes nothing, or the counts can't be compared."""


def stream() -> bytes:
    """Adds keys to a hash map, and looks each of them up."""
    keys = [number(key, 4) for key in range(KEYS)]
    added = [frames.map_update_elem(0, MAP, key, number(1, 8)) for key in keys]
    looked_up = [frames.map_lookup_elem(0, MAP, key) for key in keys]
    return b"".join([frames.map_create(0, MapType.HASH, 4, 8, KEYS), *added, *looked_up])


def counted(bpfhost: str, library: str, folder: Path, seeds: list[int]) -> list[Counts]:
    """What valgrind counts with each seed. The replies are those without the library."""
    given, chosen = folder / "stream", folder / "seeds"
    given.write_bytes(stream())
    chosen.write_bytes(b"".join(number(seed, BITS // 8) for seed in seeds))
    _, replies, _ = ends(bpfhost, SERVE, stream())
    environment = os.environ | {"LD_PRELOAD": str(Path(library).resolve()), "SEEDS": str(chosen)}
    with given.open("rb") as frames_given:
        command = [*VALGRIND, bpfhost, *SERVE]
        ended = subprocess.run(command, stdin=frames_given, capture_output=True, env=environment, timeout=600, check=False)
    said = ended.stderr.decode(errors="replace")
    found = re.findall(r"Collected : ([\d ]+)", said)
    # the last counts are those of the process that forks the others
    if ended.returncode or len(found) != len(seeds) + 1:
        raise Differs(f"valgrind ends with {ended.returncode} and {len(found)} counts: {said[-1000:]}")
    if ended.stdout != replies * len(seeds):
        raise Differs("a reply depends on the seed")
    return [tuple(map(int, counts.split())) for counts in found[: len(seeds)]]


def ignored_bits(same: list[Counts], changed: list[Counts]) -> list[int]:
    """The bits that change no count beyond those of `BASE`, of which there are several.

    Instructions, loads and stores are the same each time. Misses also depend on what the process that forks the others has used before.
    """
    least, most = (tuple(map(function, zip(*same))) for function in (min, max))
    if least[:EXACT] != most[:EXACT] or max(map(sub, most, least)) > MOST_APART:
        raise Differs(f"with the same seed, valgrind counts {' and '.join(map(str, same))}")
    return [bit for bit, found in enumerate(changed) if all(map(le, least, found)) and all(map(le, found, most))]


def main() -> None:
    _, bpfhost, library = sys.argv
    if not shutil.which("valgrind"):
        print("seed bits: skipped, as valgrind is missing")
        return
    half = BITS // 2
    flipped = [BASE ^ 1 << bit for bit in range(BITS)]
    with tempfile.TemporaryDirectory() as folder:
        # the first run finds the caches in another state than the later ones, so it is not compared
        seeds = [BASE, BASE, *flipped[:half], BASE, *flipped[half:], BASE]
        _, first, *counts = counted(bpfhost, library, Path(folder), seeds)
    ignored = ignored_bits([first, counts[half], counts[-1]], counts[:half] + counts[half + 1 : -1])
    if ignored:
        raise Differs(f"{len(ignored)} of {BITS} bits change nothing: {', '.join(map(str, ignored))}")
    print(f"seed bits: each of {BITS} bits changes what valgrind counts, and none changes a reply")


if __name__ == "__main__":
    try:
        main()
    except Differs as error:
        sys.exit(f"seed bits: {error}")
