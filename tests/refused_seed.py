#!/usr/bin/env python3
"""Refuses random bytes to a built bpfhost, one call at a time, and compares what it does.
usage: refused_seed.py BPFHOST LIBRARY

`serve` draws the seed of its hash maps by some calls. Each of them is refused in a run of its own. `serve` has to exit with
`no random seed`, and may read and write nothing; wrong arguments have to be reported as usual, and the other subcommands have to work
without a seed.
"""

from __future__ import annotations

import subprocess
import sys
import tempfile
from collections.abc import Sequence
from dataclasses import dataclass
from pathlib import Path

sys.dont_write_bytecode = True

from common import MAP, READS_INDEX, number  # noqa: E402
from refusals import Ended, Refusals, ends  # noqa: E402
from bpfhost import MapType, assemble, frames, hex_lines  # noqa: E402

SERVE = ["serve", "--tenants", "1"]
NO_SEED: Ended = (3, b"", b"no random seed\n")
WRONG_WORDS: Ended = (2, b"", b"wrong words\n")

# A frame for each command on a hash map.
STREAM = b"".join(
    [
        frames.map_create(0, MapType.HASH, 4, 8, 4),
        frames.map_update_elem(0, MAP, number(1, 4), number(6, 8)),
        frames.map_lookup_elem(0, MAP, number(1, 4)),
        frames.map_get_next_key(0, MAP),
        frames.map_delete_elem(0, MAP, number(1, 4)),
    ]
)


class Differs(Exception):
    """The program does not do what it has to do without a seed."""


Served = tuple[Ended, int]


def serves(bpfhost: str, stream: Path) -> Served:
    """The status and output of `serve`, and how many bytes of its input it read."""
    with stream.open("rb", buffering=0) as given:
        ended = subprocess.run([bpfhost, *SERVE], stdin=given, capture_output=True, timeout=60, check=False)
        return (ended.returncode, ended.stdout, ended.stderr), given.tell()


@dataclass(frozen=True)
class Other:
    """A run that needs no seed."""

    words: Sequence[str]
    given: bytes
    wanted: Ended

    def check(self, bpfhost: str) -> None:
        ended = ends(bpfhost, self.words, self.given)
        if ended != self.wanted:
            raise Differs(f"{' '.join(self.words)}: {ended}")


def others(bpfhost: str) -> list[Other]:
    """Runs that need no seed, with their outcomes when random bytes are available."""
    lines = hex_lines(assemble(bpfhost, READS_INDEX)).encode()
    runs = [(["asm"], READS_INDEX.encode()), (["dis"], lines), (["verify", f"{MAP}:array:4:8:1"], lines)]
    answers = [Other(words, given, ends(bpfhost, words, given)) for words, given in runs]
    if any(other.wanted[0] for other in answers):
        raise Differs("a subcommand fails though random bytes are available")
    return [*answers, Other(["serve", "--tenants", "0"], STREAM, WRONG_WORDS)]


def check_calls(bpfhost: str, refusals: Refusals, stream: Path, wanted: Served, unseeded: Sequence[Other]) -> int:
    """How many calls for a seed there are. Each was refused in a run of its own."""
    for call in refusals.runs():
        served = serves(bpfhost, stream)
        if served != ((NO_SEED, 0) if refusals.refused() else wanted):
            raise Differs(f"serve, call {call}: {served}")
        for other in unseeded:
            other.check(bpfhost)
    return call - 1


def main() -> None:
    _, bpfhost, library = sys.argv
    unseeded = others(bpfhost)
    with tempfile.TemporaryDirectory() as folder:
        stream = Path(folder) / "stream"
        stream.write_bytes(STREAM)
        wanted = serves(bpfhost, stream)
        if wanted[0][0] or wanted[0][2] or wanted[1] != len(STREAM):
            raise Differs(f"serve, with random bytes: {wanted}")
        calls = check_calls(bpfhost, Refusals(library, folder), stream, wanted, unseeded)
    if not calls:
        raise Differs("serve asks getentropy for no seed")
    print(f"seed: {calls} refusals, each reported before a frame is read")


if __name__ == "__main__":
    try:
        main()
    except Differs as error:
        sys.exit(f"refused seed: {error}")
