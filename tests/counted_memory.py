#!/usr/bin/env python3
"""Counts the calls for memory of a built bpfhost, frame by frame, and compares its replies with those of a model.
usage: counted_memory.py BPFHOST LIBRARY

Only a new map and a load may call for memory. The frames are those of full_maps.py: they fill hash maps of keys of all kinds, delete, add
again, walk and run programs that delete and add, with keys that all collide, so that the maps' tables are filled anew. If there is
valgrind, it is counted how often that happens.
"""

from __future__ import annotations

import os
import struct
import subprocess
import sys
import tempfile
from collections import Counter
from collections.abc import Mapping, Sequence
from pathlib import Path

sys.dont_write_bytecode = True

from full_maps import KEY_SIZES, Asked, streams  # noqa: E402
from bpfhost import Command, read_replies  # noqa: E402
from profiles import FILLS_ANEW, calls_of  # noqa: E402

TENANTS = 2
SERVE = ["serve", "--tenants", str(TENANTS)]
MAY_CALL = (Command.MAP_CREATE, Command.PROG_LOAD)


class Differs(Exception):
    """A reply that is not the model's, or a call for memory in a command that needs none."""


def serves(words: Sequence[str], stream: Path, environment: Mapping[str, str]) -> bytes:
    with stream.open("rb") as frames:
        return subprocess.run(words, stdin=frames, stdout=subprocess.PIPE, env=environment, timeout=300, check=True).stdout


def check_replies(asked: Sequence[Asked], told: bytes) -> None:
    replies = [reply.to_bytes() for reply in read_replies(told)]
    for at, (ask, reply) in enumerate(zip(asked, replies)):
        if reply != ask.reply:
            raise Differs(f"frame {at}, {ask.frame[:40].hex()}: {reply[:40].hex()}, and the model has {ask.reply[:40].hex()}")
    if len(replies) != len(asked):
        raise Differs(f"{len(replies)} replies to {len(asked)} frames")


def check_calls(asked: Sequence[Asked], counts: Sequence[int]) -> None:
    """No calls but in new maps and loads, which have some. A reply is one write."""
    if len(counts) != len(asked):
        raise Differs(f"{len(counts)} writes for {len(asked)} replies")
    seen: Counter[int] = Counter()
    for at, (ask, count) in enumerate(zip(asked, counts)):
        seen[ask.command] += count
        if count and ask.command not in MAY_CALL:
            raise Differs(f"frame {at}, {Command(ask.command).name}: {count} calls for memory")
    if not all(seen[command] for command in MAY_CALL):
        raise Differs("no call for memory is counted")
    told = ", ".join(f"{seen[command]} in {command.name}" for command in MAY_CALL)
    print(f"counted memory: {len(asked)} frames; calls for memory: {told}, none in other commands")


def count_fills(bpfhost: str, stream: Path, environment: Mapping[str, str]) -> None:
    """A table is filled anew at least once for each size of keys."""
    fills = calls_of(FILLS_ANEW, [bpfhost, *SERVE], stream, environment)
    if fills is None:
        print("counted memory: how often tables are filled anew is left out, as valgrind or the program's symbols are missing")
    elif fills < len(KEY_SIZES):
        raise Differs(f"tables are filled anew {fills} times, in maps of {len(KEY_SIZES)} sizes of keys")
    else:
        print(f"counted memory: tables are filled anew {fills} times")


def main() -> None:
    _, bpfhost, library = sys.argv
    asked = list(streams(bpfhost, TENANTS))
    with tempfile.TemporaryDirectory() as name:
        folder = Path(name)
        stream, counted = folder / "stream", folder / "counted"
        stream.write_bytes(b"".join(ask.frame for ask in asked))
        environment = {**os.environ, "LD_PRELOAD": str(Path(library).resolve()), "COUNTED_FILE": str(counted)}
        check_replies(asked, serves([bpfhost, *SERVE], stream, environment))
        check_calls(asked, [count for (count,) in struct.iter_unpack("<Q", counted.read_bytes())])
        count_fills(bpfhost, stream, environment)


if __name__ == "__main__":
    try:
        main()
    except Differs as error:
        sys.exit(f"counted memory: {error}")
