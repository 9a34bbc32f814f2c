#!/usr/bin/env python3
"""Frames and their replies, in bytes and in words: the exchange of docs/PROTOCOL.md, and another tenant that asks for its program.

usage: example.py BPFHOST
"""

from __future__ import annotations

import sys
from pathlib import Path

sys.path.insert(0, str(Path(__file__).resolve().parents[2] / "clients/python"))
from bpfhost import Reply, frames, read_replies, serve

# The program's instructions, each with its slot.
PROGRAM = {"r0 = 1": "b700000001000000", "exit": "9500000000000000"}
# The first descriptor of a tenant.
FIRST = 3


def asked() -> list[tuple[str, bytes]]:
    """What each frame asks for, and the frame."""
    load, run = frames.prog_load(0, bytes.fromhex("".join(PROGRAM.values()))), frames.prog_test_run
    return [
        ("tenant 0: PROG_LOAD, a socket filter: " + "; ".join(PROGRAM), load),
        (f"tenant 0: PROG_TEST_RUN of descriptor {FIRST}, no words of context, no packet", run(0, FIRST)),
        (f"tenant 1: PROG_TEST_RUN of descriptor {FIRST}, which only tenant 0 has", run(1, FIRST)),
    ]


def spelled(octets: bytes) -> str:
    """Bytes as the pages write them: length, tenant, command, words; zeros at the end are given by their number."""
    digits, zeros = octets.hex(), len(octets) - len(octets.rstrip(b"\0"))
    if zeros > 16:
        digits = digits[: 2 * (len(octets) - zeros + -(len(octets) - zeros) % 4)]
    fields = [digits[:8], digits[8:12], digits[12:16], *(digits[at : at + 8] for at in range(16, len(digits), 8))]
    rest = len(octets) - len(digits) // 2
    return " ".join(fields) + (f" and {rest} zero bytes" if rest else "")


def show(words: str, frame: bytes, reply: Reply) -> None:
    print(words)
    print("  is answered:", reply.says())
    print("  frame ", spelled(frame))
    print("  reply ", spelled(reply.to_bytes()))


def main() -> None:
    if len(sys.argv) != 2:
        sys.exit("usage: example.py BPFHOST")
    pairs = asked()
    replies = list(read_replies(serve(sys.argv[1], 2, b"".join(frame for _, frame in pairs))))
    for (words, frame), reply in zip(pairs, replies, strict=True):
        show(words, frame, reply)


main()
