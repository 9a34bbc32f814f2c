#!/usr/bin/env python3
"""tests/failing_streams.py BPFHOST

Gives the built program standard streams that fail, a folder to read from and /dev/full to write to, and an argument that is not UTF-8. It
compares the status, the output and the fault line, as docs/CLI.md has them.
"""

from __future__ import annotations

import os
import subprocess
import sys
import tempfile
from dataclasses import dataclass

TEXT, SLOTS = b"r0 = 1\nexit\n", b"b700000001000000\n9500000000000000\n"
# PROG_LOAD of these slots, for tenant 0.
FRAME = bytes.fromhex("18000000 0000 0500 01000000 b700000001000000 9500000000000000")
SERVE = ("serve", "--tenants", "1")
READ, WRITE, WORDS = (3, b"", b"read fault\n"), (3, b"", b"write fault\n"), (2, b"", b"wrong words\n")


@dataclass(frozen=True)
class Case:
    """Arguments, the input or None for a folder, whether the output is full, and the status, the output and the fault line."""

    words: tuple[str | bytes, ...]
    given: bytes | None
    is_full: bool
    wanted: tuple[int, bytes, bytes]


CASES = [
    *(Case(words, None, False, READ) for words in (("asm",), ("dis",), ("verify",), SERVE)),
    *(Case(words, given, True, WRITE) for words, given in ((("asm",), TEXT), (("dis",), SLOTS), (("verify",), SLOTS), (SERVE, FRAME))),
    Case((b"\xff",), b"", False, WORDS),
    Case(("asm", b"\xff"), TEXT, False, WORDS),
]


def ended(program: str, case: Case) -> tuple[int, bytes, bytes]:
    """How the program ends."""
    folder = os.open("/", os.O_RDONLY)
    try:
        with tempfile.TemporaryFile() as given, open("/dev/full", "wb") as full:
            given.write(case.given or b"")
            given.seek(0)
            source = folder if case.given is None else given.fileno()
            output = full.fileno() if case.is_full else subprocess.PIPE
            done = subprocess.run([program, *case.words], stdin=source, stdout=output, stderr=subprocess.PIPE, check=False)
    finally:
        os.close(folder)
    return done.returncode, done.stdout or b"", done.stderr


def main() -> int:
    if len(sys.argv) != 2:
        print(__doc__, file=sys.stderr)
        return 2
    wrong = 0
    for case in CASES:
        found = ended(sys.argv[1], case)
        if found != case.wanted:
            print(f"failing streams: {case.words!r} ended with {found}, and not {case.wanted}")
            wrong += 1
    if not wrong:
        print(f"failing streams: {len(CASES)} runs, each with its status and fault line")
    return bool(wrong)


if __name__ == "__main__":
    sys.exit(main())
