"""`replies`, `load` and `test-run`: frames and replies as a stream."""

from __future__ import annotations

import argparse
import sys

from bpfhost import frames
from bpfhost.program import slots_of
from bpfhost.replies import read_replies


def show_replies(_said: argparse.Namespace) -> int:
    """Prints the replies on standard input, one on each line."""
    for reply in read_replies(sys.stdin.buffer.read()):
        print(reply)
    return 0


def write_load(said: argparse.Namespace) -> int:
    """Writes a frame that loads the hex lines on standard input."""
    # Input that is not even text is reported with its line, as is every line that is not a slot.
    lines = sys.stdin.buffer.read().decode(errors="replace")
    sys.stdout.buffer.write(frames.prog_load(said.tenant, slots_of(lines)))
    return 0


def write_test_run(said: argparse.Namespace) -> int:
    """Writes a frame that runs a program on a packet."""
    sys.stdout.buffer.write(frames.prog_test_run(said.tenant, said.descriptor, said.packet))
    return 0
