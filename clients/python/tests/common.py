"""What tests share: the program under test, a time limit, and programs that pretend to be bpfhost."""

from __future__ import annotations

import os
import re
import signal
import stat
import sys
import tempfile
import unittest
from pathlib import Path

PROGRAM = os.environ.get("BPFHOST", "")
SECONDS = 180

# r0 = 1; exit: the program of the exchange in docs/PROTOCOL.md.
ONE = bytes.fromhex("b700000001000000 9500000000000000")
# r0 = *(u32 *)(r1 + 0); exit: the packet's length, by docs/INSTRUCTIONS.md.
LENGTH = bytes.fromhex("6110000000000000 9500000000000000")


def without_notice(told: bytes) -> bytes:
    """What a command has written, without the notice that its program was built without proofs: tests run with any program."""
    return re.sub(rb"(?m)^bpfhost: .* is built without proofs\n", b"", told)


def _hangs(_number: int, _frame: object) -> None:
    raise TimeoutError(f"a test takes longer than {SECONDS} seconds")


class TimedTest(unittest.TestCase):
    """A test with a time limit."""

    def setUp(self) -> None:
        signal.signal(signal.SIGALRM, _hangs)
        self.begin_limit()
        self.addCleanup(signal.alarm, 0)
        scratch = tempfile.TemporaryDirectory()
        self.addCleanup(scratch.cleanup)
        self.scratch = Path(scratch.name)

    @staticmethod
    def begin_limit() -> None:
        """Begins the time limit, or begins it again."""
        signal.alarm(SECONDS)

    def pretender(self, script: str) -> str:
        """A Python program that takes the place of bpfhost."""
        path = self.scratch / "pretender"
        path.write_text(f"#!{sys.executable}\nimport os, sys, time\nread = sys.stdin.buffer.read\n{script}\n")
        path.chmod(path.stat().st_mode | stat.S_IXUSR)
        return str(path)


@unittest.skipUnless(PROGRAM, "the variable BPFHOST names no program")
class HostTest(TimedTest):
    """A test that starts bpfhost."""
