"""Runs of a program in which one call of the system is refused: the first, the second, and so on until a run makes fewer."""

from __future__ import annotations

import itertools
import os
import subprocess
from collections.abc import Iterator, Sequence
from pathlib import Path

# A program's status, and its output.
Ended = tuple[int, bytes, bytes]


class Refusals:
    """Refuses by a library that is loaded before the C library: refuse_memory.c or refuse_seed.c."""

    def __init__(self, library: str, folder: str) -> None:
        self._told = Path(folder) / "refused"
        os.environ["LD_PRELOAD"] = str(Path(library).resolve())
        os.environ["REFUSED_FILE"] = str(self._told)

    def runs(self) -> Iterator[int]:
        """The number of the refused call, for each run. It ends after a run in which no call was refused."""
        for call in itertools.count(1):
            os.environ["REFUSED_CALL"] = str(call)
            self._told.unlink(missing_ok=True)
            yield call
            if not self._told.exists():
                return

    def refused(self) -> bool:
        return self._told.exists()


def ends(program: str, words: Sequence[str], given: bytes) -> Ended:
    ended = subprocess.run([program, *words], input=given, capture_output=True, timeout=60, check=False)
    return ended.returncode, ended.stdout, ended.stderr
