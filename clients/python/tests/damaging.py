"""Damages files that are read, for `tests.objects.damage` and `tests.damaged_captures`, and checks the outcome."""

from __future__ import annotations

import argparse
import contextlib
import os
import random
import signal
import tempfile
from collections import Counter
from collections.abc import Callable, Iterator, Sequence
from dataclasses import dataclass
from pathlib import Path

# A longer time counts as a hang.
SECONDS = 20


@dataclass(frozen=True)
class Original:
    """A good file, and the ranges of its bytes that matter."""

    name: str
    content: bytes
    places: tuple[range, ...]


@dataclass(frozen=True)
class Trial:
    """What to damage and what to try with it: `what` a file is, and its suffix.

    `read` returns the outcome of reading a file, and `command` that of a command, which calls the program of this path.
    """

    what: str
    ending: str
    originals: Callable[[random.Random, Path], Sequence[Original]]
    read: Callable[[Path], str]
    command: Callable[[Path, str], str]

    def run(self, count: int, seed: int, commands: int, program: str) -> Counter[str]:
        """Damages so many files, passes so many of them to the command, and counts the outcomes."""
        chance = random.Random(seed)
        counts: Counter[str] = Counter()
        with tempfile.TemporaryDirectory() as folder:
            path = Path(folder) / f"damaged{self.ending}"
            good = self.originals(chance, Path(folder))
            for number in range(count):
                original = chance.choice(good)
                path.unlink(missing_ok=True)
                path.write_bytes(damaged(original.content, original.places, chance))
                try:
                    counts[self.read(path)] += 1
                    if number < commands:
                        counts[self.command(path, program)] += 1
                except BaseException as error:
                    kept = keep(path, f"damaged-{original.name}-{seed}-{number}{self.ending}")
                    told = f"{self.what} {number} of seed {seed}, of {original.name}, kept as {kept}: {error!r}"
                    raise AssertionError(told) from error
        return counts

    def main(self, name: str, does: str, word: str) -> int:
        """Parses the arguments and runs the damage; the defaults are the numbers of files, and of those that a command gets."""
        parser = argparse.ArgumentParser(prog=name, description=f"Damages {self.what}s and {does} them.")
        parser.add_argument("--count", type=int, default=5000, help=f"so many {self.what}s")
        parser.add_argument("--seed", type=int, default=1, help="of the random numbers")
        parser.add_argument(f"--{word}s", type=int, default=0, help=f"so many of them for the command {word}")
        said = parser.parse_args()
        counts = self.run(said.count, said.seed, getattr(said, f"{word}s"), os.environ.get("BPFHOST", ""))
        print(", ".join(f"{count} {what}" for what, count in sorted(counts.items())))
        return 0


def damaged(good: bytes, places: Sequence[range], chance: random.Random) -> bytes:
    """The bytes with some damage, in one of these ranges each time."""
    content = bytearray(good)
    for _ in range(chance.choice((1, 1, 1, 2, 3, 8))):
        if not content:
            break
        at = min(chance.choice(chance.choice(places)), len(content) - 1)
        _damage(content, at, chance)
    return bytes(content)


def _damage(content: bytearray, at: int, chance: random.Random) -> None:
    """Changes the bytes from an offset on in one way."""
    size = chance.choice((1, 2, 4, 8))
    match chance.randrange(8):
        case 0 | 1 | 2:
            content[at] ^= 1 << chance.randrange(8)
        case 3:
            content[at : at + size] = chance.randbytes(size)[: len(content) - at]
        case 4:
            content[at : at + size] = chance.choice((b"\0", b"\xff", b"\x7f", b"\x80")) * min(size, len(content) - at)
        case 5:
            # Small numbers lead into other records more often than large ones.
            content[at] = chance.randrange(32)
        case 6:
            other = chance.randrange(len(content))
            content[at : at + size] = content[other : other + size]
        case _:
            del content[at if chance.random() < 0.5 else at + 1 + chance.randrange(len(content) - at) :]


class Hangs(BaseException):
    """Not an Exception, so that no code that catches those takes it for a result."""


def _hangs(_number: int, _frame: object) -> None:
    raise Hangs(f"it takes longer than {SECONDS} seconds")


@contextlib.contextmanager
def limit() -> Iterator[None]:
    """Ends what takes too long."""
    before = signal.signal(signal.SIGALRM, _hangs)
    left = signal.alarm(SECONDS)
    try:
        yield
    finally:
        signal.alarm(0)
        signal.signal(signal.SIGALRM, before)
        signal.alarm(left)


def keep(path: Path, name: str) -> Path:
    """A copy of a file by this name, in the folder of temporary files."""
    kept = Path(tempfile.gettempdir()) / name
    kept.write_bytes(path.read_bytes())
    return kept
