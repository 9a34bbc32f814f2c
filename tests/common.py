"""What the checks share: the paths of the client in Python and of the benchmarks, numbers as bytes, and texts of calls and of a program with a lookup."""

import sys
from pathlib import Path

_TOP = Path(__file__).resolve().parents[1]
sys.path[:0] = [str(_TOP / folder) for folder in ("clients/python", "bench")]

# The descriptors that a tenant gets, in order.
MAP, SECOND, THIRD = 3, 4, 5

# Helpers.
LOOK_UP, UPDATE, DELETE = 1, 2, 3


def calls_with_key(helper: int, fd: int, key: int = -4) -> str:
    """The text of a call with a map and the key at an offset in the stack."""
    return f"r2 = r10\nr2 += {key}\nr1 = map_fd {fd} ll\ncall {helper}\n"


def updates(fd: int, flags: int = 0) -> str:
    """The text of an update, which sets the value at r10 - 16 under the key at r10 - 4."""
    return f"r2 = r10\nr2 += -4\nr3 = r10\nr3 += -16\nr1 = map_fd {fd} ll\nr4 = {flags}\ncall {UPDATE}\n"


# Returns the value at index 0 of an array.
READS_INDEX = f"""
*(u32 *)(r10 - 4) = 0
{calls_with_key(LOOK_UP, MAP)}
if r0 != 0 goto there
r0 = 0
exit
there:
r0 = *(u64 *)(r0 + 0)
exit
"""


def number(value: int, size: int) -> bytes:
    """A number as so many bytes, little-endian."""
    return value.to_bytes(size, "little")
