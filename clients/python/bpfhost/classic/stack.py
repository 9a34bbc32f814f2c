"""The stack layout of a translation, as offsets from the stack's upper end: a buffer for one load, scratch memory, headers."""

from __future__ import annotations

from collections.abc import Sequence

from bpfhost.classic.instructions import SCRATCH_WORDS
from bpfhost.classic.steps import Headers, LoadHeader

BUFFER = -8
# At most so many bytes of headers are copied to the stack.
MOST_HEADERS = 128


def scratch(word: int) -> int:
    """The offset of a word of scratch memory; the first one is right below the buffer."""
    return BUFFER - 4 * (word + 1)


# Headers are below the last word.
_HEADERS_END = scratch(SCRATCH_WORDS - 1)


class Layout:
    """The offset of the packet's headers, so that as many loads as possible are aligned, since the verifier needs aligned loads."""

    def __init__(self, headers: Sequence[Headers], loads: Sequence[LoadHeader]) -> None:
        """Computes a layout for these headers, and for the loads that are in the program."""
        end = max((each.end for each in headers), default=0)
        # The offset of the packet's byte 0 is one of four; the first byte that is fetched may be far above it.
        self._byte_0 = min(range(_HEADERS_END - end - 3, _HEADERS_END - end + 1), key=lambda at: self._pieces(at, loads))

    @staticmethod
    def _pieces(byte_0: int, loads: Sequence[LoadHeader]) -> int:
        return sum(len(pieces(byte_0 + load.offset, load.size)) for load in loads)

    def place(self, offset: int) -> int:
        """The offset of a byte of the packet."""
        return self._byte_0 + offset


def pieces(place: int, size: int) -> list[tuple[int, int]]:
    """Splits a load into aligned ones, each with its offset and its size."""
    found = []
    end = place + size
    while place < end:
        whole = next(each for each in (4, 2, 1) if place % each == 0 and place + each <= end)
        found.append((place, whole))
        place += whole
    return found
