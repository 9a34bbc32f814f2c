"""What both capture formats share: pieces of packets, and the time and the length of each packet."""

from __future__ import annotations

import os
import select
import stat
import zlib
from abc import ABC, abstractmethod
from array import array
from collections.abc import Callable, Generator, Iterator, Sequence
from dataclasses import dataclass, field, replace
from io import BufferedReader
from itertools import accumulate
from typing import TYPE_CHECKING, TypeVar

from bpfhost.errors import CaptureError
from bpfhost.numbers import LONGEST_PACKET
from bpfhost.packets import LEAST_WITH_TYPE, Packets

if TYPE_CHECKING:
    from gzip import GzipFile

# How many bytes of a capture are read at once: enough for a piece of packets of usual lengths, so that its own cost is small compared
# with theirs, and few enough to stay in the processor's cache until they are sent.
_CHUNK = 1 << 19
# The most packets of a piece.
MOST_PACKETS = 1024

# A greater length is rejected as damaged: no capture of network packets has one (MAXIMUM_SNAPLEN of libpcap).
LONGEST_CAPTURED = 262_144

SomePiece = TypeVar("SomePiece", bound="Piece")
Comments = Sequence[bytes]


@dataclass(frozen=True)
class Stamp:
    """When a packet was captured, and its length on the wire; the capture may have fewer bytes."""

    seconds: int
    nanoseconds: int
    length: int


@dataclass(frozen=True)
class Piece(Packets, ABC):
    """Packets of a capture.

    `wires[i]` is the length of packet i on the wire, according to the capture; it is `lengths` if all packets are whole. `is_cut` says that
    the capture has more bytes of some packets. `whole` is for a packet that is longer than test runs take: the bytes that the capture has
    of it. Such a packet is a piece of its own, and `lengths` has the length that a test run takes. `begun[i]` has the first bytes of packet
    i, equally many of each, if they were read along with its header; if the packet is shorter, other bytes of the capture follow.
    """

    wires: list[int] = field(kw_only=True)
    whole: int | None = field(kw_only=True, default=None)
    is_cut: bool = field(kw_only=True, default=False)
    begun: list[bytes] | None = field(kw_only=True, default=None)

    @abstractmethod
    def stamp(self, at: int) -> Stamp:
        """The time and the length of a packet."""

    def comments(self, at: int) -> Comments:
        """The comments that the capture has on a packet, in UTF-8."""
        return ()

    def interface_comments(self, at: int) -> Comments:
        """The comments on the interface that a packet came from."""
        return ()

    def shorts(self) -> int:
        """How many packets have fewer bytes in the capture than on the wire."""
        captured = self.lengths if self.whole is None else [self.whole]
        return sum(1 for length, wire in zip(captured, self.wires) if wire > length)

    def padded(self) -> Packets:
        """The packets with their length on the wire, or the most that a test run takes: zeros follow the bytes that the capture has."""
        lengths = [max(length, min(wire, LONGEST_PACKET)) for length, wire in zip(self.lengths, self.wires)]
        joined = b"".join([packet.ljust(length, b"\0") for packet, length in zip(self, lengths)])
        types = self.types if min(self.lengths) >= LEAST_WITH_TYPE else None
        return Packets(joined, list(accumulate(lengths, initial=0))[: len(lengths)], lengths, self.link_type, types)

    def beginnings(self, reach: int) -> Packets:
        """The packets without what follows the first bytes of each, up to a number."""
        if self.longest <= reach:
            return self
        lengths = [reach] * len(self)
        if reach == 0:
            bodies = [b""] * len(self)
        elif self.begun and len(self.begun[0]) == reach:
            bodies = list(self.begun)
        else:
            bodies = [self.data[start : start + reach] for start in self.starts]
        if self.shortest < reach:
            for at in [at for at, length in enumerate(self.lengths) if length < reach]:
                lengths[at] = self.lengths[at]
                bodies[at] = bodies[at][: lengths[at]]
        return Packets(self.data, self.starts, lengths, self.link_type, self.types, bodies)

    def within(self: SomePiece, longest: int) -> SomePiece:
        """The packets, of each the first bytes up to a number."""
        if (self.longest if self.whole is None else self.whole) <= longest:
            return self
        whole = None if self.whole is None or longest <= LONGEST_PACKET else longest
        return replace(self, lengths=[min(length, longest) for length in self.lengths], whole=whole, is_cut=True)

    def records(self, kept: Sequence[int], has_nanoseconds: bool) -> bytes | memoryview | None:
        """The packets of these numbers as a pcap file has them, if the capture has them in the same bytes."""
        return None

    def captured(self, at: int, longest: int) -> bytes:
        """The first bytes of a packet that the capture has, at most `longest`."""
        length = self.lengths[at] if self.whole is None else self.whole
        return self.data[self.starts[at] : self.starts[at] + min(length, longest)]

    def _some(self: SomePiece, at: int, end: int) -> SomePiece:
        some = super()._some(at, end)
        begun = None if self.begun is None else self.begun[at:end]
        return replace(some, wires=some.lengths if self.wires is self.lengths else self.wires[at:end], begun=begun)


def low_first(types: list[int], order: str) -> list[int]:
    """The little-endian numbers of pairs of bytes, which were read in a byte order of the struct module."""
    if order == "<":
        return types
    swapped = array("H", types)
    swapped.byteswap()
    return swapped.tolist()


@dataclass(frozen=True)
class Nothing(Piece):
    """No packets: what a capture yields after a while without any."""

    def stamp(self, at: int) -> Stamp:
        raise IndexError(at)


class Capture(ABC):
    """A capture that is read from start to end.

    If `seconds` is set, a capture that comes through a pipe yields an empty piece each time nothing has arrived for so long.
    """

    seconds: float | None = None
    # How many of the first bytes of each packet the reader needs, if it needs no others until the packet is kept.
    reach: int | None = None
    # Whether timestamps are finer than microseconds.
    has_nanoseconds = False
    # The first link type of the capture, once it is read, with the bits above it, and its snapshot length in bytes.
    link_type: int | None = None
    link_type_bits = 0
    longest = LONGEST_PACKET
    # What comes before the packets of the file: the header of a pcap file, or the blocks of a section and of its first interface.
    savefile: bytes | None = None

    def __init__(self, name: str, file: BufferedReader | GzipFile, begun: bytes) -> None:
        """Reads nothing; `begun` has the bytes that were already read."""
        self.name = name
        self._file = file
        self._rest = begun
        self.bytes_read = len(begun)
        self.packets_read = 0
        # The comments on the sections that were read.
        self.comments: list[bytes] = []

    @abstractmethod
    def _next_piece(self, data: bytes, at: int, most: int) -> tuple[Piece | None, int]:
        """The whole packets in bytes from `at` on, up to a number, and the offset after them; None if no whole packet is left.

        Raises CaptureError if the bytes at `at` are wrong.
        """

    def pieces(self, most: int = MOST_PACKETS) -> Iterator[Piece]:
        """Yields the packets in pieces, in order. Raises CaptureError after the last packet before a fault."""
        while len(data := self._with_more(self._rest)) > len(self._rest):
            at = yield from self._pieces_in(data, most)
            self._rest = data[at:]
            while self._is_quiet():
                yield Nothing(b"", [], [], wires=[])
        if self._rest:
            raise self._cut_off()

    def _pieces_in(self, data: bytes, most: int) -> Generator[Piece, None, int]:
        """Yields the pieces in bytes; returns the offset after the last one."""
        at = 0
        while True:
            piece, at = self._next_piece(data, at, most)
            if piece is None:
                return at
            self.packets_read += len(piece)
            yield piece

    def _is_quiet(self) -> bool:
        """Whether nothing arrives through a pipe for a while; all that was read of it has been used by then."""
        if self.seconds is None or not isinstance(self._file, BufferedReader) or self._file.seekable():
            return False
        return not select.select([self._file], [], [], self.seconds)[0]

    def _with_more(self, rest: bytes) -> bytes:
        """The bytes that were read last, and what follows; nothing follows at the end of the file.

        If the file can seek, they are read again, which is cheaper than to join them with as many new bytes. From a pipe it takes what is
        there, so that nobody waits for packets that are still to come.
        """
        more = max(_CHUNK, 2 * len(rest))
        if not self._file.seekable():
            return rest + (self._read(more) if len(rest) > _CHUNK else self._read(more, self._file.read1))
        try:
            self._file.seek(-len(rest), os.SEEK_CUR)
        except OSError as error:
            raise self.error(error.strerror or "it can't be read") from error
        self.bytes_read -= len(rest)
        return self._read(more)

    def size(self) -> int | None:
        """The size of the file, or None if it is not a regular file, or compressed."""
        if not isinstance(self._file, BufferedReader):
            return None
        status = os.fstat(self._file.fileno())
        return status.st_size if stat.S_ISREG(status.st_mode) else None

    def dropped(self) -> int:
        """How many packets were lost because they were not read in time: none in a file."""
        return 0

    def error(self, fault: str) -> CaptureError:
        """The error for a fault of the file."""
        return CaptureError(f"{self.name}: {fault}")

    def _read(self, size: int, by: Callable[[int], bytes] | None = None) -> bytes:
        try:
            read = (by or self._file.read)(size)
        except (EOFError, zlib.error) as error:
            raise self._damaged() from error
        except OSError as error:
            # That compressed bytes are wrong is an error without a number (gzip.BadGzipFile).
            if error.errno is None:
                raise self._damaged() from error
            raise self.error(error.strerror or "it can't be read") from error
        self.bytes_read += len(read)
        return read

    def _damaged(self) -> CaptureError:
        return self.error(f"its compressed bytes are damaged or cut off after packet {self.packets_read:,}")

    def _next_packet(self) -> str:
        return f"packet {self.packets_read + 1:,}"

    def _cut_off(self) -> CaptureError:
        return self.error(f"it is cut off in {self._next_packet()}")

    def _too_long(self, length: int) -> CaptureError:
        return self.error(
            f"{self._next_packet()} has {length:,} bytes, and no capture has one of more than {LONGEST_CAPTURED:,}"
        )
