"""Writes captures, in the pcap or the pcapng format."""

from __future__ import annotations

import contextlib
import os
import struct
from abc import ABC, abstractmethod
from collections import Counter
from collections.abc import Iterator, Sequence
from itertools import compress
from types import TracebackType
from typing import BinaryIO

from bpfhost.captures.piece import LONGEST_CAPTURED, Comments, Piece
from bpfhost.errors import CaptureError
from bpfhost.packets import ETHERNET

# A pcap file: its header, from the magic number to the link type, and a packet's header.
_HEADER, _RECORD = struct.Struct("<IHHiIII"), struct.Struct("<IIII")
_MAGIC, _MAGIC_OF_NANOSECONDS = 0xA1B2C3D4, 0xA1B23C4D
# A pcapng file: the bytes around the body of a block, types of blocks, and codes of options.
_AROUND_BODY, _SECTION, _INTERFACE, _ENHANCED = 12, 0x0A0D0D0A, 1, 6
_COMMENT, _RESOLUTION = 1, 9
_NANOSECONDS, _MICROSECONDS = 9, 6
# A file with this suffix is written as pcapng, and any other file as pcap.
_PCAPNG = ".pcapng"


class _Format(ABC):
    """A format in which packets are written."""

    @abstractmethod
    def begun(self, link_type: int, comments: Comments) -> bytes:
        """The file's header, if its first packet has this link type, with comments."""

    @abstractmethod
    def has_room(self, link_type: int) -> bool:
        """Whether the file takes packets of a link type."""

    @abstractmethod
    def record(self, piece: Piece, at: int, longest: int) -> bytes:
        """A packet, of which at most `longest` bytes are kept. Raises struct.error if its time does not fit."""

    def records(self, piece: Piece, kept: Sequence[int]) -> bytes | memoryview | None:
        """Packets in full, if the piece has them in this format already."""
        return None


class _Pcap(_Format):
    def __init__(self, has_nanoseconds: bool, longest: int, bits: int, header: bytes | None) -> None:
        self._longest, self._bits, self._header = longest, bits, header
        self._magic = _MAGIC_OF_NANOSECONDS if has_nanoseconds else _MAGIC
        self._part = 1 if has_nanoseconds else 1000
        self._link_type = -1

    def begun(self, link_type: int, comments: Comments) -> bytes:
        self._link_type = link_type
        return self._header or _HEADER.pack(self._magic, 2, 4, 0, 0, self._longest, link_type | self._bits)

    def has_room(self, link_type: int) -> bool:
        return link_type == self._link_type

    def records(self, piece: Piece, kept: Sequence[int]) -> bytes | memoryview | None:
        return piece.records(kept, self._part == 1)

    def record(self, piece: Piece, at: int, longest: int) -> bytes:
        stamp, packet = piece.stamp(at), piece.captured(at, longest)
        return _RECORD.pack(stamp.seconds, stamp.nanoseconds // self._part, len(packet), stamp.length) + packet


class _Pcapng(_Format):
    """Each link type is an interface, whose block comes before its first packet."""

    def __init__(self, has_nanoseconds: bool, longest: int) -> None:
        self._longest = longest
        self._digits = _NANOSECONDS if has_nanoseconds else _MICROSECONDS
        self._interfaces: dict[int, int] = {}

    def begun(self, link_type: int, comments: Comments) -> bytes:
        return _block(_SECTION, struct.pack("<IHHq", 0x1A2B3C4D, 1, 0, -1) + _options([(_COMMENT, each) for each in comments]))

    def has_room(self, link_type: int) -> bool:
        return link_type < 2**16

    def record(self, piece: Piece, at: int, longest: int) -> bytes:
        stamp, packet = piece.stamp(at), piece.captured(at, longest)
        described = b"" if piece.link_type in self._interfaces else self._described(piece, at)
        ticks = stamp.seconds * 10**self._digits + stamp.nanoseconds // 10 ** (9 - self._digits)
        head = struct.pack("<5I", self._interfaces[piece.link_type], ticks >> 32, ticks & 0xFFFF_FFFF, len(packet), stamp.length)
        options = _options([(_COMMENT, each) for each in piece.comments(at)])
        return described + _block(_ENHANCED, head + packet + bytes(-len(packet) % 4) + options)

    def _described(self, piece: Piece, at: int) -> bytes:
        self._interfaces[piece.link_type] = len(self._interfaces)
        comments = [(_COMMENT, each) for each in piece.interface_comments(at)]
        head = struct.pack("<HxxI", piece.link_type, self._longest)
        return _block(_INTERFACE, head + _options([(_RESOLUTION, bytes([self._digits])), *comments]))


def _block(kind: int, body: bytes) -> bytes:
    """A block of a pcapng file, whose body has whole words."""
    length = struct.pack("<I", _AROUND_BODY + len(body))
    return struct.pack("<I", kind) + length + body + length


def _options(options: list[tuple[int, bytes]]) -> bytes:
    """Options by their codes, with the end of options after them; nothing if there are none."""
    written = [struct.pack("<HH", code, len(value)) + value + bytes(-len(value) % 4) for code, value in options]
    return b"".join([*written, bytes(4)]) if written else b""


class CaptureWriter:
    """A little-endian capture of packets, with their times and their lengths on the wire.

    It is a pcapng file if its name ends with `.pcapng`, and else a pcap file, whose link type is that of the first packet, or the given one
    if there are no packets. `longest` is the snapshot length in the file's header, `link_type_bits` has what is above the link type in the
    header of a pcap file, and `header` is that whole header, if it is known, for packets of one link type. A pcapng file has `comments`, and
    those on packets and interfaces. A fault does not end the run, but is kept in `fault`: a
    packet of another link type or with a time that does not fit, which is left out and counted, or a file that can't be written, to which
    nothing more is written. As a context manager it raises the fault at its end.
    """

    def __init__(
        self,
        path: str | os.PathLike[str],
        has_nanoseconds: bool,
        file: BinaryIO | None = None,
        *,
        link_type: int = ETHERNET,
        longest: int = LONGEST_CAPTURED,
        link_type_bits: int = 0,
        header: bytes | None = None,
        comments: Comments = (),
    ) -> None:
        """Creates or replaces the file. Raises CaptureError if that fails. If `file` is given, it is written to instead."""
        self.name = os.fspath(path)
        self._is_pcapng = self.name.endswith(_PCAPNG)
        self._format: _Format = (
            _Pcapng(has_nanoseconds, longest) if self._is_pcapng else _Pcap(has_nanoseconds, longest, link_type_bits, header)
        )
        self._link_type = link_type
        self._comments = comments
        self._has_begun = False
        self._is_own = file is None
        self._failed: CaptureError | None = None
        self._others: Counter[int] = Counter()
        self._without_time = 0
        try:
            self._file = file or open(path, "wb")
        except OSError as error:
            raise CaptureError(f"{self.name}: {error.strerror}") from error

    def __enter__(self) -> CaptureWriter:
        return self

    def __exit__(self, kind: type[BaseException] | None, _error: BaseException | None, _trace: TracebackType | None) -> None:
        self.end()
        if kind is None and (fault := self.fault):
            raise fault

    def end(self) -> None:
        """Writes what is buffered, and closes the file."""
        if not self._has_begun:
            self._write(self._begun(self._link_type))
        with self._faults():
            if self._is_own:
                self._file.close()
            else:
                self._file.flush()

    @property
    def fault(self) -> CaptureError | None:
        """What went wrong, in a sentence, or None."""
        if self._failed:
            return self._failed
        if self._others:
            types = " and ".join(f"{count:,} of link type {link_type}" for link_type, count in sorted(self._others.items()))
            many = sum(self._others.values())
            left = f"{many:,} packet{'s are' if many > 1 else ' is'} left out, {types}"
            if self._is_pcapng:
                return CaptureError(f"{self.name}: a pcapng file has room for link types of 16 bits, so {left}")
            return CaptureError(f"{self.name}: a pcap file has only one link type, so {left}: name a file *{_PCAPNG}, which can have several")
        if self._without_time:
            many = self._without_time
            return CaptureError(f"{self.name}: the file has no room for the time of {many:,} packet{'s' if many > 1 else ''}, left out")
        return None

    def write_all(self, piece: Piece, results: Sequence[int]) -> None:
        """Writes the packets of a piece that are kept, of each at most as many bytes as its result says."""
        kept = list(compress(range(len(results)), results))
        if not kept:
            return
        if min(filter(None, results)) >= piece.longest and self._format.has_room(piece.link_type):
            records = self._format.records(piece, kept)
            if records is not None:
                self._write(records)
                return
        for at in kept:
            self.write(piece, at, results[at])

    def write(self, piece: Piece, at: int, longest: int) -> None:
        """Writes a packet, at most `longest` bytes of it."""
        begun = b"" if self._has_begun else self._begun(piece.link_type)
        if not self._format.has_room(piece.link_type):
            self._others[piece.link_type] += 1
            return
        try:
            record = self._format.record(piece, at, longest)
        except struct.error:
            self._without_time += 1
            record = b""
        self._write(begun + record)

    def _begun(self, link_type: int) -> bytes:
        self._has_begun = True
        return self._format.begun(link_type, self._comments)

    def _write(self, written: bytes | memoryview) -> None:
        if self._failed is None:
            with self._faults():
                self._file.write(written)

    @contextlib.contextmanager
    def _faults(self) -> Iterator[None]:
        try:
            yield
        except OSError as error:
            self._failed = self._failed or CaptureError(f"{self.name}: {error.strerror or 'it cannot be written'}")
