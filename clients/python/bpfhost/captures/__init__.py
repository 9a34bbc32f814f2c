"""Captures: reads pcap and pcapng files in pieces of many packets, and writes both formats."""

from __future__ import annotations

import os
import zlib
from collections.abc import Iterator
from contextlib import contextmanager
from io import BufferedReader
from typing import TYPE_CHECKING

from bpfhost.captures.piece import Capture, Piece
from bpfhost.errors import CaptureError

if TYPE_CHECKING:
    from gzip import GzipFile

__all__ = ["Capture", "Piece", "is_capture", "open_capture", "link_type_name"]

# The first bytes of captures: of a section of pcapng, and of pcap in both byte orders, with microseconds and with nanoseconds.
_MAGICS = tuple(bytes.fromhex(magic) for magic in ("0a0d0d0a", "a1b2c3d4", "d4c3b2a1", "a1b23c4d", "4d3cb2a1"))
_GZIP = b"\x1f\x8b"

# Names of common link types (tcpdump.org/linktypes.html).
_LINK_TYPES = {
    0: "NULL",
    1: "ETHERNET",
    101: "RAW",
    105: "IEEE802_11",
    108: "LOOP",
    113: "LINUX_SLL",
    127: "IEEE802_11_RADIOTAP",
    228: "IPV4",
    229: "IPV6",
    276: "LINUX_SLL2",
}


def link_type_name(link_type: int) -> str:
    """A link type, with its name if it is a common one: `113 (LINUX_SLL)`."""
    name = _LINK_TYPES.get(link_type)
    return f"{link_type} ({name})" if name else str(link_type)


def is_capture(path: str | os.PathLike[str]) -> bool:
    """Whether a file begins as a capture that is not compressed."""
    try:
        if not os.path.isfile(path):
            return False
        with open(path, "rb") as file:
            return file.read(4) in _MAGICS
    except OSError:
        return False


@contextmanager
def open_capture(path: str | os.PathLike[str]) -> Iterator[Capture]:
    """The capture in a file, pcap or pcapng; its first bytes say which.

    It may be compressed by gzip. Raises CaptureError if the file can't be read or is neither; the pieces raise it if the file is cut off or
    wrong, after the packets before the fault.
    """
    name = os.fspath(path)
    try:
        file = open(path, "rb")
    except OSError as error:
        raise CaptureError(f"{name}: {error.strerror or error}") from error
    with file:
        yield _begun(name, file)


def _decompressed(opened: BufferedReader) -> GzipFile:
    """A compressed capture, which is only read forwards: to seek back would mean to read it again from the start."""
    from gzip import GzipFile

    class Forwards(GzipFile):
        def seekable(self) -> bool:
            return False

    return Forwards(fileobj=opened)


def _begun(name: str, opened: BufferedReader) -> Capture:
    try:
        file: BufferedReader | GzipFile = _decompressed(opened) if opened.peek(2)[:2] == _GZIP else opened
        magic = _read_magic(name, file)
        if magic == _MAGICS[0]:
            from bpfhost.captures.pcapng import PcapngCapture

            return PcapngCapture(name, file, magic)
        from bpfhost.captures.pcap import PcapCapture

        return PcapCapture(name, file, magic)
    except OSError as error:
        raise CaptureError(f"{name}: {error.strerror or error}") from error


def _read_magic(name: str, file: BufferedReader | GzipFile) -> bytes:
    try:
        return file.read(4)
    except (EOFError, zlib.error) as error:
        raise CaptureError(f"{name}: its compressed bytes are damaged or cut off") from error
