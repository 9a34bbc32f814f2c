"""Options that choose between libpcap's interpreter and the kernel. FILTERS.md of clients/python lists their differences."""

from __future__ import annotations

from dataclasses import dataclass
from enum import Enum


class Semantics(Enum):
    """Whose results a translation has, if they differ."""

    LIBPCAP = "libpcap"
    KERNEL = "kernel"


class Length(Enum):
    """What a load of the packet's length reads: the bytes that the run is given, or a word of the context with the length on the wire."""

    PACKET = "packet"
    WIRE = "wire"


@dataclass(frozen=True)
class Meaning:
    """How a classic program is read."""

    semantics: Semantics = Semantics.LIBPCAP
    length: Length = Length.PACKET
