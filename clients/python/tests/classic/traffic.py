"""Packets for tests of filters: those of the repository's captures and scripts, cut, and after the headers of other links."""

from __future__ import annotations

import random
import runpy
import sys
from collections.abc import Callable
from functools import cache

from bpfhost.captures import open_capture
from tests.classic.common import EXAMPLES

_TYPE = slice(12, 14)
_SNAP = bytes.fromhex("aaaa03000000")
_DATA_FRAME = bytes.fromhex("0801") + bytes(22)


@cache
def ethernet() -> list[bytes]:
    """Packets of both captures that the examples have scripts for, each once, and some of them cut at any byte."""
    found = dict.fromkeys(_sample() + _made())
    whole = list(found)
    cut = [packet[: random.Random(f"{at}").randrange(len(packet) + 1)] for at, packet in enumerate(whole)]
    return whole + [packet[:end] for packet in whole[:25] for end in range(0, min(len(packet), 90), 4)] + cut


def _sample() -> list[bytes]:
    with open_capture(EXAMPLES / "capture/sample.pcap") as capture:
        return [packet for piece in capture.pieces() for packet in piece]


def _made() -> list[bytes]:
    """The packets that examples/filters/make_traffic.py makes."""
    before = sys.dont_write_bytecode
    sys.dont_write_bytecode = True
    try:
        made = runpy.run_path(str(EXAMPLES / "filters/make_traffic.py"))
    finally:
        sys.dont_write_bytecode = before
    packets: Callable[[], list[bytes]] = made["packets"]
    return list(packets())


# The header before a packet of IP on other links, by link types as captures number them; the argument is the EtherType.
HEADS: dict[int, Callable[[bytes], bytes]] = {
    0: lambda kind: b"\x02\0\0\0" if kind == b"\x08\0" else b"\x0a\0\0\0",
    6: lambda kind: bytes(14) + _SNAP + kind,
    9: lambda kind: b"\xff\x03" + (b"\0\x21" if kind == b"\x08\0" else b"\0\x57"),
    10: lambda kind: b"\x50" + bytes(12) + _SNAP + kind,
    50: lambda kind: b"\xff\x03" + (b"\0\x21" if kind == b"\x08\0" else b"\0\x57"),
    101: lambda kind: b"",
    104: lambda kind: b"\x0f\0" + kind,
    105: lambda kind: _DATA_FRAME + _SNAP + kind,
    108: lambda kind: b"\0\0\0\x02" if kind == b"\x08\0" else b"\0\0\0\x0a",
    113: lambda kind: bytes(14) + kind,
    127: lambda kind: b"\0\0\x08\0\0\0\0\0" + _DATA_FRAME + _SNAP + kind,
    163: lambda kind: (144).to_bytes(4, "big") * 2 + bytes(136) + _DATA_FRAME + _SNAP + kind,
    192: lambda kind: b"\0\0\x08\0\x69\0\0\0" + _DATA_FRAME + _SNAP + kind,
    228: lambda kind: b"",
    229: lambda kind: b"",
    276: lambda kind: kind + bytes(18),
}


def of_link(link_type: int) -> list[bytes]:
    """Packets of a link type: those of Ethernet after another header if that is known, as they are, and random ones."""
    draw = random.Random(link_type)
    drawn = [draw.randbytes(draw.randint(0, 100)) for _ in range(30)]
    head = HEADS.get(link_type)
    whole = ethernet()[::12]
    return ([head(packet[_TYPE]) + packet[14:] for packet in whole] if head else []) + whole[::3] + drawn
