"""Ancillary loads: what the kernel knows of a packet besides its bytes (linux/filter.h, SKF_AD_*), as words of a run's context."""

from __future__ import annotations

from collections.abc import Mapping
from dataclasses import dataclass

from bpfhost.classic.instructions import ANCILLARY


@dataclass(frozen=True)
class ContextWord:
    """A word of the context, by its place in bytes (docs/PROTOCOL.md, PROG_TEST_RUN)."""

    name: str
    offset: int
    # Whether it is two bytes in the packet's order, which a classic program loads as a number.
    is_packet_order: bool = False


LENGTH = ContextWord("len", 0)
PROTOCOL = ContextWord("protocol", 16, is_packet_order=True)
# No ancillary load reads this word, so it can hold a value for which a run has no word.
WIRE_LENGTH = ContextWord("priority", 32)

# The ancillary area, by the offset in it: the kernel's name, and the word, or the reason why there is none.
_XOR = 40
_WORDS: Mapping[int, tuple[str, ContextWord]] = {
    0: ("SKF_AD_PROTOCOL", PROTOCOL),
    4: ("SKF_AD_PKTTYPE", ContextWord("pkt_type", 4)),
    8: ("SKF_AD_IFINDEX", ContextWord("ifindex", 40)),
    20: ("SKF_AD_MARK", ContextWord("mark", 8)),
    24: ("SKF_AD_QUEUE", ContextWord("queue_mapping", 12)),
    44: ("SKF_AD_VLAN_TAG", ContextWord("vlan_tci", 24)),
    48: ("SKF_AD_VLAN_TAG_PRESENT", ContextWord("vlan_present", 20)),
    60: ("SKF_AD_VLAN_TPID", ContextWord("vlan_proto", 28, is_packet_order=True)),
}
_WITHOUT_WORD: Mapping[int, str] = {
    12: "SKF_AD_NLATTR, an attribute of a netlink message",
    16: "SKF_AD_NLATTR_NEST, a nested attribute of a netlink message",
    28: "SKF_AD_HATYPE, the type of the interface",
    32: "SKF_AD_RXHASH, the packet's hash",
    36: "SKF_AD_CPU, the processor",
    52: "SKF_AD_PAY_OFFSET, where the payload begins",
    56: "SKF_AD_RANDOM, a random number",
}


def context_word(k: int) -> ContextWord | None:
    """The context word that an ancillary load at k reads, or None if the context has none."""
    found = _WORDS.get(k - ANCILLARY)
    return found[1] if found else None


def is_exclusive_or(k: int) -> bool:
    """Whether an ancillary load at k loads nothing, and is the exclusive or of A with X (SKF_AD_ALU_XOR_X)."""
    return k == ANCILLARY + _XOR


def is_known(k: int) -> bool:
    """Whether the kernel has an ancillary load at k."""
    return is_exclusive_or(k) or k - ANCILLARY in _WORDS or k - ANCILLARY in _WITHOUT_WORD


def without_word(k: int) -> str | None:
    """What the kernel loads at k, if the context has no word for it."""
    return _WITHOUT_WORD.get(k - ANCILLARY)
