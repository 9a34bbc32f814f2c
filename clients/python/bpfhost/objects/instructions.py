"""Finds instructions that need what the host does not have, before the program is loaded.

Source: RFC 9669; docs/INSTRUCTIONS.md for what the host has. Invalid instructions are left to the verifier.
"""

from __future__ import annotations

from bpfhost.helpers import HELPERS, helper_name, the_helpers
from bpfhost.instead import of_helper
from bpfhost.numbers import SLOT_SIZE
from bpfhost.objects.place import Place
from bpfhost.slots import ATOMIC_OPERATIONS, WIDE_LOAD, first_slots

_CALL, _CALL_REGISTER = 0x85, 0x8D
_ATOMIC = (0xC3, 0xDB)
_FETCH = {
    0x01: "an atomic addition with FETCH",
    0x41: "an atomic or with FETCH",
    0x51: "an atomic and with FETCH",
    0xA1: "an atomic exclusive or with FETCH",
    0xE1: "an atomic exchange (XCHG)",
    0xF1: "an atomic comparison with exchange (CMPXCHG)",
}
# LD with the modes ABS and IND, of 4, 2 and 1 bytes.
_PACKET_ACCESS = (0x20, 0x28, 0x30, 0x40, 0x48, 0x50)
# A place before the packet counts from the network header or from the link's (SKF_NET_OFF and SKF_LL_OFF of linux/filter.h), or from up to
# so many bytes after it. A smaller negative constant may be part of a sum.
_BEFORE_PACKET = -0x100000 + 0xFFFF
_ABSOLUTE = 0x20


def is_wide_load(slots: bytes | bytearray, slot: int) -> bool:
    """Whether a whole wide load of a number begins at a slot."""
    at = SLOT_SIZE * slot
    return at + 16 <= len(slots) and slots[at] == WIDE_LOAD and slots[at + 1] >> 4 == 0


def calls_of(slots: bytes | bytearray) -> dict[int, int]:
    """The slots with calls of functions of the object, each with the distance of the called function from the next slot."""
    found: dict[int, int] = {}
    for slot in first_slots(slots):
        at = SLOT_SIZE * slot
        if slots[at] == _CALL and slots[at + 1] >> 4 == 1:
            found[slot] = int.from_bytes(slots[at + 4 : at + 8], "little", signed=True)
    return found


def check_instructions(slots: bytes, place: Place, is_lowered: bool) -> None:
    """Raises ObjectError for the first instruction that needs what the host does not have; calls of functions are not checked here.

    If programs are lowered, some of these instructions become others (`bpfhost.lowering.sequences`).
    """
    for slot in first_slots(slots):
        instruction = slots[SLOT_SIZE * slot : SLOT_SIZE * (slot + 1)]
        lacks = _lacks(instruction, is_lowered)
        if lacks:
            is_helper = instruction[0] == _CALL and not instruction[1] >> 4
            raise place.refused(slot, lacks, of_helper(int.from_bytes(instruction[4:], "little")) if is_helper else None)


def _lacks(instruction: bytes, is_lowered: bool) -> str | None:
    opcode, source = instruction[0], instruction[1] >> 4
    constant = int.from_bytes(instruction[4:], "little", signed=True)
    if opcode == _CALL:
        return _lacks_call(source, constant)
    if opcode == _CALL_REGISTER:
        return "calls a function by its address, and the host has no such calls"
    if opcode in _ATOMIC and constant not in ATOMIC_OPERATIONS and not (is_lowered and constant in _FETCH):
        return f"has {_FETCH.get(constant, f'an atomic operation {constant:#x}')}, which the host does not have"
    if opcode in _PACKET_ACCESS and (constant <= _BEFORE_PACKET or opcode & 0xE0 == _ABSOLUTE and constant < 0):
        return f"reads the packet from a header on ({constant:#x}), which the host does not know: count from the packet's first byte"
    if opcode in _PACKET_ACCESS and not is_lowered:
        return "reads the packet by a legacy load (ABS or IND), which the host does not have: bpf_skb_load_bytes reads it"
    return None


def _lacks_call(source: int, constant: int) -> str | None:
    if source == 0:
        return None if constant in HELPERS else f"calls helper {helper_name(constant)}, and the host has {the_helpers()}"
    if source == 1:
        return None
    return f"calls function {constant} of the kernel, which the host does not have"
