"""Why a program is rejected, in one message: the line of the source, what was known and what was needed, and what to change.

What was known comes from the verifier's log (docs/VERIFIER.md), which names maps by their descriptors and helpers by their numbers; this
module replaces them by the names in the source.
"""

from __future__ import annotations

import re
from collections.abc import Mapping

from bpfhost.helpers import helper_name
from bpfhost.instead import of_access
from bpfhost.numbers import SLOT_SIZE
from bpfhost.slots import WIDE_LOAD, access_at, first_slots

PAGE = "docs/VERIFIER.md"
_BACKWARD, _CONTEXT = 2, 31
_LOOP = "loop"

# What to change in C, by the reason.
_HINTS = {
    1: "compile the file again: no compiler writes such a jump",
    2: "leave out --as-is: this is not a loop, only the compiler's order of blocks, which is changed then",
    3: "end each path with a return",
    4: "remove unreachable code, as clang does with -O2",
    5: "call the helpers that bpfhost.h declares",
    6: "the frame pointer, register 10, is only read",
    7: "name a map that the object has",
    8: "name a map where a map is needed",
    9: "only variables in .data, .rodata and .bss have addresses that are loaded directly: use bpf_map_lookup_elem for other maps",
    20: "give the variable a value on each path to this line; registers 1 to 5 are lost after a call, so keep what is needed in a variable",
    21: "return a number: how many bytes of the packet to keep",
    22: "only a map lookup, &variable and the context give addresses; read the packet's bytes by bpf_skb_load_bytes",
    23: "a pointer into a map's value is moved by any number, one into the stack only by a constant, and the context not at all: keep an array "
    "with a computed index in a map or in a global variable",
    24: "compare the number before it is added, as `if (i >= 64) return 0;`",
    25: "the stack has 512 bytes: make arrays smaller, or keep them in a map, and compare an index before",
    26: "access whole, aligned words: leave __attribute__((packed)) out, or copy by __builtin_memcpy to an aligned variable",
    27: "initialize all of it, padding too, as `struct key key = {};` or by __builtin_memset",
    28: "a pointer that is kept on the stack is read back whole: do not copy or overwrite parts of a struct that has one",
    29: "compare the index before, as `if (i >= 64) return 0;`, or mask it, as `i & 63`, so that the whole access stays in the value",
    30: "test the result of the look-up before it is used: `if (!value) return 0;`",
    31: "of the context eleven words of 32 bits are read, skb->len to skb->ifindex, and none is written; bpf_skb_load_bytes reads the packet",
    32: "keep only numbers in a map, not pointers",
    33: "compare a pointer only with 0, by == or !=",
    34: "give the helper what bpfhost.h declares: a map, the address of a key or of a value on the stack or in a map, the context",
    35: "compare the length before, so that it is at least 1 and at most the room, as `if (n == 0 || n > sizeof room) return 0;`",
    36: "use an atomic operation only on a field at a constant offset, a multiple of its size",
    _LOOP: "give the loop a bound of constants, as `for (i = 0; i < 16; i++)`, so that it can be unrolled; --as-is unrolls none",
}


def hint(reason: int, slots: bytes, slot: int) -> str | None:
    """What to change in C if a program is rejected at a slot for a reason; None if that is not known."""
    access = access_at(slots, slot) if reason == _CONTEXT else None
    field = of_access(access) if access is not None else None
    if field is not None:
        return field
    return _HINTS.get(_LOOP if reason == _BACKWARD and is_loop(slots, slot) else reason)


def is_loop(slots: bytes, slot: int) -> bool:
    """Whether the jump at a slot belongs to a loop: its target leads to it again. If not, it comes from the compiler's order of the blocks."""
    edges = {at: _targets(slots, at) for at in first_slots(slots)}
    reached: set[int] = set()
    ahead = list(edges.get(slot, ()))
    while ahead:
        at = ahead.pop()
        if at not in reached and at in edges:
            reached.add(at)
            ahead += edges[at]
    return slot in reached


def _targets(slots: bytes, at: int) -> list[int]:
    """The successors of an instruction."""
    opcode = slots[SLOT_SIZE * at]
    offset = int.from_bytes(slots[SLOT_SIZE * at + 2 : SLOT_SIZE * at + 4], "little", signed=True)
    constant = int.from_bytes(slots[SLOT_SIZE * at + 4 : SLOT_SIZE * at + 8], "little", signed=True)
    if opcode == 0x95:
        return []
    if opcode in (0x05, 0x06):
        return [at + 1 + (offset if opcode == 0x05 else constant)]
    behind = at + (2 if opcode == WIDE_LOAD else 1)
    is_jump = opcode & 7 in (5, 6) and opcode not in (0x85, 0x8D)
    return [behind, behind + offset] if is_jump else [behind]


# The log with names.

_LINE = re.compile(r"(\d+): (.*?)(?: *// (.*))?")
_CALL = re.compile(r"\bcall (\d+)\Z")
_HELPER = re.compile(r"\bhelper (\d+)\b")
_MAP = re.compile(r"\bmap (\d+)\b")
_MAP_LOAD = re.compile(r"\bmap_(?:fd|value) (\d+)\b")
_NUMBER = re.compile(r"(?<![\w.])\d{10,20}(?!\w)")
_LARGE = 1 << 31
# The position at which a line's notes begin.
_COLUMN = 40


def with_names(log: str, maps: Mapping[int, str]) -> str:
    """A log with the names of maps, by their descriptors, and of helpers, and with large numbers in hexadecimal digits."""
    return "".join(f"{line_with_names(line, maps)}\n" for line in log.splitlines())


def line_with_names(line: str, maps: Mapping[int, str]) -> str:
    """A line of a log with names."""
    found = _LINE.fullmatch(line)
    if found is None:
        return told_with_names(line, maps)
    slot, text, notes = found.groups()
    text = _CALL.sub(lambda call: f"call {helper_name(int(call[1]))}", text)
    named = [maps[int(load[1])] for load in _MAP_LOAD.finditer(text) if int(load[1]) in maps]
    text = f"{slot}: {text}{''.join(f'  # {name}' for name in named)}"
    return f"{text:{_COLUMN}} // {told_with_names(notes, maps)}" if notes else text


def told_with_names(told: str, maps: Mapping[int, str]) -> str:
    """Words of a log with names."""
    told = _MAP.sub(lambda found: f"map {maps.get(int(found[1]), found[1])}", told)
    told = _HELPER.sub(lambda found: f"helper {helper_name(int(found[1]))}", told)
    return _NUMBER.sub(lambda found: hex(int(found[0])) if int(found[0]) >= _LARGE else found[0], told)


def need_of(log: str, maps: Mapping[int, str]) -> str | None:
    """What was known and what was needed, from the last line of a log, after the reason's words; None if the line does not have it."""
    lines = log.splitlines()
    if len(lines) < 2 or not lines[-2].startswith("refused: slot "):
        return None
    return told_with_names(lines[-1].partition(": ")[2], maps) or None
