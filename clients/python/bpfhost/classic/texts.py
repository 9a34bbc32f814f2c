"""Classic programs as texts: those of `tcpdump -dd` and `-ddd`, and the bytecode of iptables' match `bpf`."""

from __future__ import annotations

import re
from collections.abc import Callable, Sequence

from bpfhost.classic.errors import ClassicError
from bpfhost.classic.instructions import MOST_INSTRUCTIONS, Instruction

# `{ 0x28, 0, 0, 0x0000000c },` of -dd.
_NUMBER = r"(0[xX][0-9a-fA-F]{1,16}|[0-9]{1,20})"
_ELEMENT = re.compile(rf"\{{\s*{_NUMBER}\s*,\s*{_NUMBER}\s*,\s*{_NUMBER}\s*,\s*{_NUMBER}\s*\}}")
# `(000) ldh      [12]` of tcpdump -d, and `ldh [12]` or `start: ldh [12]` of sources for bpf_asm.
_LISTED = re.compile(r"\(\d+\)\s")
_SOURCE = re.compile(r"(?:\w+:\s*)?(?:ldx?[bhi]?|stx?|add|sub|mul|div|mod|neg|x?or|and|lsh|rsh|tax|txa|ret|jmp|ja|jn?eq|jn?e|jg[te]|jl[te]|jset)\b")
_TAKEN = "the texts of tcpdump -dd and -ddd, and bytecode of iptables and bpf_asm can be read"
_FIELDS = ("the code", "jt", "jf", "k")
_ROOM = (2**16, 2**8, 2**8, 2**32)


def read(text: str, name: str = "standard input") -> list[Instruction]:
    """The instructions of a text in any of these forms, which differ in how they begin; a ClassicError names the damaged line."""
    begun = text.lstrip()
    if not begun:
        raise ClassicError(f"{name}: there is no classic program")
    if _LISTED.match(begun):
        raise ClassicError(f"{name}: it is a listing of tcpdump -d, which does not have the whole program: {_TAKEN}")
    if _SOURCE.match(begun):
        raise ClassicError(f"{name}: it is a source for bpf_asm, which makes the program of it: {_TAKEN}")
    if begun.startswith("{"):
        return _read_elements(text, name)
    return _read_counted(begun.split(","), name, "part") if "," in begun.split("\n", 1)[0] else _read_lines(text, name)


def _read_elements(text: str, name: str) -> list[Instruction]:
    """The elements of an array in C, which has nothing else except blanks and commas."""
    found: list[Instruction] = []
    for number, line in enumerate(text.split("\n"), 1):
        place = f"{name}:{number}"
        elements = _ELEMENT.findall(line)
        if _ELEMENT.sub("", line).strip(" \t\r,;"):
            raise ClassicError(f"{place}: {_cut(line)} is no element of tcpdump -dd, as {{ 0x28, 0, 0, 0x0000000c }},")
        found += [_instruction(place, element, lambda word: int(word, 0 if word[:2].lower() == "0x" else 10)) for element in elements]
    return _limited(found, name)


def _read_lines(text: str, name: str) -> list[Instruction]:
    return _read_counted(text.rstrip().split("\n"), name, "line")


def _read_counted(parts: Sequence[str], name: str, what: str) -> list[Instruction]:
    """A number, and so many groups of four numbers."""
    parts = [part.strip() for part in parts]
    before = next(at for at, part in enumerate(parts) if part)
    parts = parts[before:]
    if what == "part" and not parts[-1]:
        # bpf_asm writes a comma after the last one as well.
        parts.pop()
    if not re.fullmatch(r"[0-9]{1,10}", parts[0]):
        raise ClassicError(f"{name}: {_cut(parts[0])} is no count of instructions, as tcpdump -ddd and iptables begin with one: {_TAKEN}")
    count = int(parts[0])
    found = []
    for number, part in enumerate(parts[1:], before + 2):
        words = part.split()
        place = f"{name}:{number}" if what == "line" else f"{name}: part {number}"
        if len(words) != len(_FIELDS) or not all(re.fullmatch(r"[0-9]{1,20}", word) for word in words):
            raise ClassicError(f"{place}: {_cut(part)} is no code, jt, jf and k, four decimal numbers")
        found.append(_instruction(place, words, int))
    if len(found) != count:
        raise ClassicError(f"{name}: {count:,} instructions are announced, and there are {len(found):,}")
    return _limited(found, name)


def _instruction(place: str, words: Sequence[str], read_number: Callable[[str], int]) -> Instruction:
    numbers = [read_number(word) for word in words]
    for field, number, room in zip(_FIELDS, numbers, _ROOM):
        if number >= room:
            raise ClassicError(f"{place}: {field} is {number}, and {room - 1} is the most")
    return Instruction(*numbers)


def _limited(found: list[Instruction], name: str) -> list[Instruction]:
    if len(found) > MOST_INSTRUCTIONS:
        raise ClassicError(f"{name}: it has {len(found):,} instructions, and {MOST_INSTRUCTIONS:,} are the most")
    return found


def _cut(text: str) -> str:
    """A text from outside, shortened for a sentence, and without control characters."""
    shown = text.strip() or "nothing"
    return "".join(sign if sign.isprintable() else "?" for sign in shown[:60]) + ("..." if len(shown) > 60 else "")


def elements(instructions: Sequence[Instruction]) -> str:
    """The elements of an array in C, as `tcpdump -dd` writes them."""
    return "".join(f"{{ 0x{each.code:x}, {each.jt}, {each.jf}, 0x{each.k:08x} }},\n" for each in instructions)


def decimals(instructions: Sequence[Instruction]) -> str:
    """The count and the instructions in decimal numbers, as `tcpdump -ddd` writes them."""
    return "\n".join([str(len(instructions)), *(" ".join(map(str, each)) for each in instructions)]) + "\n"


def bytecode(instructions: Sequence[Instruction]) -> str:
    """The same on one line between commas, as `iptables -m bpf --bytecode` takes it (nfbpf_compile)."""
    return decimals(instructions).rstrip("\n").replace("\n", ",") + "\n"
