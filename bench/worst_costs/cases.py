"""Cases of bench/worst: descriptions of streams whose last step is dear. A case is a small file of JSON; building.py makes the stream.

A case has a kind, what it is in words, the commands before the step, and the step. A command is a list, its name first:

    ["create", type, key size, value size, entries]    ["close", descriptor]
    ["fill", descriptor, keys, number]                 puts so many keys of a family, at most those that the map has room for
    ["look-up" or "delete" or "next", descriptor, keys, number]    the key with this number in a family
    ["update", descriptor, keys, number]               with a value of bytes that are not zero
    ["put back", descriptor, keys, number, times]      deletes and adds so many keys of a family in turn, so many times in all
    ["load", parts]                                    a program
    ["run", descriptor, length, byte]                  on a packet of so many such bytes
    ["save", part]                                     a part of a save; only as the step
    ["batch", descriptor, packets, length, byte]       only as the step
    ["bounded", descriptor, packets, length, byte, bound]    a batch of at most so many instructions, as far as it runs; only as the step
    ["install", parts]                                 of a program that was prepared for the maps that are open; only as the step

A part of a program is [times, slots]: the slots so many times, or with times 0 as often as a program has room. A slot is
[opcode, dst, src, off, imm]; off and imm are a number, or [first, step, count]: in repetition i they are first + step * (i % count).
"""

from __future__ import annotations

import json
from dataclasses import dataclass
from pathlib import Path
from typing import Any

FOLDER = Path(__file__).resolve().parent / "cases"
# The kinds of step, in the order of the table, with the most machine instructions that each should take (0: no bound).
KINDS = {
    "load": 0,
    "install": 400_000,
    "create": 1_200_000,
    "close": 1_200_000,
    "run": 1_200_000,
    "update": 1_200_000,
    "delete": 1_200_000,
    "delete, sweep": 2_500_000,
    "look-up": 1_200_000,
    "next key": 1_200_000,
    "save part": 1_200_000,
    "batch": 0,
    "bounded batch": 1_200_000,
}
# Families of keys whose author knows the seed.
WITH_SEED = frozenset({"colliding", "crowd"})

# What JSON has: a command is a list of words, numbers and lists; a part of a program a number and a list.
Command = list[Any]
Part = list[Any]


@dataclass(frozen=True)
class Case:
    """A step of a kind, with the commands before it."""

    kind: str
    what: str
    before: list[Command]
    step: Command
    # The machine instructions that were counted when the case was kept.
    kept: int = 0

    @property
    def knows_seed(self) -> bool:
        """Whether its keys can be made only by who knows the seed of the host."""
        return any(word in WITH_SEED for command in (*self.before, self.step) for word in command if isinstance(word, str))

    @property
    def bound(self) -> int:
        return KINDS[self.kind]


def read(path: Path) -> Case:
    return Case(**json.loads(path.read_text()))


def all_cases(folder: Path = FOLDER) -> dict[str, Case]:
    """By the names of their files, in the order of the kinds; without the seed first."""
    cases = {path.stem: read(path) for path in sorted(folder.glob("*.json"))}
    order = list(KINDS)
    return dict(sorted(cases.items(), key=lambda it: (order.index(it[1].kind), it[1].knows_seed, it[0])))


def lines_of(parts: list[Any], indent: str) -> str:
    """A list with one element for each line."""
    inner = ",\n".join(f"{indent} {json.dumps(part)}" for part in parts)
    return f"[\n{inner}\n{indent}]" if parts else "[]"


def text_of(case: Case) -> str:
    """A case as its file has it: a line for each command."""
    head = "".join(f' "{name}": {json.dumps(value)},\n' for name, value in (("kind", case.kind), ("what", case.what), ("kept", case.kept)))
    return f'{{\n{head} "before": {lines_of(case.before, " ")},\n "step": {json.dumps(case.step)}\n}}\n'


def write(path: Path, case: Case) -> None:
    path.write_text(text_of(case))
