"""Atomic operations: what each does to a number, and what the verifier requires of its two registers."""

from __future__ import annotations

import enum
import operator
from collections.abc import Callable
from dataclasses import dataclass


@dataclass(frozen=True)
class Operation:
    """Its text, the number in its slot, and its result on two numbers, before that is cut to its size."""

    sign: str
    number: int
    result: Callable[[int, int], int]


OPERATIONS = (
    Operation("+=", 0x00, operator.add),
    Operation("|=", 0x40, operator.or_),
    Operation("&=", 0x50, operator.and_),
    Operation("^=", 0xA0, operator.xor),
)


class Kind(enum.Enum):
    """What the verifier knows of a register."""

    UNREADABLE = enum.auto()
    NUMBER = enum.auto()
    MAP = enum.auto()
    STACK = enum.auto()
    CONTEXT = enum.auto()
    VALUE = enum.auto()
    MAYBE_NULL = enum.auto()


def reason_of(base: Kind, source: Kind) -> int:
    """The reason for which an operation with these registers is rejected, at any place, or 0."""
    if Kind.UNREADABLE in (base, source):
        return 20
    if base in (Kind.NUMBER, Kind.MAP):
        return 22
    if base is Kind.MAYBE_NULL:
        return 30
    if base is Kind.CONTEXT:
        return 31
    return 0 if source is Kind.NUMBER else 23
