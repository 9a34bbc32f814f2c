"""Programs that read, write, add and delete keys by helpers: their texts, and the effect of a run of each.

Keys have four bytes, values at least eight.
"""

from __future__ import annotations

import random
from collections.abc import Callable

from common import DELETE, LOOK_UP, calls_with_key, number, updates
from bpfhost import Update
from model import WORD, Code, Map, answer_of


def look_up(fd: int, key: int) -> str:
    """The text of a lookup, after which register 0 points to the value; the program returns 0 if there is none."""
    return put_key(key) + calls_with_key(LOOK_UP, fd) + "if r0 != 0 goto +2\nr0 = 0\nexit\n"


def put_key(key: int) -> str:
    return f"*(u32 *)(r10 - 4) = {key}\n"


def read_word(value: bytes) -> int:
    return int.from_bytes(value[:8], "little")


def on_maps(act: Callable[..., int]) -> Code:
    """The effect of a run with the program's maps, in the order in which it loads them."""
    return Code(lambda run: act(*run.maps.values()))


def reads(key: bytes) -> Code:
    return on_maps(lambda on: read_word(on.values.get(key, b"")))


def adds(key: bytes) -> Code:
    def act(on: Map) -> int:
        if key not in on.values:
            return 0
        on.values[key][:8] = number((read_word(on.values[key]) + 7) % (WORD * WORD), 8)
        return read_word(on.values[key])

    return on_maps(act)


def puts(key: bytes, value: int, flags: int) -> Code:
    return on_maps(lambda on: answer_of(lambda: on.update(key, number(value, 8), flags)))


def replaces(key: bytes, other: bytes, value: int) -> Code:
    """Deletes a key, adds another, and then still writes to the deleted value."""

    def act(on: Map) -> int:
        if key not in on.values:
            return 0
        if not answer_of(lambda: on.delete(key)):
            on.deleted += 1
        elif key in on.values:
            result = answer_of(lambda: on.update(other, number(value, 8), Update.ANY))
            on.values[key][:8] = number(9, 8)
            return result
        return answer_of(lambda: on.update(other, number(value, 8), Update.ANY))

    return on_maps(act)


def copies(key: bytes) -> Code:
    def act(one: Map, *others: Map) -> int:
        other = others[0] if others else one
        if key not in one.values or key not in other.values:
            return 0
        other.values[key][:8] = one.values[key][:8]
        return read_word(one.values[key])

    return on_maps(act)


def write_program(draw: random.Random, fd: int, other: int, is_eight: bool) -> tuple[str, Code]:
    """A text and its effect; `is_eight` is whether values of the first map have eight bytes, as an update reads."""
    key, value = draw.randrange(4), draw.randrange(1 << 31)
    name = number(key, 4)
    choice = draw.randrange(5 if is_eight else 3)
    found = look_up(fd, key)
    if choice == 0:
        return found + "r0 = *(u64 *)(r0 + 0)\nexit\n", reads(name)
    if choice == 1:
        return found + "r1 = *(u64 *)(r0 + 0)\nr1 += 7\n*(u64 *)(r0 + 0) = r1\nr0 = r1\nexit\n", adds(name)
    if choice == 2:
        return found + "r6 = r0\n" + look_up(other, key) + "r1 = *(u64 *)(r6 + 0)\n*(u64 *)(r0 + 0) = r1\nr0 = r1\nexit\n", copies(name)
    stored = f"*(u64 *)(r10 - 16) = {value}\n"
    if choice == 3:
        flags = draw.choice((0, 0, 1, 2, 3))
        return put_key(key) + stored + updates(fd, flags) + "exit\n", puts(name, value, flags)
    second = draw.randrange(4)
    text = found + "r6 = r0\n" + calls_with_key(DELETE, fd) + put_key(second) + stored + updates(fd)
    return text + "*(u64 *)(r6 + 0) = 9\nexit\n", replaces(name, number(second, 4), value)
