"""Programs that call helpers as often as 4,096 slots have room. Registers 6, 7 and 8 keep the map, the key and the value, so a look-up or a
delete takes three slots and an update five.
"""

from __future__ import annotations

from map_costs.keys import SEED
from programs import (
    ADD64_K,
    CALL,
    DELETE,
    EXIT,
    LOAD_BYTES,
    LOOK_UP,
    MOV64_K,
    MOV64_X,
    STORE_DOUBLE,
    STORE_DOUBLE_K,
    STORE_WORD_K,
    UPDATE,
    WIDE,
)
from worst_costs.cases import Part
from worst_costs.compact import Slots

MOST_KEYS = 4096
# The first descriptor, and the offset of a key of 512 bytes in the stack.
MAP, KEY = 3, -512
EXITS: Part = [1, [[MOV64_K, 0, 0, 0, 0], [EXIT, 0, 0, 0, 0]]]
MAP_AND_KEY = [[MOV64_X, 1, 6, 0, 0], [MOV64_X, 2, 7, 0, 0]]
VALUE_AND_FLAGS = [[MOV64_X, 3, 8, 0, 0], [MOV64_K, 4, 0, 0, 0]]

# The first bytes of the packet as a key.
COPY = [[MOV64_K, 2, 0, 0, 0], [MOV64_X, 3, 10, 0, 0], [ADD64_K, 3, 0, 0, KEY], [MOV64_K, 4, 0, 0, -KEY], [CALL, 0, 0, 0, LOAD_BYTES]]


def stack(step: int) -> Part:
    """Numbers all over the stack, in steps; zeros with step 0."""
    return [64, [[STORE_DOUBLE_K, 10, 0, [-8, -8, 64], [1, step, 64] if step else 0]]]


def pointer(register: int) -> Slots:
    return [[MOV64_X, register, 10, 0, 0], [ADD64_K, register, 0, 0, KEY]]


def loaded(register: int, kind: int, fd: int) -> Slots:
    """A map (kind 1), or the address of its one value (kind 2)."""
    return [[WIDE, register, kind, 0, fd], [0, 0, 0, 0, 0]]


def calls(helper: int) -> list[Part]:
    """Calls on one key; its bytes are the value, too."""
    arguments = [*MAP_AND_KEY, *VALUE_AND_FLAGS] if helper == UPDATE else MAP_AND_KEY
    return [stack(7), [1, [*loaded(6, 1, MAP), *pointer(7), *pointer(8)]], [0, [*arguments, [CALL, 0, 0, 0, helper]]], EXITS]


def updates_and_deletes() -> list[Part]:
    """A key is added and deleted again."""
    both = [*MAP_AND_KEY, *VALUE_AND_FLAGS, [CALL, 0, 0, 0, UPDATE], *MAP_AND_KEY, [CALL, 0, 0, 0, DELETE]]
    return [stack(7), [1, [*loaded(6, 1, MAP), *pointer(7), *pointer(8)]], [0, both], EXITS]


def calls_on_keys(helper: int) -> list[Part]:
    """Look-ups or deletes of one key after another: the first four bytes of a key count."""
    numbered = [STORE_WORD_K, 10, 0, KEY, [0, 1, MOST_KEYS]]
    return [stack(0), [1, [*loaded(6, 1, MAP), *pointer(7)]], [0, [numbered, *MAP_AND_KEY, [CALL, 0, 0, 0, helper]]], EXITS]


def colliding_look_ups() -> list[Part]:
    """Look-ups of a key that ends in a word of the seed, as keys of who knows it do."""
    words = [SEED.factor % 2**32, SEED.factor >> 32]
    ends = [[WIDE, 2, 0, 0, words[0]], [0, 0, 0, 0, words[1]], [STORE_DOUBLE, 10, 2, -8, 0], [STORE_DOUBLE_K, 10, 0, -16, MOST_KEYS - 1]]
    return [stack(0), [1, [*loaded(6, 1, MAP), *pointer(7), *ends]], [0, [*MAP_AND_KEY, [CALL, 0, 0, 0, LOOK_UP]]], EXITS]


def long_values() -> list[Part]:
    """Updates of one key; the value is that of an array at the second descriptor."""
    update = [*MAP_AND_KEY, *VALUE_AND_FLAGS, [CALL, 0, 0, 0, UPDATE]]
    return [[1, COPY], [1, [*loaded(6, 1, MAP), *pointer(7), *loaded(8, 2, MAP + 1)]], [0, update], EXITS]


def new_keys(maps: int, keys: int) -> list[Part]:
    """So many new keys in each of some maps, one map after another."""
    parts: list[Part] = [[1, [*COPY, *pointer(7), *pointer(8)]]]
    for at in range(maps):
        numbered = [STORE_WORD_K, 10, 0, KEY, [at * keys, 1, MOST_KEYS]]
        update = [numbered, *MAP_AND_KEY, *VALUE_AND_FLAGS, [CALL, 0, 0, 0, UPDATE]]
        parts += [[1, loaded(6, 1, MAP + at)], [keys if at + 1 < maps else 0, update]]
    return [*parts, EXITS]


def copies() -> list[Part]:
    """Copies of 512 bytes of the packet."""
    copy = [[MOV64_X, 1, 9, 0, 0], [MOV64_K, 2, 0, 0, 0], [MOV64_X, 3, 7, 0, 0], [MOV64_K, 4, 0, 0, -KEY], [CALL, 0, 0, 0, LOAD_BYTES]]
    return [[1, [[MOV64_X, 9, 1, 0, 0], *pointer(7)]], [0, copy], EXITS]


def names(maps: int, times: int = 0) -> list[Part]:
    """A program that names maps, one after another; as often as it has room for, if times is 0."""
    return [[times, [[WIDE, 1, 1, 0, [MAP, 1, maps]], [0, 0, 0, 0, 0]]], EXITS]
