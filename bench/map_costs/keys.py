"""Keys of hash maps: random ones, and families of keys made to collide."""

from __future__ import annotations

import random
import struct
import subprocess
from collections.abc import Callable
from dataclasses import dataclass
from pathlib import Path

# Up to eight bytes, a key is hashed as one number, in both factors of one product: no key makes a factor zero for all others, so colliding
# keys are found by search. In a longer key one factor has only the last eight bytes.
LONGEST_NUMBER = 8
# The constant of the kit's own hash function.
KIT_FACTOR = 0x9E37_79B9_7F4A_7C15
# A table has room for so many times the keys of its map (crates/ordered_keys), so many of them for each group; a group has twelve slots.
ROOM, ENTRIES_OF_GROUP, CROWD = 4, 9, 20
# A step that visits all numbers of 32 and of 64 bits.
STEP = 0x9E37_79B9_0000_0001

Keys = list[bytes]


@dataclass(frozen=True)
class Seed:
    """The two words of a host's seed."""

    state: int
    factor: int

    @classmethod
    def of_words(cls, words: str) -> Seed:
        """From two words in hexadecimal digits."""
        state, factor = (int(word, 16) for word in words.split())
        if max(state, factor) >= 2**64:
            raise ValueError(words)
        return cls(state, factor)

    @property
    def words(self) -> str:
        return f"{self.state:016x} {self.factor:016x}"


# The hosts' seed if no other is given, and one that no host has.
SEED = Seed(0x6A09_E667_F3BC_C908, 0xBB67_AE85_84CA_A73B)
OTHER_SEED = Seed(0x3C6E_F372_FE94_F82B, 0xA54F_F53A_5F1D_36F1)


def random_keys(size: int, count: int) -> Keys:
    """Random bytes, the same ones in each run."""
    drawn = random.Random(size * count)
    keys: dict[bytes, None] = {}
    while len(keys) < count:
        keys[drawn.randbytes(size)] = None
    return list(keys)


def at_begin(numbers: list[int], size: int) -> Keys:
    """Numbers in the first eight bytes, or in all if there are fewer, followed by zeros."""
    width = min(size, LONGEST_NUMBER)
    return [(number % 256**width).to_bytes(width, "little").ljust(size, b"\0") for number in numbers]


def at_end(numbers: list[int], size: int) -> Keys:
    """Zeros, followed by numbers in the last eight bytes."""
    width = min(size, LONGEST_NUMBER)
    return [(number % 256**width).to_bytes(width, "little").rjust(size, b"\0") for number in numbers]


def counting(size: int, count: int) -> Keys:
    return at_begin(list(range(count)), size)


def counting_high(size: int, count: int) -> Keys:
    """Multiples of a high power of two: the highest twelve bits count up."""
    return at_end([number << (8 * min(size, LONGEST_NUMBER) - 12) for number in range(count)], size)


def equal_steps(size: int, count: int) -> Keys:
    return at_end([STEP * number for number in range(count)], size)


def ending_in(factor: int, size: int, count: int) -> Keys:
    """Long keys whose last eight bytes are a word of the seed, which makes the factor with this word zero. The eight bytes before count up."""
    return [bytes(size - 16) + struct.pack("<QQ", number, factor) for number in range(count)]


def folded(a: int, b: int) -> int:
    product = a * b
    return (product ^ product >> 64) % 2**64


def hash_of(seed: Seed, key: bytes) -> int:
    """The 32 bits of a key's hash that an index table uses (seeded_hash.h)."""
    if len(key) <= LONGEST_NUMBER:
        word = int.from_bytes(key, "little")
        turned = (word << 32 | word >> 32) % 2**64
        found = folded(word ^ (seed.state + 8) % 2**64, turned ^ seed.factor)
    else:
        state = (seed.state + len(key)) % 2**64
        for at in (*range(0, len(key) - 16, 16), len(key) - 16):
            low, high = struct.unpack_from("<QQ", key, at)
            state = folded(low ^ state, high ^ seed.factor)
        found = folded(state, seed.factor)
    return (found ^ found >> 32) % 2**32


def crowd(seed: Seed, size: int, count: int) -> Keys:
    """Random keys that begin in one group of the table of so many keys: more than fit in it, so that deletes use up the table's room."""
    groups, drawn = 1, random.Random(size)
    while ENTRIES_OF_GROUP * groups < ROOM * count:
        groups *= 2
    found: Keys = []
    while len(found) < CROWD:
        key = drawn.randbytes(size)
        if hash_of(seed, key) % groups == 0 and key not in found:
            found.append(key)
    return found


@dataclass(frozen=True)
class Searched:
    """Colliding keys; if they are short, the program built from colliding.c finds them."""

    tool: Path

    def under(self, seed: Seed | None, size: int, count: int) -> Keys:
        """Under this seed, or under the fixed constants of the kit's hash function."""
        if size > LONGEST_NUMBER:
            return ending_in(seed.factor if seed else KIT_FACTOR, size, count)
        words = [str(self.tool), str(count), *(seed.words.split() if seed else [])]
        found = subprocess.run(words, stdout=subprocess.PIPE, check=True).stdout
        return at_begin([number for (number,) in struct.iter_unpack("<I", found)], size)


@dataclass(frozen=True)
class Family:
    """Keys of a size, and how many; whether their author knows the seed."""

    name: str
    keys: Callable[[int, int], Keys]
    knows_seed: bool = False


RANDOM = Family("random", random_keys)


def without_seed(searched: Searched) -> list[Family]:
    """Keys of an author who knows the function but not the seed."""
    return [
        Family("counting", counting),
        Family("counting in the highest bits", counting_high),
        Family("equal steps", equal_steps),
        Family("colliding under the kit's constants", lambda size, count: searched.under(None, size, count)),
        Family("colliding under another seed", lambda size, count: searched.under(OTHER_SEED, size, count)),
    ]


def with_seed(searched: Searched, seed: Seed) -> Family:
    """Keys of an author who knows the seed."""
    return Family("colliding under the seed", lambda size, count: searched.under(seed, size, count), knows_seed=True)
