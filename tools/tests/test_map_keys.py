"""The keys of bench/maps collide, or do not, under the hash function that crates/seeded_hash/specs/Hashing.antt defines."""

from __future__ import annotations

import os
import shutil
import subprocess
import sys
import tempfile
import unittest
from collections import Counter
from pathlib import Path

TOP = Path(__file__).resolve().parents[2]
sys.path.insert(0, str(TOP / "bench"))
from map_costs.commands import OPERATIONS, streams_of
from map_costs.keys import OTHER_SEED, RANDOM, SEED, Family, Keys, Searched, Seed, hash_of, with_seed, without_seed

SIZES, ENTRIES = (4, 16, 64, 512), 1024
# The groups of a table with so many entries, eight on average; and the most lookups of any group if keys do not collide.
GROUPS, MANY = 128, 40
COMPILER = os.environ.get("CC", "cc")


def largest_group(seed: Seed, keys: Keys) -> int:
    """The greatest number of keys whose lookup begins at the same group of a table."""
    return max(Counter(hash_of(seed, key) % GROUPS for key in keys).values())


def built_tool(folder: str) -> Path:
    tool = Path(folder) / "colliding"
    subprocess.run([COMPILER, "-std=gnu11", "-O2", "-o", tool, TOP / "bench/map_costs/colliding.c"], check=True)
    return tool


class MapKeys(unittest.TestCase):
    def keys_of(self, family: Family, size: int) -> Keys:
        keys = family.keys(size, ENTRIES)
        self.assertEqual({len(key) for key in keys}, {size}, family.name)
        self.assertEqual(len(set(keys)), ENTRIES, family.name)
        return keys

    def families(self) -> list[Family]:
        """Those that need no search, as long keys collide by their last eight bytes."""
        return without_seed(Searched(Path("missing")))

    def test_keys_collide_for_who_knows_the_seed(self) -> None:
        family = with_seed(Searched(Path("missing")), SEED)
        for size in SIZES[1:]:
            keys = self.keys_of(family, size)
            self.assertEqual({hash_of(SEED, key) for key in keys}, {0})
            self.assertLess(largest_group(OTHER_SEED, keys), MANY)

    def test_keys_do_not_collide_for_who_does_not(self) -> None:
        for family in (RANDOM, *self.families()):
            for size in SIZES[1:] if "colliding" in family.name else SIZES:
                with self.subTest(family=family.name, size=size):
                    self.assertLess(largest_group(SEED, self.keys_of(family, size)), MANY)

    @unittest.skipUnless(shutil.which(COMPILER), f"keys of four bytes are left out, as there is no C compiler {COMPILER}")
    def test_short_keys(self) -> None:
        with tempfile.TemporaryDirectory() as folder:
            searched = Searched(built_tool(folder))
            keys = self.keys_of(with_seed(searched, SEED), 4)
            hashes = [hash_of(SEED, key) for key in keys]
            self.assertEqual(len({(hashed ^ hashed >> 32) & 0xFF0003FF for hashed in hashes}), 1)
            for family in without_seed(searched):
                self.assertLess(largest_group(SEED, self.keys_of(family, 4)), MANY, family.name)

    def test_streams_differ_by_their_steps(self) -> None:
        keys = RANDOM.keys(16, 64)
        for name in OPERATIONS:
            streams = streams_of(name, keys, 100)
            self.assertGreaterEqual(streams.steps, 100)
            self.assertGreater(len(streams.whole), len(streams.without))
            self.assertEqual(name == "fill", not streams.whole.startswith(streams.without), name)


if __name__ == "__main__":
    unittest.main()
