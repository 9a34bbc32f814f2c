"""The means that bench/run.sh prints."""

from __future__ import annotations

import sys
import unittest
from pathlib import Path

TOP = Path(__file__).resolve().parents[2]
sys.path.insert(0, str(TOP / "bench"))

from means import Mean, lines, mean_of  # noqa: E402


class Means(unittest.TestCase):
    def test_the_mean_is_geometric_and_the_worst_is_the_greatest(self) -> None:
        found = mean_of({"a": 0.5, "b": 2.0, "c": 1.0})
        assert found is not None
        self.assertAlmostEqual(found.mean, 1.0)
        self.assertEqual((found.count, found.worst, found.name), (3, 2.0, "b"))

    def test_a_host_without_ratios_has_no_line(self) -> None:
        self.assertIsNone(mean_of({}))
        self.assertEqual(list(lines("filters", {"C": {"a": 1.5}, "DPDK": {}})), ["filters, to C: 1.500 of 1, worst 1.50 (a)"])

    def test_a_mean_is_told_in_one_line(self) -> None:
        self.assertEqual(str(Mean(40, 1.0321, 1.354, "x.c")), "1.032 of 40, worst 1.35 (x.c)")


if __name__ == "__main__":
    unittest.main()
