"""Shards in the simulator: some seeds, and a check that a seed plays the same run again.

`python3 -m tests.shards.simulator.play` plays more.
"""

from __future__ import annotations

import importlib.util
import signal
import unittest
from collections import Counter

from tests import common
from tests.common import TimedTest

SEEDS, SECONDS = range(1, 9), 60.0
_WHY = None if importlib.util.find_spec("lupa") else "python3-lupa is missing"


@unittest.skipIf(_WHY is not None, _WHY or "")
class Simulated(TimedTest):
    def test_seeds(self) -> None:
        from tests.shards.simulator.play import play

        counts = Counter[str]()
        for seed in SEEDS:
            # Each seed has the time limit of a test.
            signal.alarm(common.SECONDS)
            counts.update(play(seed, SECONDS))
        # Each kind of fault is seen, and work is done at the same time.
        for what in ("kills", "pauses", "hosts", "servers away", "jumps", "movers killed", "moved", "resumed", "set aside", "skipped", "failovers"):
            self.assertGreater(counts[what], 0, what)
        self.assertGreater(counts["calls"], 500)

    def test_a_seed_is_played_again(self) -> None:
        from tests.shards.simulator.play import Play

        said = []
        for _ in range(2):
            played = Play(5, 10.0)
            played.run()
            said.append((played.world.told, played.counts))
        self.assertEqual(said[0], said[1])
