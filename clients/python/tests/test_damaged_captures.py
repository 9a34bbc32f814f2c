"""A thousand damaged captures; `tests.damaged_captures` as a command tries more."""

from __future__ import annotations

import importlib.util
import random

from tests.common import PROGRAM, TimedTest
from tests.damaged_captures import TRIAL, originals, outcome_of

HAS_OBJECTS = importlib.util.find_spec("elftools") is not None


class Damaged(TimedTest):
    def test_each_ends_in_packets_and_a_sentence_at_most(self) -> None:
        counts = TRIAL.run(1000, 37, 60 if PROGRAM and HAS_OBJECTS else 0, PROGRAM)
        self.assertEqual(counts["read"] + counts["refused"], 1000)
        # Damage that is never noticed, or always, would test little.
        self.assertGreater(counts["read"], 200)
        self.assertGreater(counts["refused"], 200)

    def test_the_captures_are_good(self) -> None:
        path = self.scratch / "good"
        for original in originals(random.Random(1)):
            path.write_bytes(original.content)
            self.assertEqual(outcome_of(path), "read", original.name)
