"""Some hundred damaged objects; `tests.objects.damage` as a command tries thousands."""

from __future__ import annotations

from bpfhost.objects import load_object
from tests.common import PROGRAM
from tests.objects.common import ObjectTest
from tests.objects.damage import TRIAL, built, outcome_of


class Damaged(ObjectTest):
    def test_each_ends_in_a_sentence_or_a_load(self) -> None:
        counts = TRIAL.run(600, 37, 30 if PROGRAM else 0, PROGRAM)
        self.assertEqual(counts["refused"] + counts["loaded"], 600)
        # Damage that is never noticed, or always, would test little.
        self.assertGreater(counts["refused"], 100)
        self.assertGreater(counts["loaded"], 100)

    def test_the_built_object_is_good(self) -> None:
        found = load_object(self.written(built()))
        assert found.types is not None and found.maps[0].value_type is not None
        self.assertEqual(found.types.show(found.maps[0].value_type, found.maps[0].initial or b""), "{ .number = 5 }")

    def test_every_byte_of_the_built_object(self) -> None:
        """Each byte is changed, one at a time."""
        good = built()
        for at, byte in enumerate(good):
            for other in {255, byte ^ 1} - {byte}:
                with self.subTest(at=at, other=other):
                    outcome_of(self.written(good[:at] + bytes([other]) + good[at + 1 :]))
