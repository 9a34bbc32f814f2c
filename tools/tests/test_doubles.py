"""tools/doubles.py finds functions that two files define, whatever their names and those of their arguments are."""

from __future__ import annotations

import unittest

from doubles import checked, faults

FIRST = """use Rattle.std.specs.Prelude.{Option, Some, None}
use Rattle.a.specs.Size.{size}

-- the first of two options that has a value
abbrev pub or_else : {A : Type 0} → Option A → Option A → Option A
or_else (Some x) y = Some x
or_else None y = y

pub limit : ℕ
limit = 4
"""
SECOND = FIRST.replace("or_else", "first_of").replace(" y", " other").replace("limit", "bound")


class Doubles(unittest.TestCase):
    def test_other_names_make_no_other_function(self) -> None:
        self.assertEqual(faults({"A.antt": FIRST, "B.antt": SECOND}),
                         ["`or_else` of A.antt and `first_of` of B.antt are one definition, which stands twice"])

    def test_what_a_function_cites_makes_a_difference(self) -> None:
        one = FIRST.replace("= y", "= size y")
        self.assertEqual(faults({"A.antt": one, "B.antt": one.replace("Rattle.a.", "Rattle.b.")}), [])
        self.assertEqual(faults({"A.antt": FIRST.replace("= y", "= y.falling"), "B.antt": FIRST.replace("= y", "= y.jumping")}), [])

    def test_the_repository(self) -> None:
        self.assertEqual(checked(), [])


if __name__ == "__main__":
    unittest.main()
