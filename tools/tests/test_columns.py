"""tools/columns.py finds long lines of definitions, contracts and proofs; those of a `use` may be longer."""

from __future__ import annotations

import unittest

from columns import MOST, MOST_OF_PROOFS, MOST_OF_USE, OF_MOST, too_wide, too_wide_proofs, wide_contracts, wide_uses

LONG = "a : " + "ℕ → " * 30 + "ℕ"


class Columns(unittest.TestCase):
    def test_long_lines(self) -> None:
        text = "x" * MOST + "\n" + LONG + "\n  pub use " + LONG + "\nuse " + LONG + "\n-- " + LONG + "\n"
        self.assertEqual([line.partition(" ")[0] for line in too_wide("A.antt", text)], ["A.antt:2:", "A.antt:5:"])

    def test_long_lines_of_proofs(self) -> None:
        text = "x" * MOST_OF_PROOFS + "\n" + "x" * (MOST_OF_PROOFS + 1) + "\n" + "x\n" * 98
        self.assertEqual([fault.partition(" ")[0] for fault in too_wide_proofs({"A.antt": text})], ["A.antt:2:"])

    def test_long_lines_of_contracts(self) -> None:
        text = f"fn f()\n    ensures a {{ {LONG} }}\n    ensures b {{ IfOk result (λ n.\n        {LONG}) }}\n{{\n    {LONG}\n}}\n"
        self.assertEqual([line.partition(" ")[0] for line in wide_contracts("a.rt", text)], ["a.rt:2:", "a.rt:4:"])

    def test_long_imports(self) -> None:
        text = "".join(f"{word} {'x' * (MOST_OF_USE - len(word) - 1 + more)}\n" for word in ("use", "pub use", "ghost use") for more in (0, 1))
        self.assertEqual([line.partition(" ")[0] for line in wide_uses("A.rt", text)], ["A.rt:2:", "A.rt:4:", "A.rt:6:"])
        self.assertEqual(len(too_wide_proofs({"A.antt": text})), 3)

    def test_many_long_lines_of_proofs(self) -> None:
        for count, faults in ((5, 0), (6, 1)):
            text = ("x" * (OF_MOST + 1) + "\n") * count + "x\n" * (100 - count) + "use " + LONG + "\n"
            self.assertEqual(len(too_wide_proofs({"A.antt": text})), faults)


if __name__ == "__main__":
    unittest.main()
