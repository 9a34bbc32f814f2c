"""tools/parameters.py counts the parameters of each function, and finds those that have too many."""

from __future__ import annotations

import unittest

from parameters import MOST, faults, functions


def function(name: str, count: int) -> str:
    return f"fn {name}({', '.join(f'p{number}: u8' for number in range(count))}) {{}}\n"


class Parameters(unittest.TestCase):
    def assert_counts(self, text: str, *counts: int) -> None:
        self.assertEqual([len(parameters) for _, parameters in functions(text)], list(counts), text)

    def test_parameters(self) -> None:
        self.assert_counts("fn none() {}\nfn one(a: u8) {}\nfn two(a: u8, b: u8) -> u8 {}\n", 0, 1, 2)
        self.assert_counts("    pub fn of_self(\n        &mut self,\n        a: u8,\n    ) -> Result<(), u8> {}\n", 2)

    def test_commas_within_a_type(self) -> None:
        self.assert_counts("fn inner(a: (u8, u8), b: [Map<u8, u8>; 2], c: impl Fn(u8, u8) -> u8, d: u8) {}\n", 4)

    def test_parameters_of_types(self) -> None:
        self.assert_counts("fn with<'a, F: Fn(u8, u8) -> u8, T>(a: &'a F, b: T) {}\n", 2)

    def test_comments(self) -> None:
        self.assert_counts("// fn none(a: u8)\nfn one(\n    // a, b (c\n    a: u8,\n) {}\n", 1)

    def test_calls_and_types_of_functions(self) -> None:
        self.assert_counts("let f: fn(u8, u8) = named(a, b);\n")

    def test_too_many(self) -> None:
        texts = {"low/src/lib.rt": function("few", MOST) + function("many", MOST + 1)}
        self.assertEqual([fault.partition(",")[0] for fault in faults(texts, {})], ["crates/low/src/lib.rt: many: 8 parameters"])
        self.assertEqual(faults(texts, {"low/src/lib.rt: many": "a reason"}), [])

    def test_an_exception_that_is_none(self) -> None:
        for exception in ("low/src/lib.rt: few", "low/src/lib.rt: nowhere"):
            self.assertEqual(faults({"low/src/lib.rt": function("few", MOST)}, {exception: "a reason"}),
                             [f"tools/parameters.py: no function {exception} has more than 7 parameters"])


if __name__ == "__main__":
    unittest.main()
