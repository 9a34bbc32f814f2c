"""tools/conditions.py finds the public functions with conditions, and compares them with the list."""

from __future__ import annotations

import tempfile
import unittest
from pathlib import Path

from conditions import CRATES, checked, differences, public_functions, read_list, with_conditions

LIB = """\
mod inner;
mod hidden;
pub mod laws;

pub use inner::{Counter, half as a_half};
pub use std::vec::Vec;

/// A function of the root.
pub fn whole(n: u8) -> u8
    requires { 0 < n }
    ensures { result ≡ n }
{
    n
}

pub fn free(n: u8) -> u8 {
    n
}
"""
INNER = """\
pub struct Counter<T: Copy> {
    pub count: T,
}

impl<T: Copy> Counter<T> {
    pub fn add(
        &mut self,
        count: u8,
    ) -> u8
    where
        T: Drop,
        requires small { count < 2 ^ 7 }
        requires some { 0 < count }
        ensures { result ≡ count }
    {
        work(|x| requires { x < 3 } { x });
        count
    }

    pub(crate) fn inside(&self)
        requires { 0 < 1 }
    {}

    fn own(&self)
        requires { 0 < 1 }
    {}

    pub fn total(&self) -> u8 {
        3
    }
}

impl<T: Copy> Model for Counter<T> {
    pub fn of_another_trait(&self)
        requires { 0 < 1 }
    {}
}

pub fn half(n: u8) -> u8
    requires { n % 2 ≡ 0 }
{
    n / 2
}

pub fn not_exported(n: u8)
    requires { 0 < n }
{}
"""
HIDDEN = """\
pub struct Unknown;

impl Unknown {
    pub fn unseen(&self)
        requires { 0 < 1 }
    {}
}
"""
LAWS = """\
pub trait Named {
    ghost name: { Self → ℕ };

    fn name(&self, at: u8) -> u8
        requires { at < 3 }
        ensures { result ≡ at };

    fn size(&self) -> u8
        ensures { result ≡ 3 };
}

pub fn a_law(n: u8)
    requires { n < 3 }
    ensures { n < 4 }
{}
"""
LIST = """\
# A list.
most 2
fixed a::Counter::add
fixed a::Named::name
fixed a::whole
a::half: a/caller.rt, it is even
a::laws_of: a/caller.rt, this is no function
"""


class Conditions(unittest.TestCase):
    def setUp(self) -> None:
        folder = tempfile.TemporaryDirectory()
        self.addCleanup(folder.cleanup)
        self.crates = Path(folder.name)
        source = self.crates / "a/src"
        source.mkdir(parents=True)
        for name, text in (("lib", LIB), ("inner", INNER), ("hidden", HIDDEN), ("laws", LAWS), ("caller", "fn f() {\n    half(4);\n}\n")):
            (source / f"{name}.rt").write_text(text)
        program = self.crates / "b/src"
        program.mkdir(parents=True)
        (program / "main.rt").write_text(LIB)

    def test_only_what_another_crate_can_name(self) -> None:
        self.assertEqual(public_functions(self.crates / "a"), {
            "a::whole": 1, "a::free": 0, "a::Counter::add": 2, "a::Counter::total": 0, "a::half": 1,
            "a::Named::name": 1, "a::Named::size": 0, "a::a_law": 1,
        })
        self.assertEqual(public_functions(self.crates / "b"), {})

    def test_conditions(self) -> None:
        self.assertEqual(with_conditions(self.crates), ["a::Counter::add", "a::Named::name", "a::a_law", "a::half", "a::whole"])

    def test_differences(self) -> None:
        found = differences(self.crates, read_list(LIST))
        self.assertEqual(len(found), 3)
        self.assertIn("a::a_law has a condition", found[0])
        self.assertIn("a::laws_of is no public function", found[1])
        self.assertIn("crates/a/src/caller.rt does not call a::laws_of", found[2])

    def test_callers(self) -> None:
        names = "most 2\nfixed a::a_law\nfixed a::Named::name\nfixed a::whole\n"
        called = names + "a::Counter::add: a/caller.rt, b\na::half: a/caller.rt, b\n"
        self.assertEqual(differences(self.crates, read_list(called)), ["tools/conditions.txt: crates/a/src/caller.rt does not call a::Counter::add"])
        (self.crates / "a/src/caller.rt").write_text("fn half(n: u8) {\n    Counter::add(n, x.half(3));\n}\n")
        self.assertEqual(differences(self.crates, read_list(called)), ["tools/conditions.txt: crates/a/src/caller.rt does not call a::half"])

    def test_numbers(self) -> None:
        more = "most 1\nfixed a::a_law\nfixed a::Named::name\nfixed a::whole\nfixed a::Counter::add\nfixed a::half\n"
        self.assertEqual(differences(self.crates, read_list(more)),
                         ["tools/conditions.txt: 0 functions have conditions that are not fixed, and `most` is 1"])

    def test_forms(self) -> None:
        self.assertEqual(read_list("a::b a reason\n").wrong, ["tools/conditions.txt:1: this line has none of the three forms"])

    def test_this_repository(self) -> None:
        self.assertEqual(checked(), [])
        self.assertEqual(public_functions(CRATES / "arena")["arena::Arena::new"], 3)
