"""tools/public_functions.py finds what a crate exports and which files call it, and names a function that is missing or that nothing calls."""

from __future__ import annotations

import unittest

from public_functions import LIST, Function, callers, fault, home, listed, sources, wrong_functions

HOUSE = """pub struct House {
    rooms: u8,
}

impl House {
    /// Builds a house.
    pub fn new() -> House {
        House { rooms: 1 }
    }

    pub fn open(&mut self)
        requires { self.old.rooms < 8 }
    {}

    fn hidden(&self) {}
}

impl Doors for House {
    fn knock(&self) {}
}

pub trait Doors {
    fn knock(&self);
}

pub fn visit(house: &House) {}

fn inner() {}
"""
TEXTS = {
    "low": {"crates/low/src/lib.rt": "mod house;\n\npub use house::{Doors, House, visit};\n", "crates/low/src/house.rt": HOUSE},
    "middle": {"crates/middle/src/lib.rt": "mod low_rooms;\n\npub use low::House;\n"},
    "top": {"crates/top/src/main.rt": ""},
}


def with_top(text: str) -> dict[str, dict[str, str]]:
    return {**TEXTS, "top": {"crates/top/src/main.rt": text}}


class PublicFunctions(unittest.TestCase):
    def assert_called(self, text: str, function: Function, is_called: bool = True) -> None:
        self.assertEqual(callers(with_top(text), function), ["crates/top/src/main.rt"] if is_called else [], text)

    def test_where_items_are_defined(self) -> None:
        self.assertEqual(home(TEXTS, "low", "House"), "low")
        self.assertEqual(home(TEXTS, "middle", "House"), "low")
        self.assertIsNone(home(TEXTS, "middle", "visit"))

    def test_a_module_named_as_a_crate(self) -> None:
        root = "mod low;\n\npub use low::House;\n"
        self.assertEqual(home({**TEXTS, "other": {"crates/other/src/lib.rt": root}}, "other", "House"), "other")

    def test_what_is_exported(self) -> None:
        texts = with_top("use low::{Doors, House, visit};\nHouse::new(); house.open(); house.knock(); visit(house); house.hidden();\n")
        for function in (Function("low", "House", "new"), Function("low", "House", "open"), Function("low", "Doors", "knock"),
                         Function("low", None, "visit"), Function("middle", "House", "new")):
            self.assertIsNone(fault(texts, function), str(function))
        for function in (Function("low", "House", "hidden"), Function("low", "House", "knock"), Function("low", None, "inner"),
                         Function("middle", None, "visit"), Function("nowhere", None, "visit")):
            self.assertEqual(fault(texts, function), f"{function}: the crate exports no such function")

    def test_calls_of_functions(self) -> None:
        visit = Function("low", None, "visit")
        self.assert_called("use low::visit;\nvisit(house)\n", visit)
        self.assert_called("use low::{House, visit};\n    visit(house)\n", visit)
        self.assert_called("use low::{\n    House, visit,\n};\nvisit(house)\n", visit)
        self.assert_called("use low::visit;\nrevisit(house)\n", visit, False)
        self.assert_called("use low::visit;\nhouse.visit(1)\n", visit, False)
        self.assert_called("use low::visit;\nfn visit(house: House) {}\n", visit, False)
        self.assert_called("use other::visit;\nvisit(house)\n", visit, False)
        self.assert_called("visit(house)\n", visit, False)

    def test_calls_of_methods(self) -> None:
        opens = Function("low", "House", "open")
        self.assert_called("use low::House;\nhouse.open()\n", opens)
        self.assert_called("use middle::House;\nhouse.open()\n", opens)
        self.assert_called("use low::House;\nHouse::open(&mut house)\n", opens)
        self.assert_called("use low::House;\nself.house.open()\n", opens)
        self.assert_called("use low::House;\nself.open()\n", opens, False)
        self.assert_called("use low::House;\nhouse.opened()\n", opens, False)
        self.assert_called("use low::visit;\ndoor.open()\n", opens, False)

    def test_calls_within_a_crate_do_not_count(self) -> None:
        function = Function("low", None, "visit")
        inside = {**TEXTS["low"], "crates/low/src/caller.rt": "use low::visit;\nvisit(house)\n"}
        self.assertEqual(fault({**TEXTS, "low": inside}, function),
                         "low: visit: nothing outside of its crate calls it; a case or a proved caller would")

    def test_the_list(self) -> None:
        functions, wrong = listed("# a remark\nlow: visit\nlow: House::open\nlow: visit\nlow visit\n\n")
        self.assertEqual(functions, [Function("low", None, "visit"), Function("low", "House", "open")])
        self.assertEqual(wrong, ["line 4 repeats low: visit", "line 5 is no CRATE: FUNCTION: low visit", "line 6 is no CRATE: FUNCTION: "])

    def test_this_repository(self) -> None:
        self.assertEqual(wrong_functions(), [])
        functions, _ = listed(LIST.read_text())
        self.assertIn(Function("bpf_maps", "Maps", "next_key"), functions)
        comments = [name for files in sources().values() for name, text in files.items() if "//" in text]
        self.assertEqual(comments, [])


if __name__ == "__main__":
    unittest.main()
