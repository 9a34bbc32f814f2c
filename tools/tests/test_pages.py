"""tools/pages finds dead links, names that do not exist or that another crate has, and tables that occur twice."""

from __future__ import annotations

import tempfile
import unittest
from pathlib import Path
from typing import Any
from unittest import mock

from tests.scripts import load_script


class Pages(unittest.TestCase):
    def setUp(self) -> None:
        self.pages = load_script("pages")
        folder = tempfile.TemporaryDirectory()
        self.addCleanup(folder.cleanup)
        self.top = Path(folder.name).resolve()
        self.have("TOP", self.top)

    def have(self, name: str, value: Any) -> None:
        """Gives the script another value of a constant during a test."""
        patch = mock.patch.object(self.pages, name, value)
        patch.start()
        self.addCleanup(patch.stop)

    def page(self, name: str, text: str) -> Path:
        path = self.top / name
        path.write_text(text)
        return path

    def test_links(self) -> None:
        self.page("other.md", "# A heading, `with` signs\n\n```\n# no heading\n```\n")
        text = "[a](other.md#a-heading-with-signs) [b](https://x.y/z) [c](other.md#no-heading) [d](gone.md) and lost.md"
        wrong = self.pages.dead_links(self.page("page.md", text), text)
        self.assertEqual(wrong, ["page.md: the link other.md#no-heading leads to no heading", "page.md: the link gone.md leads to no file",
                                 "page.md: there is no page lost.md"])

    def test_second_heading_of_a_name(self) -> None:
        page = self.page("page.md", "# Same\n## Same\n")
        self.assertEqual(self.pages.anchors(page), {"same", "same-1"})

    def test_names(self) -> None:
        text = "`is_known`, `is_gone`, `word` and `AlsoGone`"
        wrong = self.pages.unknown_names(self.page("page.md", text), text, {"is_known"})
        self.assertEqual(wrong, ["page.md: no file has the name AlsoGone", "page.md: no file has the name is_gone"])

    def test_files(self) -> None:
        text = "`src/kept.rt`, `gone.antt` and `crate/src/kept.rt`"
        wrong = self.pages.unknown_files(self.page("page.md", text), text, [self.top / "crates/crate/src/kept.rt"])
        self.assertEqual(wrong, ["page.md: there is no file gone.antt"])

    def crates(self) -> Any:
        """Crates that have the names which the tests cite: `upper` depends on `lower`, and `other` on neither."""
        contract = "    ensures kept {{ {0}_promise }}\n\n    ensures {{ Holds{0} x }}\n{{\n    {0}_body();\n}}\n"
        for crate in ("upper", "lower", "other"):
            folder = self.top / "crates" / crate / "src"
            folder.mkdir(parents=True)
            (folder / "lib.rt").write_text(f"/// A type.\npub struct Has{crate} {{\n    field: u8,\n}}\n\npub fn {crate}_call(x: u8)\n" + contract.format(crate))
            (folder / "laws.antt").write_text(f"pub record Holds{crate} (n : N) where\n  pub {crate}_field : N\n")
        (self.top / "crates.txt").write_text("# top\nupper staticlib: lower kit\nlower:\nother:\n")
        return self.pages.Sources([*self.top.rglob("*.rt"), *self.top.rglob("*.antt"), self.top / "crates.txt"])

    def wrong_names(self, text: str) -> list[str]:
        page, sources = self.page("page.md", text), self.crates()
        return [line.removeprefix("page.md:") for unit in self.pages.units(page, sources)
                for line in self.pages.names_of_other_crates(unit, sources) + self.pages.misplaced_names(unit, sources)]

    def test_names_of_other_crates(self) -> None:
        text = "A\n`other_call`. `upper` has `upper_call`, `lower_call`, `Hasother::field`\nand `kit`. So `lower` has `upper_call`.\n\n- `upper` is\n- not `other_call`\n"
        self.assertEqual(self.wrong_names(text), ["1: Hasother does not stand in upper, nor below", "1: upper_call does not stand in lower, nor below"])

    def test_names_below_a_heading_of_a_crate(self) -> None:
        text = "## `lower`\n\nIt has `other_call`, and `upper_call` in `upper/src/lib.rt`. This is `other_call` of `other`.\n\n# Others\n\n`other_call`\n"
        self.assertEqual(self.wrong_names(text), ["3: other_call does not stand in lower or upper, nor below"])

    def test_names_in_tables(self) -> None:
        text = "| Place | Name |\n|---|---|\n| `upper/src/lib.rt` | `upper_call` |\n| | `lower_call`, `other_call` |\n| here | `other_call` |\n"
        self.assertEqual(self.wrong_names(text), ["4: other_call does not stand in upper, nor below"])

    def test_names_in_files(self) -> None:
        text = "`upper_call`, `gone` and `field` in `upper/src/lib.rt`; `lower_call` in `lib.rt`"
        self.assertEqual(self.wrong_names(text), ["1: gone does not stand in upper, nor below", "1: upper/src/lib.rt does not have gone"])

    def test_names_of_contracts(self) -> None:
        text = "`kept`, `lower_field` and `lower_body` of `lower_call`, `field` of `Haslower`, `x` of the private `lower_call`, `kept` of `gone`"
        self.assertEqual(self.wrong_names(text), ["1: lower_call does not have lower_body"])

    def test_names_of_a_crate_itself(self) -> None:
        self.assertEqual(self.wrong_names("`lower_call` of `upper`"), ["1: upper does not have lower_call"])

    def test_heads(self) -> None:
        sources = self.crates()
        head = self.top / "crates/lower/src/head.rt"
        head.write_text("//! # What is proved\n//!\n//! `lower_call`, and\n//! `upper_call`; `lower_body` of `lower_call`.\npub fn upper_call() {}\n")
        wrong = [line for unit in self.pages.units(head, sources) for line in self.pages.names_of_other_crates(unit, sources) + self.pages.misplaced_names(unit, sources)]
        self.assertEqual(wrong, ["crates/lower/src/head.rt:3: upper_call does not stand in lower, nor below",
                                 "crates/lower/src/head.rt:3: lower_call does not have lower_body"])

    def test_words_of_a_head(self) -> None:
        self.assertEqual(self.pages.head_of("//! One.\n//!\n//!  two\nmod x;\n//! no\n"), "One.\n\n two\n")
        path = self.top / "head.rt"
        path.write_text("//! `only_here`\nfn call() {}\n")
        self.assertEqual(self.pages.Sources([path]).words[path], {"fn", "call", "head"})

    def test_name_that_is_no_crate(self) -> None:
        self.have("NO_CRATE", {("page.md", "upper"): "a word"})
        self.assertEqual(self.wrong_names("`upper` and `other_call`"), [])

    def test_tables(self) -> None:
        head = "| A | B | C |\n|---|---|---|\n"
        first = self.page("a.md", head + "| one | 1 | x |\n| two | 2 | x |\n| three | 3 | |\n")
        again = self.page("b.md", head + "| y | one | 1 |\n| y | two | 2 |\n| y | three | 3 |\n| y | four | 4 |\n")
        less = self.page("c.md", head + "| one | 1 | |\n| two | 2 | |\n| three | 4 | |\n")
        self.have("STILL_REPEATED", set())
        self.assertEqual(self.pages.repeated_tables([first, again, less]), ["a.md:1: 3 rows of the table stand at b.md:1 too"])

    def test_order_of_crates(self) -> None:
        crates = "# floors\ntop: low\nmiddle staticlib: low kit\nlow:\n"
        table = "## The crates\n\n| Floor | Crate | Does |\n|---|---|---|\n| a | `top`, `middle` | `x` |\n| | `low` | |\n"
        self.assertEqual(self.pages.wrong_order(crates, table), [])
        self.assertEqual(self.pages.wrong_order("low:\nmiddle:\ntop: low\n", table),
                         ["crates.txt: top uses low, which is before it", "docs/GUIDE.md: the table of crates has top in place of low"])

    def test_long_pages(self) -> None:
        self.have("MOST_LINES", {"a.md": 2})
        self.assertEqual(self.pages.too_long("a.md", "1\n2\n") + self.pages.too_long("b.md", "1\n2\n3\n"), [])
        self.assertEqual(self.pages.too_long("a.md", "1\n2\n3\n"), ["a.md has 3 lines, and 2 are the most"])
        self.have("MOST_BYTES", {"b.md": 5})
        self.assertEqual(self.pages.too_long("b.md", "1\n2\n3\n"), ["b.md has 6 bytes, and 5 are the most"])

    def test_allowed_table_that_is_gone(self) -> None:
        self.have("STILL_REPEATED", {("a.md", "b.md")})
        self.assertEqual(len(self.pages.repeated_tables([self.page("a.md", ""), self.page("b.md", "")])), 1)


if __name__ == "__main__":
    unittest.main()
