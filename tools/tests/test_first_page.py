"""tools/first-page finds the commands of the page, the outputs that it shows, and what is too long."""

from __future__ import annotations

import unittest

from tests.scripts import load_script

PAGE = """# A title

## Two commands

The first.

    tools/one

shows

```text
first
..
third
```

    tools/two

## Pages

| [a](docs/A.md) | [b](docs/B.md), ![c](docs/C.md) |
"""
GATE = '#!/usr/bin/env bash\nexec "$(dirname "$0")/../tools/two"\n'


class FirstPage(unittest.TestCase):
    def setUp(self) -> None:
        self.script = load_script("first-page")

    def test_commands(self) -> None:
        self.assertEqual(self.script.commands(PAGE), ["tools/one", "tools/two"])

    def test_commands_stand_alone(self) -> None:
        self.assertEqual(self.script.commands(PAGE.replace("    tools/one\n", "    tools/one\n    more\n")), ["tools/two"])

    def test_shown_lines(self) -> None:
        shown = self.script.shown_lines(PAGE)
        self.assertEqual(shown, ["first", "third"])
        self.assertEqual(self.script.missing_lines(shown, "first\nsecond\nthird\n"), [])
        self.assertEqual(self.script.missing_lines(shown, "third\nfirst\n"), ["third"])
        self.assertEqual(self.script.missing_lines(shown, "first\n thirds\n"), ["third"])

    def test_right_page(self) -> None:
        self.assertEqual(self.script.wrong_readme(PAGE, GATE), [])

    def test_wrong_pages(self) -> None:
        for page, gate, word in (
            (PAGE + "\n" * 120, GATE, "120"),
            (PAGE.replace("    tools/two\n", "tools/two\n"), GATE, "1 commands"),
            (PAGE, GATE.replace("two", "three"), "which is not tools/two"),
            (PAGE, GATE + "echo done\n", "which is not tools/two"),
        ):
            with self.subTest(word):
                wrong = self.script.wrong_readme(page, gate)
                self.assertEqual(len(wrong), 1)
                self.assertIn(word, wrong[0])

    def test_index(self) -> None:
        self.assertEqual(self.script.wrong_index(PAGE, ["docs/A.md", "docs/B.md"]), [])
        self.assertEqual(self.script.wrong_index(PAGE, ["docs/C.md"]), ['README.md has no link to docs/C.md in the section "Pages"'])
        self.assertEqual(len(self.script.wrong_index("[a](docs/A.md)\n" + PAGE.replace("docs/A.md", "A.md"), ["docs/A.md"])), 1)

    def test_what_is_no_compiler(self) -> None:
        taken = ["cc", "gcc", "gcc-12", "clang-14", "c++", "x86_64-linux-gnu-gcc-12", "clang++"]
        kept = ["cat", "cp", "rt", "gcore", "ccache-no", "objdump"]
        self.assertEqual([name for name in taken + kept if self.script.COMPILERS.fullmatch(name)], taken)
