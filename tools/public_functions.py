"""The functions of tools/public_functions.txt, compared with the sources.

A function is exported if its crate has it as `pub fn`, or as a function of a public trait, and `pub use` in src/lib.rt names it or its type; or
if the crate re-exports it from another one.

It is called if a file of a third crate has the text of a call: this is a search by text, which knows no types. The file has to import the
function, or the type or trait of a method, from a crate that exports it, and to have `function(`, or `.method(` or `Type::method(`. So a method
of the same name on another type in such a file counts, too, but not `self.method(`, since `self` has a type of the file's crate. Comments do not
count.
"""

from __future__ import annotations

import re
from collections.abc import Iterator, Mapping
from dataclasses import dataclass
from pathlib import Path

TOP = Path(__file__).resolve().parent.parent
LIST = TOP / "tools/public_functions.txt"
LINE = re.compile(r"(\w+): (?:([A-Z]\w*)::)?([a-z]\w*)")
COMMENT = re.compile(r"//[^\n]*")
USE = re.compile(r"^ *(pub )?use (\w+)(?:::\w+)*::(?:(\w+)|\{([^{}]*)\});", re.M)
# A type's functions, and those of a trait, up to the brace in the first column that closes them.
BLOCK = r"^(?:impl(?:<[^\n]*>)? {0}\b(?:<[^\n]*>)? \{{|pub trait {0}\b[^{{]*\{{)\n(.*?)^\}}"

Texts = Mapping[str, Mapping[str, str]]


@dataclass(frozen=True)
class Function:
    """A function, or a method of a type or trait, of a crate."""

    crate: str
    owner: str | None
    name: str

    def __str__(self) -> str:
        return f"{self.crate}: {f'{self.owner}::' if self.owner else ''}{self.name}"

    @property
    def item(self) -> str:
        """What a file imports to call it."""
        return self.owner or self.name

    def is_defined(self, text: str) -> bool:
        if self.owner is None:
            return re.search(rf"^pub fn {self.name}\b", text, re.M) is not None
        blocks = re.finditer(BLOCK.format(self.owner), text, re.M | re.S)
        return any(re.search(rf"^    {'' if block[0].startswith('pub trait') else 'pub '}fn {self.name}\b", block[1], re.M) for block in blocks)

    def is_called(self, text: str) -> bool:
        if self.owner is None:
            return re.search(rf"(?<![\w.:])(?<!fn ){self.name}\(", text) is not None
        return re.search(rf"(?<!\bself)\.{self.name}\(|\b{self.owner}::{self.name}\(", text) is not None


def sources() -> dict[str, dict[str, str]]:
    """The texts of each crate without their comments, by the names of their files."""
    texts: dict[str, dict[str, str]] = {}
    for path in sorted((TOP / "crates").glob("*/src/**/*.rt")):
        crate = path.relative_to(TOP / "crates").parts[0]
        texts.setdefault(crate, {})[str(path.relative_to(TOP))] = COMMENT.sub("", path.read_text())
    return texts


def uses(text: str, is_public: bool) -> Iterator[tuple[str, str]]:
    """The first word of the path, and the item, of each item that a file imports or exports."""
    for public, first, one, several in USE.findall(text):
        if bool(public) == is_public:
            yield from ((first, item) for item in re.findall(r"\w+", one or several))


def home(texts: Texts, crate: str, item: str) -> str | None:
    """The crate in which an item that this one exports is defined."""
    root = next((text for name, text in texts[crate].items() if name.endswith("src/lib.rt")), "")
    for first, found in uses(root, True):
        if found == item:
            is_module = re.search(rf"^(?:pub )?mod {first};", root, re.M) is not None
            return crate if is_module or first not in texts else home(texts, first, item)
    return None


def imports(text: str, crates: set[str], item: str) -> bool:
    return any(first in crates and found == item for first, found in uses(text, False))


def callers(texts: Texts, function: Function) -> list[str]:
    """The files that call a function, of crates other than its own."""
    own = home(texts, function.crate, function.item)
    exporters = {crate for crate in texts if home(texts, crate, function.item) == own}
    return [name for crate, files in texts.items() if crate not in (own, function.crate) for name, text in files.items()
            if imports(text, exporters, function.item) and function.is_called(text)]


def fault(texts: Texts, function: Function) -> str | None:
    """What is wrong with a function of the list, if anything is."""
    own = home(texts, function.crate, function.item) if function.crate in texts else None
    if own is None or not any(function.is_defined(text) for text in texts[own].values()):
        return f"{function}: the crate exports no such function"
    if not callers(texts, function):
        return f"{function}: nothing outside of its crate calls it; a case or a proved caller would"
    return None


def listed(text: str) -> tuple[list[Function], list[str]]:
    """The functions of a list, and what is wrong with its lines."""
    functions: list[Function] = []
    wrong = []
    for number, line in enumerate(text.splitlines(), 1):
        if line.startswith("#"):
            continue
        found = LINE.fullmatch(line)
        if found is None:
            wrong.append(f"line {number} is no CRATE: FUNCTION: {line}")
        elif (function := Function(found[1], found[2], found[3])) in functions:
            wrong.append(f"line {number} repeats {function}")
        else:
            functions.append(function)
    return functions, wrong


def wrong_functions() -> list[str]:
    functions, wrong = listed(LIST.read_text())
    texts = sources()
    wrong += [told for function in functions if (told := fault(texts, function))]
    return [f"{LIST}: {line}" for line in wrong]
