"""Functions that two files of specs/ define: equal but for their own names and those of their arguments. One of them is enough, in the
file of its type, and often std has it."""

from __future__ import annotations

import re
from collections import defaultdict
from collections.abc import Iterator, Mapping
from pathlib import Path

CRATES = Path(__file__).resolve().parent.parent / "crates"
DEFINITION = re.compile(r"(?:(?:pub|abbrev|unfoldable) )*([a-zA-Z_][\w'-]*) : .*\n(?:.+\n?)+")
IMPORT = re.compile(r"^(?:pub )?use ([\w.-]+)\.\{(.*)\}$", re.M)
# A name, with the dot before it if it is that of a field.
WORD = re.compile(r"\.?[A-Za-z_][\w'-]*|\S")
MODIFIERS = frozenset(("pub", "abbrev", "unfoldable"))


def known_names(file: str, text: str) -> dict[str, str]:
    """The names that a file defines or imports, each with the path of its definition."""
    known = {found[1]: f"{file}:{found[1]}" for found in DEFINITION.finditer(text)}
    for path, names in IMPORT.findall(text):
        known |= {name.split(" as ")[-1]: f"{path}.{name}" for name in names.split(", ")}
    return known


def shape(definition: str, name: str, known: Mapping[str, str]) -> str:
    """A definition with a number for its own name and for each argument's; these begin with a lower-case letter."""
    numbers = {name: "0"}
    words = [word for word in WORD.findall(definition) if word not in MODIFIERS]
    return " ".join(numbers.setdefault(word, str(len(numbers))) if word == name or (word[0].islower() and word not in known)
                    else known.get(word, word) for word in words)


def shapes(file: str, text: str) -> Iterator[tuple[str, str]]:
    """The names of a file's functions, and the shapes of their definitions."""
    plain, known = re.sub(r"^--.*\n", "", text, flags=re.M), known_names(file, text)
    for found in DEFINITION.finditer(plain):
        if "→" in found[0].partition("\n")[0]:
            yield found[1], shape(found[0], found[1], known)


def faults(texts: Mapping[str, str]) -> list[str]:
    """The faults of files of definitions, by their names."""
    found: defaultdict[str, dict[str, str]] = defaultdict(dict)
    for file, text in texts.items():
        for name, form in shapes(file, text):
            found[form][file] = name
    return [" and ".join(f"`{name}` of {file}" for file, name in same.items()) + " are one definition, which stands twice"
            for same in found.values() if len(same) > 1]


def checked() -> list[str]:
    """What is wrong in this repository."""
    return faults({f"crates/{path.relative_to(CRATES)}": path.read_text() for path in sorted(CRATES.glob("*/specs/**/*.antt"))})
