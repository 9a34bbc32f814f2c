"""Reads files of definitions (.antt) and of code with contracts (.rt): what each defines, and which names a definition cites.

The text is not parsed as a language: words are recognized by the project's layout. A name that is bound (by a λ, a parameter, a field, the
left-hand side of an equation) is no citation; all others are looked up in the file and its imports.
"""

from __future__ import annotations

import functools
import re
import sys
from collections.abc import Iterator
from dataclasses import dataclass
from pathlib import Path

TOP = Path(__file__).resolve().parents[2]
CRATES = TOP / "crates"
WORD = r"[^\W\d]\w*"
DEFINES = re.compile(rf"(?:abbrev |unfoldable )?pub (?:record |data )?({WORD})")
TOKEN = re.compile(rf"(?<![.\w]){WORD}(?:\.\w+)*|[λ(){{}}:]|\.(?= )|(?<![=<>])=(?!=)|\n")
IMPORT = re.compile(r"Rattle\.(\w+)\.specs\.([\w.]+?)(?:\.\{(.*)\}| as (\w+))")
# The keyword of a type's declaration in the code.
TYPE = r"^pub(?:\(crate\))? (?:struct|enum|trait) {}\b"


@dataclass(frozen=True, order=True)
class Place:
    """A file of a crate, as `specs/Served.antt` of `host_core`."""

    crate: str
    path: str

    @property
    def file(self) -> Path:
        return CRATES / self.crate / self.path

    def __str__(self) -> str:
        return f"{self.crate}/{self.path}"


@dataclass(frozen=True, order=True)
class Name:
    """A definition: its file, and its name in that file."""

    place: Place
    word: str

    def __str__(self) -> str:
        return f"{self.place}: {self.word}"


def declared(path: str) -> tuple[str, str | None]:
    """The file of code that a path below `declared` names, and the type, if it names one."""
    *module, kind = re.sub(r"^declared\.|\.The(Variants|Inside)$", "", path).split(".")
    return f"src/{'/'.join(module) or 'lib'}.rt", None if kind == "TheConstants" else kind


class File:
    """What a file imports, and its definitions: for each name the texts of its signature and of its equations.

    `kit` has the names that come from the kit's crates, by the file of the kit that they come from.
    """

    def __init__(self, place: Place) -> None:
        self.place = place
        self.imports: dict[str, Name] = {}
        self.aliases: dict[str, tuple[Place, str | None]] = {}
        self.kit: dict[str, str] = {}
        self.variant_of: dict[str, str] = {}
        self.texts: dict[str, list[str]] = {}
        self.counts: dict[str, int] = {}
        text = place.file.read_text()
        if place.path.endswith(".rt"):
            self.read_code(text)
        else:
            self.read_definitions(text)

    # ---- reading

    def take_import(self, line: str) -> None:
        found = IMPORT.fullmatch(line)
        if not found:
            return
        crate, module, listed, alias = found.groups()
        names = [entry.strip().partition(" as ") for entry in (listed or "").split(",") if entry.strip()]
        if not (CRATES / crate).is_dir():
            self.kit.update((other or name, f"{crate}: {module.replace('.', '/')}") for name, _, other in names)
            return
        path, whole = f"specs/{module.replace('.', '/')}.antt", None
        if module.startswith("declared."):
            path, whole = declared(module)
        place = Place(crate, path)
        if not place.file.is_file():
            return
        if alias:
            self.aliases[alias] = (place, whole)
        for name, _, other in names:
            self.imports[other or name] = Name(place, whole or name)

    def read_definitions(self, text: str) -> None:
        base, name, shared = 0, "", ""
        for line in re.sub(r"(^|\s)--.*", "", text, flags=re.M).splitlines():
            words, indent = line.strip(), len(line) - len(line.lstrip())
            if not words:
                continue
            if indent < base:
                base, shared = 0, ""
            defines = DEFINES.match(words) if indent == base and not words.startswith("pub mod ") else None
            if import_ := re.match(r"(?:pub )?use (.*)", words):
                self.take_import(import_[1])
            elif words.startswith("module "):
                base, shared = 2, words
            elif defines:
                name = defines[1]
                self.texts[name], self.counts[name] = [f"{shared} {words}"], 1
            elif name:
                self.go_on(name, words, is_equation=indent == base)

    def go_on(self, name: str, words: str, is_equation: bool) -> None:
        """One more line of a definition: a new equation, or the continuation of the last one."""
        self.counts[name] += 1
        if is_equation:
            self.texts[name].append(words)
            return
        self.texts[name][-1] += "\n" + words
        if " data " in self.texts[name][0] and (variant := re.match(rf"({WORD}) :", words)):
            self.variant_of[variant[1]] = name

    def read_code(self, text: str) -> None:
        for line in re.findall(r"ghost use ([^;]*);", text):
            self.take_import(line)
        for path, listed in re.findall(r"^use ([\w:]+?)(?:::\{([^}]*)\})?;", text, re.M):
            crate, *rest = path.split("::")
            for name in re.findall(WORD, listed) or rest[-1:]:
                if found := type_in(self.place.crate if crate == "crate" else crate, name):
                    self.imports[name] = found
        bare = re.sub(r"^ *//.*\n|^ *#\[.*?\]\n", "", text, flags=re.M)
        for name, body in re.findall(r"^pub(?:\(crate\))? (?:struct|enum) (\w+)(.*?)(?:^}|;)$", bare, re.M | re.S):
            self.add(name, self.seen(name, body, bare))
        for name, body in re.findall(r"^pub trait (\w+)(.*?)^}$", bare, re.M | re.S):
            self.add(name, body)
        for name, body in re.findall(r"^pub const (\w+)(: .*?);$", bare, re.M | re.S):
            self.add(name, body)
        for name, contract in re.findall(r"^ *pub fn (\w+)(.*?)^ *{}?$", bare, re.M | re.S):
            if name not in self.texts:
                self.add(name, contract)

    def seen(self, name: str, body: str, text: str) -> str:
        """What contracts see of a type: its fields, or its `Model`, and what its trait implementations state of it."""
        model = re.search(rf"^impl Model for {name} {{.*?ghost Value = {{(.*?)}};", text, re.M | re.S)
        if model:
            return model[1]
        ghosts = re.findall(rf"^impl<.*?> \w+ for {name}<\w+> {{\n(.*?)^}}$", text, re.M | re.S)
        lines = re.findall(r"^    ghost \w+ = .*$", "".join(ghosts), re.M)
        fields = re.sub(r"^ +(?:pub )?\w+: ", "    ", body, flags=re.M) if ghosts else body
        return "\n".join([fields.rstrip(), *lines])

    def add(self, name: str, text: str) -> None:
        self.texts[name] = [text]
        self.counts[name] = max(1, sum(1 for line in text.splitlines() if line.strip()))

    # ---- what is cited

    def name_of(self, word: str) -> Name | None:
        """The definition that a word names in this file, if it is one of this repository."""
        head, _, rest = word.partition(".")
        found: Name | None
        if head in self.aliases and rest:
            place, whole = self.aliases[head]
            found = Name(place, whole or rest.partition(".")[0])
        elif head in self.variant_of or head in self.texts:
            found = Name(self.place, self.variant_of.get(head, head))
        else:
            found = self.imports.get(head)
        if found and found.place != self.place:
            file = file_of(found.place)
            return found if found.word in file.texts else file.name_of(found.word)  # a variant, or re-exported
        return found

    def is_variant(self, word: str) -> bool:
        found = self.name_of(word)
        return found is not None and (found.word != word or "." in word)

    def bound(self, text: str) -> set[str]:
        """The names that a λ, a parameter, a field, a `let`, a `ghost` or the left-hand side of an equation binds in a text."""
        tokens, found = TOKEN.findall(re.sub(r'"[^"]*"', "", text)), set(re.findall(r"\bghost (\w+)", text))
        for at, token in enumerate(tokens):
            if token in "λ({" or token == "pub":
                names = []
                for next_ in tokens[at + 1:]:
                    if not re.fullmatch(WORD, next_):
                        break
                    names.append(next_)
                if tokens[at + 1 + len(names):][:1] == [":"] or token == "λ":
                    found.update(names)
            if token == "let":
                found.add(tokens[at + 1])
        return found

    def free_words(self, name: str) -> Iterator[str]:
        """The words of a definition that it does not bind itself."""
        for text in self.texts[name]:
            bound = self.bound(text)
            if not DEFINES.search(text) and not self.place.path.endswith(".rt"):
                for line in text.split("\n") if "\nwhere\n" in text else [text]:
                    left, is_equation, _ = line.partition(" =")
                    if is_equation:
                        bound.update(word for word in TOKEN.findall(left) if not self.is_variant(word))
            text = re.sub(rf'"[^"]*"|(?<![.\w]){WORD} =(?![=>])', "", text)  # a string, a label
            yield from (word for word in TOKEN.findall(text) if word.partition(".")[0] not in bound)

    def cited(self, name: str) -> Iterator[Name]:
        for word in self.free_words(name):
            if found := self.name_of(word):
                yield found

    def cited_of_kit(self, name: str) -> Iterator[tuple[str, str]]:
        """The names of the kit that a definition cites, with their files; an operator counts if all its signs are there."""
        words = {word.partition(".")[0] for word in self.free_words(name)}
        text = " ".join(self.texts[name])
        for kit_name, file in self.kit.items():
            if "◌" in kit_name:
                signs = [sign for sign in kit_name.split("◌") if sign]
                is_cited = all(re.search(rf"(?<!\w){re.escape(s)}(?!\w)" if s.isalpha() else re.escape(f" {s}"), text) for s in signs)
            else:
                is_cited = kit_name in words or (not kit_name.isidentifier() and kit_name in text)
            if is_cited:
                yield file, kit_name


@functools.cache
def file_of(place: Place) -> File:
    return File(place)


@functools.cache
def type_in(crate: str, name: str) -> Name | None:
    """The type or the trait of a crate's code that has this name."""
    for path in sorted((CRATES / crate / "src").rglob("*.rt")):
        if re.search(TYPE.format(name), path.read_text(), re.M):
            return Name(Place(crate, str(path.relative_to(CRATES / crate))), name)
    return None


def closure(roots: list[Name], stops: frozenset[Name] = frozenset()) -> set[Name]:
    """The names that these rest on, including these; stops and what they rest on are left out."""
    found: set[Name] = set()
    left = list(roots)
    while left:
        name = left.pop()
        if name in found or name in stops:
            continue
        file = file_of(name.place)
        if name.word not in file.texts:
            sys.exit(f"trusted: there is no {name.word} in crates/{name.place}")
        found.add(name)
        left.extend(file.cited(name.word))
    return found
