"""The public functions of the crates that may be called only under a condition (`requires`), compared with tools/conditions.txt.

A function is public if another crate can name it: it is `pub`, and so are its type and its modules, or lib.rt exports the name. Methods of
a public trait count too. In conditions.txt a line `fixed CRATE::NAME` names one whose name and conditions are fixed, since users of the crate
call it as it is. Each of the others has a line `CRATE::NAME: CRATE/FILE, REASON`, with a caller that meets the conditions, and why it does.
The line `most NUMBER` is how many others there may be.
"""

from __future__ import annotations

import re
from collections.abc import Iterator
from dataclasses import dataclass, field
from pathlib import Path

CRATES = Path(__file__).resolve().parent.parent / "crates"
LIST = Path(__file__).resolve().with_suffix(".txt")
FUNCTION = re.compile(r'(?P<pub>pub(?P<within>\([^)]*\))? )?(?:(?:const|unsafe|extern(?: "C")?) )*fn (?P<name>\w+)')
TYPE = re.compile(r"pub (?:struct|enum|trait) (\w+)")
# an import for other crates: the modules, and then one name or a list of names
EXPORT = re.compile(r"^pub use (?P<path>(?:\w+::)+)(?:\{(?P<names>[^}]*)\}|(?P<name>\w+)(?: as \w+)?);", re.M)


@dataclass(frozen=True)
class Header:
    """A function as its header has it: the type or trait of which it is a method, and the number of its conditions."""

    name: str
    owner: str | None
    is_public: bool
    conditions: int


@dataclass
class Source:
    """A file of a crate: the modules that lead to it, the public types and functions, and the modules and names that it makes public."""

    modules: tuple[str, ...]
    types: set[str] = field(default_factory=set)
    headers: list[Header] = field(default_factory=list)
    public_modules: set[str] = field(default_factory=set)
    exports: set[tuple[tuple[str, ...], str]] = field(default_factory=set)


def without_parameters(text: str) -> str:
    """The text without type parameters at its front, `<..>`."""
    depth = 0
    for at, letter in enumerate(text):
        depth += {"<": 1, ">": -1}.get(letter, 0)
        if depth == 0:
            return text[at + 1:] if letter == ">" else text
    return text


def owner_of(line: str) -> tuple[str | None, bool]:
    """The type of a block of methods that begins with this line, and whether the methods of a trait are public as the trait is."""
    if found := re.match(r"pub (?:unsafe )?trait (\w+)", line):
        return found[1], True
    if line.startswith("impl"):
        rest = without_parameters(line.removeprefix("unsafe ").removeprefix("impl")).strip()
        if " for " not in rest and (found := re.match(r"(?:\w+::)*(\w+)", rest)):
            return found[1], False
    return None, False


def conditions(lines: list[str], at: int) -> int:
    """The number of conditions of the function whose header begins at this line."""
    margin = lines[at][:len(lines[at]) - len(lines[at].lstrip())]
    count, has_clauses = 0, False
    for line in lines[at:]:
        clause = re.match(rf"{margin}    (requires|ensures)\b", line)
        has_clauses = has_clauses or clause is not None
        count += clause is not None and clause[1] == "requires"
        if line == margin + "{" or line.endswith(";") or not has_clauses and re.search(r"[{}]$", line):
            break
    return count


def read_source(modules: tuple[str, ...], text: str) -> Source:
    source = Source(modules)
    lines = text.splitlines()
    owner: str | None = None
    is_of_trait = False
    for at, line in enumerate(lines):
        if line == "}":
            owner, is_of_trait = None, False
        elif re.match(r"(?:unsafe )?impl\b|pub (?:unsafe )?trait ", line) and not line.endswith("}"):
            owner, is_of_trait = owner_of(line)
            if owner is None:
                # the methods of an impl of a trait have the trait's conditions
                owner = ""
        if found := TYPE.match(line):
            source.types.add(found[1])
        if found := re.match(r"pub mod (\w+);", line):
            source.public_modules.add(found[1])
        if found := FUNCTION.match(line.strip()):
            is_public = bool(found["pub"]) and not found["within"] or is_of_trait
            if owner != "" and (owner is not None) == line.startswith(" "):
                source.headers.append(Header(found["name"], owner, is_public, conditions(lines, at)))
    for export in EXPORT.finditer(text):
        path = tuple(part for part in export["path"].split("::") if part and part not in ("crate", "self"))
        names = export["name"] or export["names"]
        source.exports |= {(path, name.split(" as ")[0].strip()) for name in names.split(",") if name.strip()}
    return source


def sources_of(crate: Path) -> Iterator[Source]:
    for path in sorted((crate / "src").rglob("*.rt")):
        modules = path.relative_to(crate / "src").with_suffix("").parts
        yield read_source(() if modules in (("lib",), ("main",)) else modules, path.read_text())


def public_functions(crate: Path) -> dict[str, int]:
    """The number of conditions of each function of a crate that another crate can name, by the function's name with its type."""
    sources = list(sources_of(crate))
    by_modules = {source.modules: source for source in sources}
    if () not in by_modules or not (crate / "src/lib.rt").is_file():
        return {}
    open_modules: set[tuple[str, ...]] = {()}
    waiting: list[tuple[str, ...]] = [()]
    exports: set[tuple[tuple[str, ...], str]] = set()
    while waiting:
        source = by_modules[waiting.pop()]
        exports |= {((*source.modules, *path) if (*source.modules, *path) in by_modules else path, name)
                    for path, name in source.exports}
        for module in source.public_modules:
            inner = (*source.modules, module)
            if inner in by_modules and inner not in open_modules:
                open_modules.add(inner)
                waiting.append(inner)
    found: dict[str, int] = {}
    types = {name for source in sources for name in source.types
             if source.modules in open_modules or (source.modules, name) in exports}
    for source in sources:
        for header in source.headers:
            named = header.owner in types if header.owner else source.modules in open_modules or (source.modules, header.name) in exports
            if header.is_public and named:
                found["::".join((crate.name, *([header.owner] if header.owner else []), header.name))] = header.conditions
    return found


def with_conditions(crates: Path) -> list[str]:
    """The public functions of all crates that have conditions."""
    return sorted(name for crate in crates.iterdir() for name, count in public_functions(crate).items() if count)


@dataclass
class Listed:
    """What the list has: the names that are fixed, the caller and the reason of each of the others, and how many there may be."""

    fixed: set[str] = field(default_factory=set)
    others: dict[str, tuple[str, str]] = field(default_factory=dict)
    most: int = 0
    wrong: list[str] = field(default_factory=list)


def read_list(text: str) -> Listed:
    listed = Listed()
    for number, line in enumerate(text.splitlines(), 1):
        if not line or line.startswith("#"):
            continue
        if found := re.fullmatch(r"most (\d+)", line):
            listed.most = int(found[1])
        elif found := re.fullmatch(r"fixed ([\w:]+)", line):
            listed.fixed.add(found[1])
        elif found := re.fullmatch(r"(\w+(?:::\w+)+): (\w+/[\w/]+\.rt), (\S.*)", line):
            listed.others[found[1]] = (found[2], found[3])
        else:
            listed.wrong.append(f"tools/conditions.txt:{number}: this line has none of the three forms")
    return listed


def call_of(name: str) -> re.Pattern[str]:
    """What a call of this function looks like: `x.name(` or `Type::name(` of a method, `name(` of a function of a crate."""
    crate_and_owner, _, function = name.rpartition("::")
    _, _, owner = crate_and_owner.partition("::")
    return re.compile(rf"(?:\.|\b{owner}::){function}\(" if owner else rf"(?<!fn )(?<!\.)\b{function}\(")


def caller_path(crates: Path, caller: str) -> Path:
    crate, _, rest = caller.partition("/")
    return crates / crate / "src" / rest


def differences(crates: Path, listed: Listed) -> list[str]:
    """What is wrong: a name that is not listed, or listed and not there, a caller that does not call, and too many others."""
    names = set(with_conditions(crates))
    wrong = list(listed.wrong)
    wrong += [f"tools/conditions.txt: {name} is listed twice" for name in sorted(listed.fixed & listed.others.keys())]
    wrong += [f"{name} has a condition, and tools/conditions.txt does not list it: a type in place of the condition, or `pub(crate)`?"
              for name in sorted(names - listed.fixed - listed.others.keys())]
    wrong += [f"tools/conditions.txt: {name} is no public function with a condition"
              for name in sorted((listed.fixed | listed.others.keys()) - names)]
    for name, (caller, _) in sorted(listed.others.items()):
        path = caller_path(crates, caller)
        if not path.is_file() or not call_of(name).search(path.read_text()):
            wrong.append(f"tools/conditions.txt: crates/{path.relative_to(crates)} does not call {name}")
    if len(listed.others) != listed.most:
        wrong.append(f"tools/conditions.txt: {len(listed.others)} functions have conditions that are not fixed, and `most` is {listed.most}")
    return wrong


def checked() -> list[str]:
    """What is wrong in this repository."""
    return differences(CRATES, read_list(LIST.read_text()))


def shown() -> str:
    """The functions that are not fixed, each with its caller, and the numbers."""
    listed = read_list(LIST.read_text())
    lines = [f"{name}: crates/{caller_path(CRATES, caller).relative_to(CRATES)}: {reason}"
             for name, (caller, reason) in sorted(listed.others.items())]
    return "\n".join([*lines, f"{len(listed.fixed)} fixed, {len(listed.others)} others"])
