"""The places to which texts and numbers are written: parts of files, between two marks."""

from __future__ import annotations

import re
from collections.abc import Callable
from dataclasses import dataclass

from generating.shared import Shared, Worded

# How a comment of a file begins and ends, by the file's suffix.
COMMENTS = {".md": ("<!-- ", " -->"), ".h": ("/* ", " */"), ".py": ("# ", ""), ".rs": ("// ", "")}
PYTHON, RUST, HEADER = "clients/python/bpfhost/", "clients/rust/", "clients/c/include/bpfhost.h"
# The limits that the header and the crates for Rust have.
OF_LIBRARY = ("MOST_TENANTS", "FIRST_DESCRIPTOR", "MOST_DESCRIPTORS", "LONGEST_PACKET", "LONGEST_FRAME", "LONGEST_REPLY", "LONGEST_PAYLOAD", "TEST_RUN_HEAD", "LONGEST_PART", "CALL_WEIGHT", "ABI")


@dataclass(frozen=True)
class Place:
    """A part of a file, named by its marks, and the lines that it has to have, without their indent."""

    file: str
    name: str
    lines: Callable[[Shared], list[str]]

    def marks(self) -> tuple[str, str]:
        begins, ends = COMMENTS[self.file[self.file.rindex("."):]]
        return f"{begins}{self.name}: written by tools/generate{ends}", f"{begins}end of {self.name}{ends}"

    def written(self, text: str, shared: Shared) -> str | None:
        """The text with the part written anew; None if the text does not have the two marks, once each."""
        first, last = (re.escape(mark) for mark in self.marks())
        found = re.findall(rf"^( *){first}\n(?:.*\n)*? *{last}$", text, re.M)
        if len(found) != 1:
            return None
        lines = [f"{found[0]}{line}\n" if line else "\n" for line in self.lines(shared)]
        pattern = rf"(?m)^( *{first}\n)(?:.*\n)*?( *{last})$"
        return re.sub(pattern, lambda match: match[1] + "".join(lines) + match[2], text)


def _literal(text: str) -> str:
    """A string of C, Python and Rust."""
    return '"' + text.replace("\\", "\\\\").replace('"', '\\"') + '"'


def _sentence(text: str) -> str:
    return text[0].upper() + text[1:] + "."


def _all_reasons(shared: Shared) -> list[Worded]:
    return [*shared.reasons, *shared.codec]


# Pages.


def _reason_table(shared: Shared) -> list[str]:
    return ["| Number | Reason |", "|---|---|", *(f"| {each.number} | {each.text} |" for each in shared.reasons)]


def _error_numbers(shared: Shared) -> list[str]:
    return [f"Error numbers: {', '.join(f'{each.name} {each.number}' for each in shared.errors)}."]


def _limit_table(shared: Shared) -> list[str]:
    first, many = shared.limit("FIRST_DESCRIPTOR").number, shared.limit("MOST_DESCRIPTORS").number
    most = {each.name: f"{each.number:,}" for each in shared.limits}
    rows = {
        "tenants": f"1 to {most['MOST_TENANTS']}, numbered from 0",
        "open descriptors of a tenant": f"{many}, numbered {first} to {first + many - 1}; a new one is the lowest free number",
        "live maps of a tenant": most["MOST_MAPS"],
        "key": f"1 to {most['LONGEST_KEY']} bytes; 4 in an array",
        "value": f"1 to {most['LONGEST_VALUE']} bytes",
        "entries of a map": f"1 to {most['MOST_ENTRIES']}",
        "area of a map: its entries times the size of a value rounded up to a multiple of 8": f"{most['LARGEST_AREA']} bytes",
        "areas of a tenant's live maps together": f"{most['LARGEST_SUM']} bytes",
        "program": f"1 to {most['MOST_SLOTS']} slots",
        "packet of a test run": f"{most['LONGEST_PACKET']} bytes",
        "frame, without its length field": f"4 to {most['LONGEST_FRAME']} bytes",
        "frames of a stream": most["MOST_FRAMES"],
    }
    return ["| | |", "|---|---|", *(f"| {what} | {limit} |" for what, limit in rows.items())]


def _code_table(shared: Shared) -> list[str]:
    codes = [*shared.codes, *shared.header_codes]
    return ["| Code | |", "|---|---|", *(f"| {each.number} `BPFHOST_{each.name}` | {each.text} |" for each in codes)]


# The client in Python.


def _python_numbers(limits: tuple[str, ...]) -> Callable[[Shared], list[str]]:
    return lambda shared: [f"{name} = {_grouped(shared.limit(name).number)}  # {shared.limit(name).text}" for name in limits]


def _grouped(number: int) -> str:
    """A number as sources have it: with a sign between groups of three digits from 10,000 on."""
    return f"{number:_}" if abs(number) >= 10_000 else str(number)


# The header.


def _define(each: Worded) -> str:
    return f"#define BPFHOST_{each.name} {each.number} /* {each.text} */"


def _members(codes: dict[str, tuple[int, str]]) -> list[str]:
    """Members of an enum in C, each but the last with a comma, their comments below each other."""
    items = [f"BPFHOST_{name} = {number}" for name, (number, _) in codes.items()]
    commas = [f"{item}," for item in items[:-1]] + items[-1:]
    texts = [text for _, text in codes.values()]
    width = max(map(len, commas))
    return [f"{item:{width}} /* {text} */" if text else item for item, text in zip(commas, texts)]


def _header_codes(shared: Shared) -> list[str]:
    own = {each.name: (each.number, each.text) for each in [*shared.codes, *shared.header_codes]}
    lines = _members(own)
    return [*lines[:len(shared.codes)], "/* only of this header; if more than one of them holds, the call returns one that does */",
            *lines[len(shared.codes):]]


def _one_line(kind: str, members: dict[str, int]) -> str:
    inside = ", ".join(f"BPFHOST_{name} = {number}" for name, number in members.items())
    return f"enum bpfhost_{kind} {{ {inside} }};"


def _header_types(shared: Shared) -> list[str]:
    return [_one_line("map_type", shared.map_types), _one_line("prog_type", {"SOCKET_FILTER": shared.limit("SOCKET_FILTER").number}),
            _one_line("update_flags", shared.update_flags)]


def _cases(shared: Shared) -> list[str]:
    return [f"case BPFHOST_{each.name}: return {_literal(each.text)};" for each in [*shared.codes, *shared.header_codes]]


def _reason_cases(shared: Shared) -> list[str]:
    return [f"case {each.number}: return {_literal(each.text)};" for each in _all_reasons(shared)]


# The crates for Rust.


def _rust_constant(name: str, kind: str, number: int, text: str) -> list[str]:
    return [f"/// {text}", f"pub const {name}: {kind} = {_grouped(number)};"]


def _rust_limits(shared: Shared) -> list[str]:
    return [line for each in map(shared.limit, OF_LIBRARY) for line in _rust_constant(each.name, "usize", each.number, _sentence(each.text))]


def _rust_codes(shared: Shared) -> list[str]:
    return [line for each in shared.codes for line in _rust_constant(each.name, "i32", each.number, f"A code: {each.text}.")]


def _rust_commands(shared: Shared) -> list[str]:
    return [line for each in shared.commands for line in _rust_constant(each.name.upper(), "u16", each.number, f"The command {each.text}.")]


def _rust_types(shared: Shared) -> list[str]:
    types = {name: f"The type of a map: {name.lower()}." for name in shared.map_types}
    numbers = {**shared.map_types, "SOCKET_FILTER": shared.limit("SOCKET_FILTER").number}
    texts = {**types, "SOCKET_FILTER": _sentence(shared.limit("SOCKET_FILTER").text)}
    flags = {name: f"The flag BPF_{name} of an update." for name in shared.update_flags}
    lines = [_rust_constant(name, "u32", number, texts[name]) for name, number in numbers.items()]
    lines += [_rust_constant(name, "u64", number, flags[name]) for name, number in shared.update_flags.items()]
    return [line for constant in lines for line in constant]


def _rust_errors(shared: Shared) -> list[str]:
    return [line for each in shared.errors for line in (f"/// {_sentence(each.text)}", f"{each.name} = {each.number},")]


PLACES = [
    Place("docs/VERIFIER.md", "reasons", _reason_table),
    Place("docs/PROTOCOL.md", "limits", _limit_table),
    Place("docs/PROTOCOL.md", "errors", _error_numbers),
    Place("docs/EMBEDDING.md", "codes", _code_table),
    Place(PYTHON + "words.py", "errors", lambda shared: [f"Errno.{each.name}: {_literal(each.text)}," for each in shared.errors]),
    Place(PYTHON + "words.py", "reasons", lambda shared: [f"{each.number}: {_literal(each.text)}," for each in _all_reasons(shared)]),
    Place(PYTHON + "words.py", "text faults", lambda shared: [f"{each.number}: {_literal(each.text)}," for each in shared.text_faults]),
    Place(PYTHON + "numbers.py", "commands", lambda shared: [f"{each.text} = {each.number}" for each in shared.commands]),
    Place(PYTHON + "numbers.py", "map types", lambda shared: [f"{name} = {number}" for name, number in shared.map_types.items()]),
    Place(PYTHON + "numbers.py", "update flags", lambda shared: [f"{name} = {number}" for name, number in shared.update_flags.items()]),
    Place(PYTHON + "numbers.py", "errors", lambda shared: [f"{each.name} = {each.number}" for each in shared.errors]),
    Place(PYTHON + "numbers.py", "codes", lambda shared: [f"{each.name} = {each.number}" for each in shared.codes]),
    Place(PYTHON + "words.py", "codes", lambda shared: [f"Code.{each.name}: {_literal(each.text)}," for each in shared.codes]),
    Place(PYTHON + "numbers.py", "limits", _python_numbers((
        "MOST_TENANTS", "MOST_DESCRIPTORS", "FIRST_DESCRIPTOR", "MOST_MAPS", "MOST_ENTRIES", "MOST_SLOTS", "MOST_FRAMES", "LONGEST_KEY",
        "LONGEST_VALUE", "LARGEST_AREA", "LARGEST_SUM", "LONGEST_PACKET", "LONGEST_FRAME", "LONGEST_PAYLOAD", "REPLY_HEAD", "SOCKET_FILTER"))),
    Place(HEADER, "limits", lambda shared: [_define(shared.limit(name)) for name in OF_LIBRARY]),
    Place(HEADER, "codes", _header_codes),
    Place(HEADER, "commands", lambda shared: _members({each.name.upper(): (each.number, "") for each in shared.commands})),
    Place(HEADER, "types", _header_types),
    Place(HEADER, "texts of codes", _cases),
    Place(HEADER, "reasons", _reason_cases),
    Place(RUST + "bpfhost-sys/src/numbers.rs", "limits", _rust_limits),
    Place(RUST + "bpfhost-sys/src/numbers.rs", "codes", _rust_codes),
    Place(RUST + "bpfhost-sys/src/numbers.rs", "commands", _rust_commands),
    Place(RUST + "bpfhost-sys/src/numbers.rs", "types", _rust_types),
    Place(RUST + "src/errno.rs", "errors", _rust_errors),
    Place(RUST + "src/errno.rs", "all errors", lambda shared: [f"Errno::{each.name}," for each in shared.errors]),
    Place(RUST + "src/errno.rs", "texts of errors", lambda shared: [f"Errno::{each.name} => {_literal(each.text)}," for each in shared.errors]),
    Place(RUST + "src/error.rs", "reasons", lambda shared: [f"{each.number} => {_literal(each.text)}," for each in _all_reasons(shared)]),
]
