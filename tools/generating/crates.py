"""Numbers and texts of the crates' sources."""

from __future__ import annotations

import ast
import operator
import re
from collections.abc import Mapping
from pathlib import Path

CONSTANT = re.compile(r"^(?:pub(?:\(crate\))? )?const (\w+): \w+ = (.*?);$", re.M)
# A match arm `Type::Variant => value,`, whose value may be in braces.
ARM = re.compile(r'(\w+)::(\w+) => (?:\{\s*)?(-?\d+|"[^"]*")')
OPERATORS = {ast.Add: operator.add, ast.Sub: operator.sub, ast.Mult: operator.mul}


class SourceError(Exception):
    """The sources do not have what is looked for."""


class Crates:
    """The sources of the crates, with the constants of each file."""

    def __init__(self, top: Path) -> None:
        self.top = top
        self.constants: dict[str, dict[str, str]] = {}
        for path in sorted(top.glob("*/src/**/*.rt")):
            found = dict(CONSTANT.findall(path.read_text()))
            if found:
                self.constants[str(path.relative_to(top))] = found

    def text(self, path: str) -> str:
        try:
            return (self.top / path).read_text()
        except OSError as error:
            raise SourceError(f"crates/{path}: {error.strerror}") from error

    def number(self, path: str, expression: str) -> int:
        """What a sum or product of constants and numbers is; a constant of this file comes before one of another."""
        text = re.sub(r" as \w+|_(?=\d)", "", expression)
        try:
            return self._value(path, ast.parse(text, mode="eval").body)
        except SyntaxError as error:
            raise SourceError(f"crates/{path}: {expression} is no sum of numbers") from error

    def _value(self, path: str, part: ast.expr) -> int:
        if isinstance(part, ast.Constant) and isinstance(part.value, int):
            return part.value
        if isinstance(part, ast.Name):
            return self.number(*self._definition(path, part.id))
        if isinstance(part, ast.UnaryOp) and isinstance(part.op, ast.USub):
            return -self._value(path, part.operand)
        if isinstance(part, ast.BinOp) and type(part.op) in OPERATORS:
            return int(OPERATORS[type(part.op)](self._value(path, part.left), self._value(path, part.right)))
        raise SourceError(f"crates/{path}: {ast.unparse(part)} is no sum of numbers")

    def _definition(self, path: str, name: str) -> tuple[str, str]:
        """The file that defines a constant, and its text."""
        places = [path] if name in self.constants.get(path, {}) else [file for file, found in self.constants.items() if name in found]
        if len(places) != 1:
            raise SourceError(f"{name}, which crates/{path} needs, is a constant of {len(places)} files")
        return places[0], self.constants[places[0]][name]

    def arms(self, path: str, kind: str) -> dict[str, str]:
        """What the match arms on a type give: by the variant, a number or a text, as it is written."""
        found = {variant: value for named, variant, value in ARM.findall(self.text(path)) if named == kind}
        if not found:
            raise SourceError(f"crates/{path}: no match on {kind} is found")
        return found

    def reasons(self) -> dict[int, str]:
        """The reasons of the verifier by their numbers, in words."""
        numbers = self.arms("reg_kinds/src/reason.rt", "Reason")
        words = self.arms("log_reasons/src/reasons.rt", "Reason")
        return {int(number): words[variant].strip('"') for variant, number in numbers.items()}

    def errors(self) -> dict[str, int]:
        """The errors of replies by their names in errno(3). No reply has EFAULT: only a call of a map on bytes of the host has it."""
        path = "tenant/src/errno.rt"
        names = dict(re.findall(r"^    /// (E\w+)\n    (\w+),$", self.text(path), re.M))
        statuses = self.arms(path, "Errno")
        return {name: -int(statuses[variant]) for name, variant in names.items() if name != "EFAULT"}

    def codec_kinds(self) -> dict[str, int]:
        return {name: int(number) for name, number in re.findall(r"^    (\w+) = (\d),$", self.text("insn_codec/src/fault.rt"), re.M)}

    def text_faults(self) -> dict[str, int]:
        return {name: int(number) for name, number in self.arms("bpf_text/src/fault.rt", "TextFaultKind").items()}

    def commands(self) -> dict[str, int]:
        """The numbers of commands, by the functions that read their bodies."""
        found = re.findall(r"^        (\w+) => (\w+)\(body\),$", self.text("command_frames/src/body.rt"), re.M)
        return {name: self.number("command_frames/src/command.rt", number) for number, name in found}

    def map_types(self) -> dict[str, int]:
        found = re.findall(r"^ *(\d) => Some\(MapKind::(\w+)\),$", self.text("tenant/src/shape.rt"), re.M)
        return {name.upper(): int(number) for number, name in found}

    def update_flags(self) -> dict[str, int]:
        path = "bpf_maps/src/value_map.rt"
        return {name: self.number(path, name) for name in ("ANY", "NOEXIST", "EXIST")}

    def codes(self) -> dict[str, int]:
        path = "bpfhost_c/src/codes.rt"
        return {name: self.number(path, name) for name in self.constants.get(path, {})}


def same_names(what: str, texts: Mapping[str, object], numbers: Mapping[str, object]) -> None:
    """Each name has a text and a number; else a SourceError."""
    wrong = [f"{name} has no text in texts.toml" for name in numbers if name not in texts]
    wrong += [f"{name} is in texts.toml, and in no crate" for name in texts if name not in numbers]
    if wrong:
        raise SourceError(f"{what}: {'; '.join(wrong)}")
