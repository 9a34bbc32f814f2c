"""All texts and numbers that are written somewhere."""

from __future__ import annotations

import tomllib
from dataclasses import dataclass
from pathlib import Path
from typing import Any

from generating.crates import Crates, SourceError, same_names

TEXTS = Path(__file__).resolve().parent / "texts.toml"
CODEC_REASONS = 100


@dataclass(frozen=True)
class Worded:
    """A number with its name and its text."""

    name: str
    number: int
    text: str


@dataclass(frozen=True)
class Shared:
    """What the crates and texts.toml have, by kind, in the order in which it is written."""

    limits: list[Worded]
    # with the names of bpf(2) as texts
    commands: list[Worded]
    errors: list[Worded]
    reasons: list[Worded]
    codec: list[Worded]
    text_faults: list[Worded]
    codes: list[Worded]
    header_codes: list[Worded]
    map_types: dict[str, int]
    update_flags: dict[str, int]

    def limit(self, name: str) -> Worded:
        return next(each for each in self.limits if each.name == name)


def _worded(what: str, texts: dict[str, str], numbers: dict[str, int]) -> list[Worded]:
    same_names(what, texts, numbers)
    return [Worded(name, number, texts[name]) for name, number in numbers.items()]


def read_shared(crates: Crates, texts: dict[str, Any]) -> Shared:
    kinds = _worded("codec", texts["codec"], crates.codec_kinds())
    codes = _worded("codes", texts["codes"], crates.codes())
    own = [Worded(name, number, text) for name, (number, text) in texts["header_codes"].items()]
    if {each.number for each in codes} & {each.number for each in own}:
        raise SourceError("header_codes: a code of the header has the number of a code of the library")
    return Shared(
        limits=[Worded(name, crates.number(path, constant), text) for name, (path, constant, text) in texts["limits"].items()],
        commands=_worded("commands", texts["commands"], crates.commands()),
        errors=_worded("errors", texts["errors"], crates.errors()),
        reasons=[Worded("", number, text) for number, text in crates.reasons().items()],
        codec=[Worded(each.name, CODEC_REASONS + each.number, each.text) for each in kinds],
        text_faults=_worded("text_faults", texts["text_faults"], crates.text_faults()),
        codes=codes,
        header_codes=own,
        map_types=crates.map_types(),
        update_flags=crates.update_flags(),
    )


def shared_of(top: Path) -> Shared:
    """The texts and numbers of a repository."""
    return read_shared(Crates(top / "crates"), tomllib.loads(TEXTS.read_text()))
