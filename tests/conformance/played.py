"""The frames of the worked cases: each case is a list of frames for a new host."""

from __future__ import annotations

import re
from collections.abc import Callable, Iterator
from dataclasses import dataclass

from bpfhost import MapShape, MapType, frames
from bpfhost.program import assemble
from conformance.cases import CRATES

FIRST, LAST = 3, 66  # the descriptors that a map of `verify` may have
REPEATED = re.compile(r"\{(\d+)\*([^}]*)\}")
COMMANDS: dict[str, Callable[[int, int, bytes], bytes]] = {"lookup": frames.map_lookup_elem, "delete": frames.map_delete_elem, "next": frames.map_get_next_key}


@dataclass(frozen=True)
class Case:
    """Frames for a host of so many tenants, each with its length in front; `name` is the heading above them."""

    name: str
    tenants: int
    frames: list[bytes]


@dataclass(frozen=True)
class Verdict:
    """A program's slots, and the maps of the descriptors that it names."""

    name: str
    slots: bytes
    maps: dict[int, MapShape]


def expanded(text: str) -> str:
    """A text with each `{COUNT*PART}` written out; `#` in a part is the number of times before."""
    return REPEATED.sub(lambda found: "".join(found[2].replace("#", str(time)) for time in range(int(found[1]))), text)


def bytes_of(digits: str) -> bytes:
    """The bytes of hex digits, with blanks between them."""
    return bytes.fromhex(expanded(digits))


def program_text(line: str) -> str:
    """A program's text that is on one line."""
    return expanded(line).replace(";", "\n") + "\n"


def frame_of(program: str, word: str, rest: str) -> bytes | None:
    """The frame that a line sends; None for another line."""
    if word == "frame":
        body = bytes_of(rest)
        return len(body).to_bytes(4, "little") + body
    if word not in ("create", "update", "load", "slots", "run", "close", *COMMANDS):
        return None
    tenant, _, rest = rest.partition(" ")
    number, _, more = rest.partition(" ")
    owner = int(tenant)
    if word == "create":
        body = b"".join(int(each).to_bytes(4, "little") for each in rest.split())
        return frames.frame(owner, 0, body)
    if word == "update":
        flags, _, digits = more.partition(" ")
        return frames.map_update_elem(owner, int(number), bytes_of(digits), b"", int(flags))
    if word == "load":
        return frames.prog_load(owner, assemble(program, program_text(rest)))
    if word == "slots":
        return frames.prog_load(owner, bytes_of(rest))
    if word == "run":
        return frames.prog_test_run(owner, int(number), bytes_of(more))
    if word == "close":
        return frames.close(owner, int(number))
    return COMMANDS[word](owner, int(number), bytes_of(more))


def cases(program: str) -> Iterator[Case]:
    """The cases of `cases_frames` that are one frame after another; those that set words of the context are left out."""
    name, current, is_plain = "", Case("", 1, []), True
    for line in [*(CRATES / "cases_frames/stdin").read_text().splitlines(), "new 1"]:
        word, _, rest = line.partition(" ")
        if line.startswith("# ") and not current.frames:
            name = line[2:]
        if word == "new":
            if current.frames and is_plain:
                yield current
            current, is_plain = Case(name, int(rest), []), True
        elif word == "words":
            is_plain = False
        elif frame := frame_of(program, word, rest):
            current.frames.append(frame)
        elif line.startswith("# "):
            name = line[2:]


def verdicts(program: str) -> Iterator[Verdict]:
    """The programs of `cases_verdicts`, with the maps that their descriptors name, if these are valid for `bpfhost verify`."""
    name, maps = "", dict[int, MapShape]()
    programs = set[int]()
    for line in (CRATES / "cases_verdicts/stdin").read_text().splitlines():
        word, _, rest = line.partition(" ")
        if line.startswith("# ") or line.startswith("## "):
            name = line.lstrip("# ")
        elif word == "new":
            maps, programs = {}, set()
        elif word == "map":
            fd, kind, *sizes = rest.split(":")
            if int(fd) not in programs:
                maps.setdefault(int(fd), MapShape(MapType[kind.upper()], int(sizes[0]), int(sizes[1]), int(sizes[2])))
        elif word == "program":
            programs.add(int(rest))
        elif word == "verify" and not programs and all(FIRST <= fd <= LAST for fd in maps):
            yield Verdict(name, assemble(program, program_text(rest)), dict(maps))
