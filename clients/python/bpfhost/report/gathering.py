"""What the page of a report has: the verdict, the lines with their slots, what is known before each instruction, and what a capture gives."""

from __future__ import annotations

import re
from collections.abc import Iterator, Mapping, Sequence
from dataclasses import dataclass, field

from bpfhost.captures import Capture, Piece
from bpfhost.errors import BpfhostError, InputError, Refused
from bpfhost.filtering import Filters, Loaded, Long, Outcome, Short, Timed, Treatment
from bpfhost.host import Host
from bpfhost.loading import LoadedProgram, facts_of, load_program, lowered_program, refused_at
from bpfhost.lowering import Lowered, LoweringError, as_is
from bpfhost.objects import ObjectFile, ObjectMap, ObjectProgram
from bpfhost.program import Program
from bpfhost.report.blocks import BasicBlock, blocks_of
from bpfhost.report.counting import Counting, countings

_JUMP = re.compile(r"\b(gotol?) ([+-]\d+)")


@dataclass(frozen=True)
class Ran:
    """What a capture gave: its name, the outcome, the maps after it, and how many packets went through each block that is counted."""

    capture: str
    outcome: Outcome
    maps: Sequence[tuple[ObjectMap, Sequence[tuple[bytes, bytes]]]]
    counts: Mapping[int, int] = field(default_factory=dict)


@dataclass(frozen=True)
class Gathered:
    """What a page has. `texts` and `facts` are by slots; `refused` has the whole sentence, for a program that is rejected."""

    title: str
    object_file: ObjectFile
    lowered: Lowered
    refused: str | None
    texts: Mapping[int, str]
    facts: Mapping[int, str]
    blocks: Sequence[BasicBlock]
    ran: Ran | None = None


def gathered(bpfhost: Program, object_file: ObjectFile, program: ObjectProgram) -> Gathered:
    """What there is to say of a program; one that has no form is shown as it was compiled."""
    try:
        lowered = lowered_program(bpfhost, object_file, program)
        refused = str(refused_at(bpfhost, object_file, lowered, *lowered.refused)) if lowered.refused else None
    except LoweringError as error:
        if program.calls:
            raise
        lowered, refused = as_is(program), str(error)
    found = facts_of(bpfhost, object_file, lowered)
    texts = {slot: absolute(slot, text) for slot, (text, _) in found.items()}
    facts = {slot: notes for slot, (_, notes) in found.items() if notes}
    return Gathered(program.name, object_file, lowered, refused, texts, facts, blocks_of(lowered.program.slots))


def absolute(slot: int, text: str) -> str:
    """The text of an instruction, with the slot that a jump leads to."""
    return _JUMP.sub(lambda match: f"{match[1]} {slot + 1 + int(match[2])}", text)


@dataclass(frozen=True)
class Manner:
    """How a program gets the packets of a capture: the word of its context that has a number for each packet, if any, and which number."""

    treatment: Treatment = Treatment(Short.PAD, Long.CUT)
    word: str | None = None
    number: Timed = Timed.TIME


def ran(bpfhost: Program, found: Gathered, capture: Capture, manner: Manner = Manner(), pieces: Iterator[Piece] | None = None) -> Ran:
    """Runs a program, and copies of it that count, on the packets of a capture; `pieces` has them if the capture has begun to give them.

    Raises BpfhostError if a copy differs from the program in its results or its maps.
    """
    copies = countings(found.object_file, found.lowered.program, found.blocks)
    with Host(bpfhost, 1 + len(copies)) as host:
        loaded = load_program(host.tenant(), found.object_file, found.lowered)
        counting = _loaded_copies(host, copies)
        runs = [Loaded([each.runs(manner.word)], manner.number) for each in (loaded, *(each for _, each in counting))]
        outcome = Filters(runs, manner.treatment).run(capture, pieces=pieces)
        maps = [each.map.entries() for each in loaded.maps]
        counts: dict[int, int] = {}
        for (copy, each), counted in zip(counting, outcome.counts[1:]):
            *same, numbers = (one.map for one in each.maps)
            if counted.results != outcome.results or [one.entries() for one in same] != maps:
                raise BpfhostError(f"{found.title} returns something else in a copy that counts: a bug of this package")
            counts |= copy.counts(numbers[bytes(4)])
    shown = [(each.declared, entries) for each, entries in zip(loaded.maps, maps)]
    return Ran(capture.name, outcome, shown, counts)


def _loaded_copies(host: Host, copies: Sequence[Counting]) -> list[tuple[Counting, LoadedProgram]]:
    """The copies that count, each in a tenant of its own; none if a tenant has no room for a map more."""
    try:
        return [(each, load_program(host.tenant(number), each.object_file, as_is(each.program))) for number, each in enumerate(copies, 1)]
    except (InputError, Refused):
        return []
