"""Loads filters for tenants of a host, for their runs on the packets of a capture."""

from __future__ import annotations

from collections.abc import Sequence
from dataclasses import dataclass
from typing import TYPE_CHECKING

from bpfhost.classic.ancillary import PROTOCOL, WIRE_LENGTH
from bpfhost.classic.program import ClassicProgram
from bpfhost.classic.semantics import Length, Semantics
from bpfhost.classic.translation import Translation
from bpfhost.filtering import Loaded, Timed
from bpfhost.runs import TestRuns

if TYPE_CHECKING:
    from bpfhost.tenant import Tenant


@dataclass(frozen=True)
class ForCaptures:
    """The translation of a filter for the packets of a capture, and the word of the context that has the length of each on the wire, if any.

    As libpcap has it, a load of the length gives what the packet had on the wire, and as the kernel has it, what is there.
    """

    translation: Translation
    word: str | None


def for_captures(program: ClassicProgram, semantics: Semantics) -> ForCaptures:
    """Translates a filter for the packets of a capture."""
    reads_wire = semantics is Semantics.LIBPCAP and program.reads_length()
    translation = program.translated(semantics, Length.WIRE if reads_wire else Length.PACKET)
    return ForCaptures(translation, WIRE_LENGTH.name if reads_wire else None)


def loaded_filter(tenants: Sequence[Tenant], program: ClassicProgram, semantics: Semantics) -> Loaded:
    """Loads a filter for tenants, for their runs on the packets of a capture."""
    found, reads_protocol = for_captures(program, semantics), PROTOCOL.name in program.context_words()
    translation, timed = found.translation, found.word
    runs = [
        TestRuns(each.host, each.number, each.prog_load(translation.slots, program.name), timed=timed, reads_protocol=reads_protocol)
        for each in tenants
    ]
    return Loaded(runs, Timed.WIRE, translation.reach)
