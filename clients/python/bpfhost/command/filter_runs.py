"""`run` with filters as tcpdump has them: each in a tenant of its own, on every packet of a capture or of an interface."""

from __future__ import annotations

import argparse
import sys
from collections.abc import Iterator, Sequence
from typing import TYPE_CHECKING

from bpfhost.classic import ClassicProgram, Semantics
from bpfhost.classic.libpcap import SNAPSHOT, is_there, written_header
from bpfhost.classic.loading import loaded_filter
from bpfhost.command.filter_tables import FilterReport
from bpfhost.command.filters import files_of, read_filters
from bpfhost.command.live import Shown
from bpfhost.command.run import Subject, packets
from bpfhost.errors import InputError
from bpfhost.filtering import Loaded, Outcome, Treatment
from bpfhost.host import Host
from bpfhost.numbers import LONGEST_PACKET, MOST_TENANTS
from bpfhost.packets import ETHERNET
from bpfhost.stopping import Stopping

if TYPE_CHECKING:
    from typing import TextIO

    from bpfhost.captures import Capture, Piece
    from bpfhost.captures.writer import CaptureWriter

_STANDARD_INPUT = "-"
# What a capture says about a packet besides its bytes.
_TOLD = ("protocol",)


class FilterRun(Subject):
    """Filters, each for so many tenants as the arguments say."""

    def __init__(self, said: argparse.Namespace) -> None:
        self._said = said
        self._programs: list[ClassicProgram] = []
        self.tenants = said.tenants * len(said.filters)
        self.reads = [(file, "file that a filter is read from") for file in files_of(said)]
        self._refuse_words()

    def _refuse_words(self) -> None:
        """Raises InputError if the arguments contradict each other."""
        said = self._said
        if self.tenants > MOST_TENANTS:
            raise InputError(f"each filter needs tenants of its own, and {MOST_TENANTS} are the most")
        for value, does in ((said.accepted, "--accepted writes"), (said.count, "-c counts")):
            if value is not None and len(said.filters) > 1:
                raise InputError(f"{does} what one filter keeps, but several are named")
        if [*files_of(said), said.capture].count(_STANDARD_INPUT) > 1:
            raise InputError("standard input can be read only once, but is named more often")

    def begin(self, capture: Capture, stopping: Stopping) -> Iterator[Piece] | None:
        begun = Begun(self._said, capture, stopping)
        self._link_type, self._longest, self._savefile = begun.link_type, begun.longest, begun.savefile
        self.treatment, self._programs = begun.treatment, begun.programs
        return begun.pieces

    def load(self, host: Host) -> tuple[Sequence[Loaded], Shown]:
        said, each = self._said, range(self._said.tenants)
        semantics = Semantics(said.semantics)
        loaded = [
            loaded_filter([host.tenant(number * len(each) + at) for at in each], program, semantics)
            for number, program in enumerate(self._programs)
        ]
        report = FilterReport(said.interface or said.capture, self._link_type, said.filters, self._programs, said.tenants)

        def write(outcome: Outcome, output: TextIO) -> None:
            (report.write_json if said.json else report.write_table if said.csv is None else report.write_csv)(outcome, output)

        return loaded, Shown(said, write)

    def writer(self, capture: Capture, name: str, is_output: bool) -> CaptureWriter:
        from bpfhost.captures.writer import CaptureWriter

        file = sys.stdout.buffer if is_output else None
        header = None
        if self._savefile is not None and is_there():
            header = written_header(self._savefile, capture.has_nanoseconds)
        return CaptureWriter(
            name,
            capture.has_nanoseconds,
            file,
            link_type=self._link_type,
            longest=self._longest,
            link_type_bits=capture.link_type_bits,
            header=header,
            comments=capture.comments,
        )

    def notes(self, outcome: Outcome) -> Iterator[str]:
        if outcome.long:
            yield f"{packets(outcome.long)} longer than {LONGEST_PACKET:,} bytes, and run on the first {LONGEST_PACKET:,}"


class Begun:
    """A capture of which the first packets were read, so that its link type is known, and the filters for it."""

    def __init__(self, said: argparse.Namespace, capture: Capture, stopping: Stopping) -> None:
        self.pieces, self.link_type = _begun(capture, stopping)
        self.longest = capture.longest if 0 < capture.longest < 2**31 else SNAPSHOT
        # Packets of an interface are whole, and those of a file are cut as libpcap cuts them.
        self.treatment = Treatment(link_type=self.link_type, longest=None if capture.savefile is None else self.longest)
        self.savefile = capture.savefile if self.link_type == capture.link_type else None
        self.programs = read_filters(said, self.link_type, self.savefile)
        _tell_words(self.programs)


def _begun(capture: Capture, stopping: Stopping) -> tuple[Iterator[Piece], int]:
    """The pieces of a capture, and the link type of its packets, which the first packet has if the capture does not."""
    pieces = stopping.items(capture.pieces())
    first = next(pieces, None)
    if first is None:
        return pieces, ETHERNET if capture.link_type is None else capture.link_type
    return _with_first(first, pieces), first.link_type


def _with_first(first: Piece, pieces: Iterator[Piece]) -> Iterator[Piece]:
    yield first
    yield from pieces


def _tell_words(programs: list[ClassicProgram]) -> None:
    """Prints a notice for words of the context that a capture has no number for."""
    for program in programs:
        words = [word for word in program.context_words() if word not in _TOLD]
        if words:
            print(f"bpfhost: {program.name} reads {', '.join(words)}, which a capture does not have: it is 0", file=sys.stderr)
