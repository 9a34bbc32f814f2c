"""`run` with an object: one of its filters, by one or more tenants."""

from __future__ import annotations

import argparse
import sys
from collections.abc import Iterator, Sequence
from typing import TYPE_CHECKING

from bpfhost.command.live import Shown
from bpfhost.command.objects import read_object, tell_changes
from bpfhost.command.run import Subject, packets
from bpfhost.filtering import Loaded, Long, Outcome, Short, Treatment
from bpfhost.host import Host
from bpfhost.numbers import LONGEST_PACKET
from bpfhost.packets import ETHERNET
from bpfhost.stopping import Stopping

if TYPE_CHECKING:
    from typing import TextIO

    from bpfhost.captures import Capture, Piece
    from bpfhost.captures.writer import CaptureWriter


class ObjectRun(Subject):
    """A filter of an object."""

    def __init__(self, said: argparse.Namespace) -> None:
        object_file = read_object(said, said.object)
        from bpfhost.command.show import demand_map
        from bpfhost.loading import choose_program
        from bpfhost.objects.settings import with_values

        self._said = said
        self._object_file = with_values(object_file, dict(said.set))
        self._program = choose_program(self._object_file, said.section)
        if said.csv is not None:
            demand_map(self._object_file, said.csv)
        self.tenants = said.tenants
        self.reads = [(said.object, "object that is run")]
        self.treatment = Treatment(Short(said.short), Long(said.long))

    def begin(self, capture: Capture, stopping: Stopping) -> Iterator[Piece] | None:
        return None

    def load(self, host: Host) -> tuple[Sequence[Loaded], Shown]:
        from bpfhost.command import show
        from bpfhost.loading import load_program, lowered_program

        said, object_file = self._said, self._object_file
        lowered = lowered_program(host.program, object_file, self._program)
        loaded = [load_program(host.tenant(number), object_file, lowered) for number in range(self.tenants)]
        tell_changes(self._program.name, lowered.changes)
        name, order = said.interface or said.capture, show.Order(said.top, said.by)

        def write(outcome: Outcome, output: TextIO) -> None:
            report = show.Report.of(object_file, loaded[0], name, self.tenants, outcome, order)
            if said.json:
                show.write_json(report, output)
            elif said.csv is not None:
                show.write_csv(report, said.csv, output)
            else:
                show.write_tables(report, output)

        return [Loaded([each.runs(said.time) for each in loaded])], Shown(said, write)

    def writer(self, capture: Capture, name: str, is_output: bool) -> CaptureWriter:
        from bpfhost.captures.writer import CaptureWriter

        file = sys.stdout.buffer if is_output else None
        return CaptureWriter(name, capture.has_nanoseconds, file, link_type_bits=capture.link_type_bits, comments=capture.comments)

    def notes(self, outcome: Outcome) -> Iterator[str]:
        from bpfhost.captures import link_type_name

        for link_type in outcome.link_types:
            if link_type != ETHERNET:
                yield f"its packets of link type {link_type_name(link_type)} are passed to the filter as they are"
        if outcome.short and self.treatment.short is Short.PAD:
            yield f"{packets(outcome.short)} cut short in it: skb->len is the length on the wire, and zeros follow the captured bytes"
        elif outcome.short:
            yield f"{packets(outcome.short)} cut short in it: skb->len is the captured length"
        if outcome.long:
            done = "left out" if outcome.skipped else f"run on the first {LONGEST_PACKET:,}"
            yield f"{packets(outcome.long)} longer than {LONGEST_PACKET:,} bytes, and {done}"
