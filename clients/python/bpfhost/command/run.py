"""`run`: filters on every packet of a capture or of an interface."""

from __future__ import annotations

import argparse
import contextlib
import os
import sys
from abc import ABC, abstractmethod
from collections.abc import Iterator, Sequence
from typing import TYPE_CHECKING

from bpfhost.captures import is_capture, open_capture
from bpfhost.command.live import Shown
from bpfhost.command.subjects import hint_of_filter
from bpfhost.command.version import program_of
from bpfhost.errors import CaptureError, InputError
from bpfhost.filtering import Filters, Loaded, Outcome, Treatment, accept_none, accept_to
from bpfhost.host import Host
from bpfhost.stopping import Stopping
from bpfhost.telling import GOOD, REFUSED

if TYPE_CHECKING:
    from bpfhost.captures import Capture, Piece
    from bpfhost.captures.writer import CaptureWriter

_STANDARD_INPUT = "/dev/stdin"
# A shell reports a process that a signal ended by this status plus the signal's number: 130 for Ctrl-C.
_BY_SIGNAL = 128


class Subject(ABC):
    """What is run: a filter of an object, or filters as tcpdump has them.

    The arguments are read first, then `begin` sees the capture, and `load` the host. `tenants` is how many tenants the host needs, and
    `reads` the files that are read, each with what it is.
    """

    tenants: int
    reads: Sequence[tuple[str, str]]
    treatment: Treatment

    @abstractmethod
    def begin(self, capture: Capture, stopping: Stopping) -> Iterator[Piece] | None:
        """Gets the capture before a host is started. Returns the pieces of the capture if it begins to read them."""

    @abstractmethod
    def load(self, host: Host) -> tuple[Sequence[Loaded], Shown]:
        """Loads the filters, and returns them with what shows their results."""

    @abstractmethod
    def writer(self, capture: Capture, name: str, is_output: bool) -> CaptureWriter:
        """The writer of the packets that are kept."""

    @abstractmethod
    def notes(self, outcome: Outcome) -> Iterator[str]:
        """Notices for packets that were not run as they were on the wire."""


def run_object(said: argparse.Namespace) -> int:
    """Runs a filter of an object."""
    from bpfhost.command.object_runs import ObjectRun

    path = _input_of(said)
    return _run(said, path, ObjectRun(said))


def run_filters(said: argparse.Namespace) -> int:
    """Runs filters as tcpdump has them."""
    from bpfhost.command.filter_runs import FilterRun

    path = _input_of(said)
    return _run(said, path, FilterRun(said))


def _run(said: argparse.Namespace, path: str, subject: Subject) -> int:
    """Loads the filters, runs them, and prints the results; the status is 1 if the capture is wrong after some packet."""
    _refuse_loss(said.accepted, *subject.reads, (path, "capture that they are read from"))
    with _opened(said, path) as capture, Stopping() as stopping:
        pieces = subject.begin(capture, stopping)
        capture.seconds = said.every
        with Host(program_of(said), subject.tenants) as host:
            loaded, shown = subject.load(host)
            with _accepting(said, subject, capture) as writer, shown.advancing(capture) as advanced:
                accept = accept_to(writer) if writer else accept_none
                filters = Filters(loaded, subject.treatment)
                outcome = filters.run(capture, said.limit, accept, advanced, stopping, pieces, said.count)
            shown.show(outcome)
        dropped = capture.dropped()
    notes = [f"{packets(dropped)} dropped by the kernel, as they came faster than they were run"] if dropped else []
    return _noted(said.interface or said.capture, [*notes, *subject.notes(outcome)], outcome, writer.fault if writer else None)


def _input_of(said: argparse.Namespace) -> str:
    """The path of the capture, or the name of the interface; wrong arguments unless exactly one of them is given."""
    if said.capture is None and said.interface is None and said.object is not None and is_capture(said.object):
        said.wrong(f"{said.object} is a capture: a filter is needed too, as in run --filter 'tcp port 443' {said.object}")
    if (said.capture is None) == (said.interface is None):
        hint = hint_of_filter(said.object) if said.object is not None else ""
        said.wrong(f"the following arguments are required: CAPTURE or --interface IF{hint}")
    if said.interface is not None:
        return str(said.interface)
    return _STANDARD_INPUT if said.capture == "-" else str(said.capture)


def _opened(said: argparse.Namespace, path: str) -> contextlib.AbstractContextManager[Capture]:
    if said.interface is None:
        return open_capture(path)
    from bpfhost.captures.interface import open_interface

    return open_interface(path)


def _refuse_loss(accepted: str | None, *read: tuple[str, str]) -> None:
    """Raises InputError if the kept packets would overwrite one of the files that are read; each path comes with what it is."""
    for path, what in read:
        if accepted is not None and os.path.exists(accepted) and os.path.exists(path) and os.path.samefile(accepted, path):
            raise InputError(f"{accepted}: the packets that are kept can't be written over the {what}")


@contextlib.contextmanager
def _accepting(said: argparse.Namespace, subject: Subject, capture: Capture) -> Iterator[CaptureWriter | None]:
    """The writer of packets that are kept, to a file or to standard output, if one is named."""
    if said.accepted is None:
        yield None
        return
    is_output = said.accepted == "-"
    writer = subject.writer(capture, "standard output" if is_output else said.accepted, is_output)
    try:
        yield writer
    finally:
        writer.end()


def _noted(name: str, notes: list[str], outcome: Outcome, unwritten: CaptureError | None) -> int:
    """Prints notices and what went wrong; returns the status."""
    for note in notes:
        print(f"bpfhost: {name}: {note}", file=sys.stderr)
    for fault in (outcome.fault, unwritten):
        if fault is not None:
            print(f"bpfhost: {fault}", file=sys.stderr)
    if outcome.signal is not None:
        print(f"bpfhost: interrupted after {outcome.packets:,} packets", file=sys.stderr)
        return _BY_SIGNAL + outcome.signal
    return REFUSED if outcome.fault or unwritten else GOOD


def packets(many: int) -> str:
    """A number of packets, as the beginning of a sentence about them."""
    return "1 packet is" if many == 1 else f"{many:,} packets are"
