"""`report`: a page on a program, or on a filter as tcpdump has them, and on what a capture gives."""

from __future__ import annotations

import argparse
import os
import sys
from collections.abc import Sequence
from contextlib import AbstractContextManager
from dataclasses import replace
from pathlib import Path
from typing import TYPE_CHECKING

from bpfhost.command.version import program_of
from bpfhost.errors import InputError
from bpfhost.stopping import Stopping

if TYPE_CHECKING:
    from bpfhost.captures import Capture
    from bpfhost.classic import ClassicProgram, Translation
    from bpfhost.objects import ObjectFile
    from bpfhost.report import Gathered

# Standard input, or standard output.
_STANDARD = "-"


def run_object(said: argparse.Namespace) -> int:
    """Writes the page on a program of an object."""
    from bpfhost.command.objects import read_object
    from bpfhost.report.gathering import ran

    _refuse_loss(said)
    found = _gathered(said, read_object(said, said.object), said.section)
    if said.capture is not None and found.refused is None:
        with _opened(said) as capture:
            found = replace(found, ran=ran(said.bpfhost, found, capture))
    return _written(said, found)


def run_filter(said: argparse.Namespace) -> int:
    """Writes the page on a filter; with a capture, on the filter for its link type."""
    from bpfhost.classic import Semantics
    from bpfhost.command.filters import read_filters

    _refuse_loss(said)
    if said.capture is not None:
        return _run_filter(said)
    program = _only(read_filters(said, said.link_type))
    return _written(said, _gathered_filter(said, program, program.translated(Semantics(said.semantics))))


def _run_filter(said: argparse.Namespace) -> int:
    """Writes the page on a filter and on what a capture gives."""
    from bpfhost.classic import Semantics
    from bpfhost.classic.loading import for_captures
    from bpfhost.command.filter_runs import Begun
    from bpfhost.filtering import Timed
    from bpfhost.report.gathering import Manner, ran

    with _opened(said) as capture, Stopping() as stopping:
        begun = Begun(said, capture, stopping)
        program = _only(begun.programs)
        form = for_captures(program, Semantics(said.semantics))
        found = _gathered_filter(said, program, form.translation)
        if found.refused is None:
            manner = Manner(begun.treatment, form.word, Timed.WIRE)
            found = replace(found, ran=ran(said.bpfhost, found, capture, manner, begun.pieces))
    return _written(said, found)


def _only(programs: Sequence[ClassicProgram]) -> ClassicProgram:
    if len(programs) > 1:
        raise InputError("a page is about one filter, but several are named")
    return programs[0]


def _gathered_filter(said: argparse.Namespace, program: ClassicProgram, translation: Translation) -> Gathered:
    from bpfhost.classic.building import built_filter
    from bpfhost.objects.built import read_built

    return _gathered(said, read_built(program.name, built_filter(program, translation).encode()), None)


def _gathered(said: argparse.Namespace, object_file: ObjectFile, section: str | None) -> Gathered:
    from bpfhost.loading import choose_program
    from bpfhost.report import gathered

    said.bpfhost = program_of(said)
    return gathered(said.bpfhost, object_file, choose_program(object_file, section))


def _opened(said: argparse.Namespace) -> AbstractContextManager[Capture]:
    from bpfhost.captures import open_capture

    return open_capture("/dev/stdin" if said.capture == _STANDARD else said.capture)


def _refuse_loss(said: argparse.Namespace) -> None:
    """Raises InputError if the page would overwrite a file that is read, or if standard input would be read twice."""
    read = [path for path in (said.object, said.capture, *(source.file for source in said.filters)) if path is not None]
    if read.count(_STANDARD) > 1:
        raise InputError("standard input can be read only once, but is named more often")
    for path in read:
        if os.path.exists(said.output) and os.path.exists(path) and os.path.samefile(said.output, path):
            raise InputError(f"{said.output}: the page can't be written over a file that is read")


def _written(said: argparse.Namespace, found: Gathered) -> int:
    """Writes the page; the status is 1 if the program is rejected, or if the capture is wrong after some packet."""
    from bpfhost.command.build import write
    from bpfhost.report import page

    if said.output == _STANDARD:
        sys.stdout.write(page(found))
    else:
        write(Path(said.output), page(found))
    fault = found.ran.outcome.fault if found.ran else None
    if fault is not None:
        print(f"bpfhost: {fault}", file=sys.stderr)
    return 0 if found.refused is None and fault is None else 1
