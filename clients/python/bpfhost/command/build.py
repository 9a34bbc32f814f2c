"""`build`: writes a program of an object, in the form that is accepted, with its maps, to a file."""

from __future__ import annotations

import argparse
import os
import tempfile
from pathlib import Path

from bpfhost.command.objects import read_object, tell_changes
from bpfhost.command.version import program_of
from bpfhost.errors import InputError


def run(said: argparse.Namespace) -> int:
    """Writes the file; writes nothing if the program is rejected."""
    program, object_file = program_of(said), read_object(said, said.object)
    from bpfhost.built import built
    from bpfhost.loading import choose_program, lowered_program, refused_at

    chosen = choose_program(object_file, said.section)
    lowered = lowered_program(program, object_file, chosen)
    if lowered.refused is not None:
        raise refused_at(program, object_file, lowered, *lowered.refused)
    if os.path.exists(said.output) and os.path.samefile(said.output, said.object):
        raise InputError(f"{said.output}: the program can't be written over its object")
    write(Path(said.output), built(object_file, lowered))
    tell_changes(chosen.name, lowered.changes)
    return 0


def write(path: Path, text: str) -> None:
    """Replaces the file as a whole, or leaves the old one."""
    if path.exists() and not path.is_file():
        path.write_text(text)
        return
    with tempfile.NamedTemporaryFile("w", dir=path.parent, prefix=f".{path.name}.", delete=False) as file:
        try:
            file.write(text)
            file.flush()
            os.fchmod(file.fileno(), 0o666 & ~_mask())
            os.replace(file.name, path)
        except BaseException:
            os.unlink(file.name)
            raise


def _mask() -> int:
    mask = os.umask(0)
    os.umask(mask)
    return mask
