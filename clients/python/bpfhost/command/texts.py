"""`asm` and `dis`: programs as text."""

from __future__ import annotations

import argparse
import sys
from pathlib import Path

from bpfhost.command.objects import read_object
from bpfhost.errors import InputError
from bpfhost.program import assemble, disassemble, find_program, hex_lines, slots_of

_ELF = b"\x7fELF"


def _read(file: str | None) -> tuple[str, bytes]:
    """The name of an input and its bytes."""
    return (file, Path(file).read_bytes()) if file else ("standard input", sys.stdin.buffer.read())


def _decoded(name: str, given: bytes) -> str:
    try:
        return given.decode("ascii")
    except UnicodeDecodeError as error:
        line = given.count(b"\n", 0, error.start) + 1
        raise InputError(f"{name}:{line}: a byte that is not ASCII") from error


def asm(said: argparse.Namespace) -> int:
    """Writes the slots of a text as hex lines; an error names its line."""
    name, given = _read(said.file)
    text = _decoded(name, given)
    sys.stdout.write(hex_lines(assemble(find_program(said.bpfhost), text, name)))
    return 0


def dis(said: argparse.Namespace) -> int:
    """Writes the text of hex lines, or of an object's programs, with the lines of the source that they come from."""
    name, given = _read(said.file)
    program = find_program(said.bpfhost)
    if given.startswith(_ELF):
        return _dis_object(said, program)
    sys.stdout.write(disassemble(program, slots_of(_decoded(name, given), name), name))
    return 0


def _dis_object(said: argparse.Namespace, program: str) -> int:
    if not said.file:
        raise InputError("an object can't be read from standard input: name its file")
    if not Path(said.file).is_file():
        raise InputError(f"{said.file}: an object can't be read from a pipe: name a regular file")
    object_file = read_object(said, said.file)
    from bpfhost.loading import first_descriptors, lowered_program, with_sources
    from bpfhost.lowering import LoweringError, as_is

    for each in object_file.programs:
        print(f"// {each.name}, section {each.section}")
        try:
            lowered = lowered_program(program, object_file, each)
        except LoweringError as error:
            if each.calls:
                raise
            print(f"// as compiled, as there is no accepted form: {error}")
            lowered = as_is(each)
        print("".join(f"// {change}\n" for change in lowered.changes), end="")
        text = disassemble(program, lowered.program.linked(first_descriptors(object_file)), said.file)
        sys.stdout.write(with_sources(text, lowered))
    return 0
