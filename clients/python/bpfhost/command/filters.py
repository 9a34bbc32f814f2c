"""Filters written as for tcpdump, for `run`, `check`, `dis` and `build`: expressions, and classic programs as text."""

from __future__ import annotations

import argparse
import os
import sys

from bpfhost.classic import ClassicError, ClassicProgram, Semantics, Translation
from bpfhost.command.subjects import EXPRESSION, EXPRESSION_FILE, Source
from bpfhost.command.version import program_of
from bpfhost.errors import BpfhostError, InputError
from bpfhost.program import disassemble, log_or_fault, verify
from bpfhost.words import reason_words

_STANDARD_INPUT = "-"
# The text of a classic program has at most about 60 KB; longer input is rejected.
_LONGEST_TEXT = 1 << 20


def read_filters(said: argparse.Namespace, link_type: int, savefile: bytes | None = None) -> list[ClassicProgram]:
    """The filters, in order, for a link type or for the capture with this header. Raises BpfhostError for the first that is rejected."""
    return [_read(source, link_type, savefile) for source in said.filters]


def files_of(said: argparse.Namespace) -> list[str]:
    """The files that filters are read from, standard input included."""
    return [source.file for source in said.filters if source.file is not None]


def _read(source: Source, link_type: int, savefile: bytes | None = None) -> ClassicProgram:
    if source.kind == EXPRESSION:
        return ClassicProgram.of_expression(source.of, link_type, savefile=savefile)
    name, given = _content(source.of)
    if source.kind == EXPRESSION_FILE:
        return ClassicProgram.of_expression(_without_comments(given.decode(errors="replace")), link_type, savefile=savefile)
    return ClassicProgram.of_text(given.decode("ascii", errors="replace"), name)


def _content(file: str) -> tuple[str, bytes]:
    """The name of a file, or of standard input, and its bytes."""
    if file == _STANDARD_INPUT:
        given, name = sys.stdin.buffer.read(_LONGEST_TEXT + 1), "standard input"
    else:
        name = file
        with open(file, "rb") as opened:
            given = opened.read(_LONGEST_TEXT + 1)
    if len(given) > _LONGEST_TEXT:
        raise ClassicError(f"{name}: a text of a filter has {_LONGEST_TEXT:,} bytes at most")
    return name, given


def _without_comments(text: str) -> str:
    """An expression of a file, in which # begins a comment, as for tcpdump -F."""
    return " ".join(line.partition("#")[0] for line in text.split("\n")).strip()


def _translated(said: argparse.Namespace, program: ClassicProgram) -> Translation:
    return program.translated(Semantics(said.semantics))


def check(said: argparse.Namespace) -> int:
    """Translates and verifies each filter; the status is 1 if one is rejected."""
    bpfhost, status = program_of(said), 0
    for source in said.filters:
        try:
            program = _read(source, said.link_type)
            translation = _translated(said, program)
        except InputError as error:
            print(f"refused: {error}")
            status = 1
            continue
        refused = verify(bpfhost, translation.slots, {}).refused
        verdict = f"refused at slot {refused[0]}: {reason_words(refused[1])}, reason {refused[1]}" if refused else "accepted"
        print(f"{program.name} is {verdict}{_sizes(program, translation)}")
        print(log_or_fault(bpfhost, translation.slots, {}) or "", end="")
        status = 1 if refused else status
    return status


def _sizes(program: ClassicProgram, translation: Translation) -> str:
    """The size of a filter, in both forms."""
    way = "" if translation.is_fast else ", with a call for each load"
    return f": {_many(len(program.instructions), 'instruction')} of classic BPF, {_many(translation.count, 'slot')}{way}"


def _many(count: int, what: str) -> str:
    return f"{count:,} {what}{'' if count == 1 else 's'}"


def dis(said: argparse.Namespace) -> int:
    """Writes each filter as text of slots, each group after the classic instruction that it comes from; or the classic program itself."""
    bpfhost = None if said.form else program_of(said)
    for program in read_filters(said, said.link_type):
        forms = {"d": program.listing, "dd": program.elements, "ddd": program.decimals, "bytecode": program.bytecode}
        print(forms[said.form]() if said.form else _text(bpfhost or "", program, _translated(said, program)), end="")
    return 0


def _text(bpfhost: str, program: ClassicProgram, translation: Translation) -> str:
    slots = disassemble(bpfhost, translation.slots).splitlines(keepends=True)
    sources = dict(translation.lines)
    parts = [f"// {program.name}{_sizes(program, translation)}\n"]
    for slot, line in enumerate(slots):
        if slot in sources:
            parts.append(_source(program, sources[slot]))
        parts.append(line)
    return "".join(parts)


def _source(program: ClassicProgram, number: int) -> str:
    """The classic instruction that slots come from, as a comment."""
    from bpfhost.classic.listing import shown

    if number < 0:
        return "// a load that the packet has no bytes for ends here\n"
    return f"// {shown(number, program.instructions[number]).expandtabs(1).rstrip()}\n"


def build(said: argparse.Namespace) -> int:
    """Writes a filter to a file that is loaded without Python."""
    from pathlib import Path

    from bpfhost.classic.building import built_filter
    from bpfhost.command.build import write

    programs = read_filters(said, said.link_type)
    if len(programs) > 1:
        raise InputError("a file has one filter, but several are named")
    for file in files_of(said):
        if os.path.exists(said.output) and os.path.exists(file) and os.path.samefile(said.output, file):
            raise InputError(f"{said.output}: the program can't be written over the file that it is read from")
    translation = _translated(said, programs[0])
    refused = verify(program_of(said), translation.slots, {}).refused
    if refused:
        raise BpfhostError(f"{programs[0].name} is refused at slot {refused[0]}: {reason_words(refused[1])}, reason {refused[1]}")
    write(Path(said.output), built_filter(programs[0], translation))
    return 0
