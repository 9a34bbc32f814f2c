"""Damages objects and loads them: each ends with an error or a load, within seconds.

usage: python3 -m tests.objects.damage [--count N] [--seed N] [--checks N]   (in clients/python)

It takes the objects of `sources`, if a clang compiles for BPF, and one that is built. In each it flips bits, writes other bytes, clears,
cuts, or repeats a range, most often in the parts that are read: headers, symbols, relocations, types, lines, code. It tries everything
that was loaded: slots with descriptors, lines, values in their types, and lowering with verdicts that accept all forms or none.
`--checks` passes that many to the command `check` too, with the program of the variable BPFHOST. An object for which this does not
hold is kept, and its name printed.
"""

from __future__ import annotations

import contextlib
import io
import sys
from pathlib import Path

from bpfhost.command import main as command
from bpfhost.lowering import LoweringError, WrongForm, lower
from bpfhost.objects import ObjectError, ObjectFile, ObjectProgram, load_object
from bpfhost.objects.elf import read_elf
from tests.common import without_notice
from tests.damaging import Original, Trial, limit
from tests.objects.btf_builder import BtfBuilder
from tests.objects.common import SOURCES, clang, compile_object
from tests.objects.elf_builder import OBJECT, SECTION, ElfBuilder

_READ = (".symtab", ".strtab", ".BTF", ".BTF.ext", ".maps", "maps", ".data", ".rodata", ".bss", "socket")


def original(path: Path, name: str) -> Original:
    """The object of a file, with the parts that are read."""
    elf = read_elf(path)
    places = [range(0, 64), range(int.from_bytes(elf.content[40:48], "little"), len(elf.content)), range(len(elf.content))]
    for section in elf.sections:
        is_read = section.name in _READ or section.name.startswith(".rel") and not section.name.startswith(".rel.debug")
        if is_read and section.kind != "SHT_NOBITS" and section.size:
            places.append(range(section.offset, section.offset + section.size))
    return Original(name, elf.content, tuple(places))


def built() -> bytes:
    """An object with types and variables that needs no compiler."""
    types = BtfBuilder()
    word = types.integer("unsigned int", 4)
    variable = types.record(14, "number", word, 1)
    types.record(15, ".data", 0, variable, 0, 4, count=1)
    builder = ElfBuilder()
    section = builder.program("socket", "1801000000000000 0000000000000000 6110000000000000 9500000000000000")
    builder.symbol("f", section, 0, 32)
    data = builder.section(".data", b"\5\0\0\0")
    builder.symbol("number", data, 0, 4, OBJECT)
    builder.section(".BTF", types.to_bytes(), 0)
    builder.relocations(section, (0, 1, builder.symbol("", data, kind=SECTION)))
    return builder.to_bytes()


def originals(scratch: Path) -> list[Original]:
    """The objects that are damaged."""
    path = scratch / "built.o"
    path.write_bytes(built())
    found = [original(path, "built")]
    for source in sorted(SOURCES.glob("*.c")) if clang() else ():
        found.append(original(compile_object(source, scratch / f"{source.stem}.o"), source.stem))
    return found


def try_all(found: ObjectFile) -> None:
    """Tries everything that a loaded object can do. An ObjectError is a valid outcome; any other exception is not."""
    descriptors = list(range(3, 3 + len(found.maps)))
    for program in found.programs:
        slots = program.linked(descriptors)
        assert len(slots) == len(program.slots) and len(slots) % 8 == 0
        for slot in range(len(slots) // 8):
            program.line_of(slot)
        # Copies are tried only for short programs, as they take long.
        for refused in (None, (0, 2), *([(len(slots) // 16, 20)] if len(slots) < 8 * 64 else [])):
            with contextlib.suppress(LoweringError):
                try_lowering(found, program, refused)
    for each in found.maps:
        for type_id, data in ((each.key_type, bytes(each.key_size)), (each.value_type, each.initial or bytes(each.value_size))):
            if found.types and type_id is not None:
                with contextlib.suppress(ObjectError):
                    found.types.show(type_id, data)
                    found.types.plain(type_id, data)
                    found.types.name(type_id)


def try_lowering(found: ObjectFile, program: ObjectProgram, refused: tuple[int, int] | None) -> None:
    """Lowers a program with this verdict on it and on each form. A LoweringError is a valid outcome, unless it is a WrongForm."""
    try:
        lowered = lower(found, program, lambda _: refused)
    except WrongForm as error:
        raise AssertionError(str(error)) from error
    assert lowered.refused == refused
    for slot in range(len(lowered.program.slots) // 8):
        lowered.place(slot)


def outcome_of(path: Path) -> str:
    """The outcome of loading an object: `loaded`, or `refused` with a sentence."""
    with limit():
        try:
            found = load_object(path)
        except ObjectError as error:
            sentence = str(error)
            assert sentence.startswith(f"{path}: ") and len(sentence.splitlines()) == 1, sentence
            return "refused"
        try_all(found)
        return "loaded"


def outcome_of_check(path: Path, program: str) -> str:
    """The outcome of the command `check`, with its status. Its errors are one sentence."""
    written, errors = io.StringIO(), io.StringIO()
    with limit(), contextlib.redirect_stdout(written), contextlib.redirect_stderr(errors):
        status = command(["check", "--bpfhost", program, str(path)])
    errors_only = without_notice(errors.getvalue().encode()).decode()
    assert status in (0, 1), (status, errors_only)
    assert len(errors_only.splitlines()) <= 1 and "Traceback" not in errors_only, errors_only
    return f"check with status {status}"


TRIAL = Trial("object", ".o", lambda _, scratch: originals(scratch), outcome_of, outcome_of_check)

if __name__ == "__main__":
    sys.exit(TRIAL.main("damage", "loads", "check"))
