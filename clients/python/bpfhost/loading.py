"""Programs of objects, lowered if needed, and loaded with their maps for a tenant; and rejections with the line of the source."""

from __future__ import annotations

from collections.abc import Sequence
from dataclasses import dataclass
from itertools import accumulate

from bpfhost.errors import InputError, ProgramRefused, Refused, SourceRefused
from bpfhost.graphs import annotated
from bpfhost.lowering import Lowered, as_is, lower
from bpfhost.maps import Map
from bpfhost.numbers import FIRST_DESCRIPTOR
from bpfhost.objects import Form, ObjectFile, ObjectMap, ObjectProgram
from bpfhost.prog import Prog
from bpfhost.program import MapShape, Program, disassemble, log_or_fault, verify
from bpfhost.refusals import PAGE, hint, line_with_names, need_of, with_names
from bpfhost.runs import TestRuns
from bpfhost.tenant import Tenant
from bpfhost.words import reason_words


def refused_at(bpfhost: Program, object_file: ObjectFile, lowered: Lowered, slot: int, reason: int) -> SourceRefused:
    """The error for a program that is rejected at a slot for a reason.

    Its text has the line of the source, the reason in words, what was known and what was needed, if the log says so, and what to change.
    """
    place, moved, program = _place(object_file, lowered.program, slot), lowered.place(slot), lowered.program
    log = _raw_log(bpfhost, object_file, lowered)
    need = need_of(log, _map_names(object_file)) if log else None
    change = hint(reason, program.linked(first_descriptors(object_file)), slot)
    told = f"{place} (slot {slot}{f', {moved}' if moved else ''}: {reason_words(reason)}, reason {reason})"
    told += f": {need}" if need else ""
    told += f"; {change} ({PAGE})" if change else ""
    return SourceRefused(told, slot, reason, None if log is None else _readable(log, object_file, lowered))


def _place(object_file: ObjectFile, program: ObjectProgram, slot: int) -> str:
    """The line of the source that a slot comes from, as `filter.c:23: return table[i];`, or else the function and its section."""
    line = program.line_of(slot)
    if line is None:
        return f"{object_file.path}: {program.name} in section {program.section}"
    return str(line)


def shape_of(declared: ObjectMap) -> MapShape:
    """The shape of a map that an object declares."""
    return MapShape(declared.map_type, declared.key_size, declared.value_size, declared.max_entries)


def first_descriptors(object_file: ObjectFile) -> list[int]:
    """The descriptors that the object's maps get from a tenant that has nothing else open."""
    return [FIRST_DESCRIPTOR + number for number in range(len(object_file.maps))]


def shapes_of(object_file: ObjectFile) -> dict[int, MapShape]:
    """The shapes of the object's maps by these descriptors."""
    return {fd: shape_of(declared) for fd, declared in zip(first_descriptors(object_file), object_file.maps)}


def lowered_program(bpfhost: Program, object_file: ObjectFile, program: ObjectProgram) -> Lowered:
    """A program of an object in a form that the verifier accepts, or else in the plainest one, by the verdicts of `bpfhost verify`.

    Raises LoweringError if the program can't be written in any form. If the object is taken as it is, so is the program.
    """
    descriptors, shapes = first_descriptors(object_file), shapes_of(object_file)

    def ask(form: ObjectProgram) -> tuple[int, int] | None:
        return verify(bpfhost, form.linked(descriptors), shapes).refused

    if object_file.form is Form.AS_IS:
        return as_is(program, ask(program))
    return lower(object_file, program, ask)


def log_of(bpfhost: Program, object_file: ObjectFile, lowered: Lowered) -> str | None:
    """The verifier's log on a program, or why there is none; None if there is no program to write it.

    It has the lines of the source, each before the first instruction that comes from it, the names of maps and helpers, and large numbers
    in hexadecimal digits.
    """
    log = _raw_log(bpfhost, object_file, lowered)
    return None if log is None else _readable(log, object_file, lowered)


def facts_of(bpfhost: Program, object_file: ObjectFile, lowered: Lowered) -> dict[int, tuple[str, str]]:
    """The text of each instruction by its slot, and what the log says is newly known before it; this is empty if there is no log."""
    names = _map_names(object_file)
    texts = disassemble(bpfhost, lowered.program.linked(first_descriptors(object_file))).splitlines()
    lines = {slot: f"{slot}: {text}" for slot, text in zip(_slots_of(texts), texts) if slot is not None}
    log = (_raw_log(bpfhost, object_file, lowered) or "").splitlines()
    lines |= {int(line.partition(": ")[0]): line for line in log if line.partition(": ")[0].isdecimal()}
    parts = {slot: line_with_names(line, names).partition(": ")[2].partition(" // ") for slot, line in lines.items()}
    return {slot: (text.rstrip(), notes) for slot, (text, _, notes) in parts.items()}


def graph_of(bpfhost: Program, object_file: ObjectFile, lowered: Lowered) -> str | None:
    """The control-flow graph of a program, for Graphviz; None if there is no program to write it.

    Each block has its lines of the source and the names of maps and helpers. Long blocks are folded.
    """
    graph = _raw_log(bpfhost, object_file, lowered, "--dot")
    return None if graph is None else annotated(graph, lambda slot: _source(lowered, slot), _map_names(object_file))


def _raw_log(bpfhost: Program, object_file: ObjectFile, lowered: Lowered, *words: str) -> str | None:
    return log_or_fault(bpfhost, lowered.program.linked(first_descriptors(object_file)), shapes_of(object_file), *words)


def _readable(log: str, object_file: ObjectFile, lowered: Lowered) -> str:
    has_slots = any(line.partition(": ")[0].isdecimal() for line in log.splitlines())
    return with_sources(with_names(log, _map_names(object_file)), lowered) if has_slots else log


def _map_names(object_file: ObjectFile) -> dict[int, str]:
    """The names of the object's maps by the descriptors that they have in the log."""
    return {fd: declared.name for fd, declared in zip(first_descriptors(object_file), object_file.maps)}


def with_sources(text: str, lowered: Lowered) -> str:
    """The lines of a program's text or log, with each line of the source before the first line that comes from it.

    A line that begins with a slot belongs to that slot; in a text that has such lines, the others belong to none. Otherwise each line
    belongs to the slot after that of the line before.
    """
    lines = text.splitlines()
    parts, last = [], ""
    for line, slot in zip(lines, _slots_of(lines)):
        source = last if slot is None else _source(lowered, slot) or last
        parts += [f"{source}\n" if source != last else "", f"{line}\n"]
        last = source
    return "".join(parts)


def _slots_of(lines: Sequence[str]) -> Sequence[int | None]:
    """The slot of each line of a text or of a log, if it has one."""
    numbers = [line.partition(": ")[0] for line in lines]
    if any(number.isdecimal() for number in numbers):
        return [int(number) if number.isdecimal() else None for number in numbers]
    return [0, *accumulate(2 if line.endswith(" ll") else 1 for line in lines)][:-1] if lines else []


def _source(lowered: Lowered, slot: int) -> str:
    """The line of the source of a slot, with the number of the copy, as a comment; empty for a jump that was added."""
    line, (copy, count) = lowered.program.line_of(slot), lowered.copy_of(slot)
    if line is None or lowered.is_added(slot):
        return ""
    return f"// {line}{f' (copy {copy} of {count})' if count > 1 else ''}"


def choose_program(object_file: ObjectFile, named: str | None = None) -> ObjectProgram:
    """The program of a section or the function of this name; without a name, the only one. Raises InputError unless it is exactly one."""
    programs = object_file.programs
    if named is not None:
        in_section = tuple(program for program in programs if program.section == named)
        programs = in_section if len(in_section) == 1 else tuple(program for program in programs if program.name == named)
    if len(programs) == 1:
        return programs[0]
    has = ", ".join(f"{program.name} in section {program.section}" for program in object_file.programs)
    if not has:
        raise InputError(f"{object_file.path}: it has no program")
    wrong = "name a section" if named is None else f"{named} names not one program"
    raise InputError(f"{object_file.path}: {wrong}, of {has}")


@dataclass(frozen=True)
class LoadedMap:
    """A map of an object, as a tenant has it."""

    declared: ObjectMap
    map: Map


@dataclass(frozen=True)
class LoadedProgram:
    """A program of an object, as a tenant has it: its form, its descriptor, and the object's maps."""

    tenant: Tenant
    lowered: Lowered
    prog: Prog
    maps: tuple[LoadedMap, ...]

    @property
    def descriptor(self) -> int:
        """The program's descriptor."""
        return int(self.prog)

    @property
    def program(self) -> ObjectProgram:
        """The program in the form that is loaded."""
        return self.lowered.program

    def runs(self, timed: str | None = None) -> TestRuns:
        """Test runs of the program; `timed` names the word of the context that has the time of each packet."""
        return TestRuns(self.tenant.host, self.tenant.number, self.prog, timed=timed)


def load_program(tenant: Tenant, object_file: ObjectFile, program: ObjectProgram | Lowered) -> LoadedProgram:
    """Creates the maps of an object, with their initial values, and loads one of its programs, lowered if needed.

    Raises SourceRefused if the program is rejected at a slot, and LoweringError if it has no accepted form, before anything is created;
    Refused if it is refused for another reason, and InputError if a map is.
    """
    bpfhost = tenant.host.program
    lowered = lowered_program(bpfhost, object_file, program) if isinstance(program, ObjectProgram) else program
    if lowered.refused is not None:
        raise refused_at(bpfhost, object_file, lowered, *lowered.refused)
    maps = tuple(LoadedMap(declared, _made(tenant, declared)) for declared in object_file.maps)
    slots = lowered.program.linked([loaded.map.descriptor for loaded in maps])
    try:
        return LoadedProgram(tenant, lowered, tenant.prog_load(slots, lowered.program.name), maps)
    except ProgramRefused as refused:
        raise refused_at(bpfhost, object_file, lowered, refused.slot, refused.reason) from refused


def _made(tenant: Tenant, declared: ObjectMap) -> Map:
    try:
        made = tenant.map_create(declared.map_type, declared.key_size, declared.value_size, declared.max_entries)
        if declared.initial is not None:
            made[bytes(declared.key_size)] = declared.initial
    except Refused as refused:
        raise InputError(f"the map {declared.name} is refused: {refused.reply.says()}") from refused
    return made
