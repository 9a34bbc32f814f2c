"""What tests of lowering share: objects of functions that are given as text, and verdicts on forms."""

from __future__ import annotations

import re

from bpfhost import assemble, disassemble
from bpfhost.loading import lowered_program
from bpfhost.lowering import Lowered, lower
from bpfhost.lowering.code import Function, functions_of
from bpfhost.objects import CallSlot, ObjectFile, ObjectMap, ObjectProgram, SourceLine
from tests.common import PROGRAM, HostTest

# The number of a helper that does not exist; it marks a call of a function until its slot is written.
_FIRST_CALL = 1000
_CALL = re.compile(r"call (\w*[a-z]\w*)")
# A slot by its hex digits, and what is written in its place at first.
_SLOT = re.compile(r"slot ([0-9a-f]{16})")
_A_SLOT = "call 999"


def object_of(maps: tuple[ObjectMap, ...] = (), **functions: str) -> ObjectFile:
    """An object with functions by their names: the first one is its program, and calls name the others, as `call inner`.

    Each instruction has a line of the source of its own, whose text is that of the instruction. A line `slot 2800000000000c00` is a slot by
    its hex digits, for an instruction that has no text.
    """
    names = list(functions)[1:]
    program, *called = (_function(name, text, names) for name, text in functions.items())
    return ObjectFile("test.o", (program,), maps, None, tuple(called))


def _function(name: str, text: str, names: list[str]) -> ObjectProgram:
    numbered = _CALL.sub(lambda match: f"call {_FIRST_CALL + names.index(match[1])}", _SLOT.sub(_A_SLOT, text))
    slots = bytearray(assemble(PROGRAM, numbered))
    calls, written = [], iter(_SLOT.findall(text))
    for slot in range(len(slots) // 8):
        number = int.from_bytes(slots[8 * slot + 4 : 8 * slot + 8], "little") - _FIRST_CALL
        if slots[8 * slot] == 0x85 and number == -1:
            slots[8 * slot : 8 * slot + 8] = bytes.fromhex(next(written))
        if slots[8 * slot] == 0x85 and number >= 0:
            slots[8 * slot + 1], slots[8 * slot + 4 : 8 * slot + 8] = 0x10, bytes(4)
            calls.append(CallSlot(slot, number))
    return ObjectProgram("socket", name, bytes(slots), (), _lines(name, text), tuple(calls))


def _lines(name: str, text: str) -> tuple[SourceLine, ...]:
    found, slot = [], 0
    for number, line in enumerate(text.splitlines(), 1):
        written = line.partition("//")[0].strip()
        if written and not written.endswith(":"):
            found.append(SourceLine(slot, f"{name}.c", number, 1, written))
            slot += 2 if written.endswith(" ll") else 1
    return tuple(found)


def only(found: ObjectFile) -> ObjectProgram:
    """The program of an object that has one."""
    (program,) = found.programs
    return program


def decoded_functions(found: ObjectFile) -> tuple[Function, ...]:
    """The program and what it calls."""
    return functions_of(found, only(found))


class LoweringTest(HostTest):
    """A test that lowers programs with the verifier's verdicts."""

    def lowered(self, found: ObjectFile) -> Lowered:
        """The program of an object, lowered by the verdicts of the program under test."""
        return lowered_program(PROGRAM, found, only(found))

    def accepted(self, found: ObjectFile) -> Lowered:
        """The same, which has to be accepted."""
        lowered = self.lowered(found)
        self.assertIsNone(lowered.refused, self.text(lowered))
        return lowered

    def form(self, found: ObjectFile) -> Lowered:
        """The plainest form, whatever the verifier says."""
        program = only(found)
        return lower(found, program, lambda form: (0, 2) if form.slots == program.slots else None)

    def text(self, lowered: Lowered) -> str:
        """The text of a form."""
        return disassemble(PROGRAM, lowered.program.slots)
