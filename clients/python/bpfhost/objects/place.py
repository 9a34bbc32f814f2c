"""The place of a program in its object, for messages about its instructions."""

from __future__ import annotations

from dataclasses import dataclass

from bpfhost.objects.elf import Section, Symbol
from bpfhost.objects.errors import ObjectError
from bpfhost.objects.model import SourceLine, line_at


@dataclass(frozen=True)
class Place:
    """A function of a section, with its lines by their slots."""

    section: Section
    function: Symbol
    lines: tuple[SourceLine, ...]

    @property
    def begin(self) -> int:
        """The offset of the function's first byte in its section."""
        return self.function.value

    @property
    def end(self) -> int:
        """The offset of the byte after its last one."""
        return self.function.value + self.function.size

    def refused(self, slot: int, what: str, instead: str | None = None) -> ObjectError:
        """The error for a slot that needs what the host does not have, with the line of the source, and what to use instead, if known."""
        line = line_at(self.lines, slot)
        return ObjectError(f"{self} {what}, at slot {slot}{f' ({line})' if line else ''}{f'; {instead}' if instead else ''}")

    def __str__(self) -> str:
        return f"function {self.function.name} in section {self.section.name}"
