"""ELF objects of machine BPF, as clang writes them: programs, maps, global variables, types and lines of the source.

    found = load_object("filter.o")
    for program in found.programs:
        print(program.section, program.name, len(program.slots) // 8)

It needs pyelftools (Debian: python3-pyelftools); without it, `load_object` raises MissingPackage.
"""

from bpfhost.objects.built import is_built, load_built
from bpfhost.objects.errors import ObjectError
from bpfhost.objects.load import load_object
from bpfhost.objects.model import CallSlot, Form, MapSlot, ObjectFile, ObjectMap, ObjectProgram, SourceLine
from bpfhost.objects.types import Types

__all__ = [
    "CallSlot",
    "Form",
    "MapSlot",
    "ObjectError",
    "ObjectFile",
    "ObjectMap",
    "ObjectProgram",
    "SourceLine",
    "Types",
    "is_built",
    "load_built",
    "load_object",
]
