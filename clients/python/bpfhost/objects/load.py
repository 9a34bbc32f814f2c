"""Reads an object file from its path."""

from __future__ import annotations

import os

from bpfhost.objects.btf import Btf, read_btf
from bpfhost.objects.btf_ext import NOTHING, BtfExt, read_btf_ext
from bpfhost.objects.definitions import MapChanges, defined_maps
from bpfhost.objects.elf import ElfObject, read_elf
from bpfhost.objects.errors import ObjectError
from bpfhost.objects.limits import check_maps
from bpfhost.objects.model import Form, ObjectFile
from bpfhost.objects.programs import line_of_use, read_programs
from bpfhost.objects.types import Types
from bpfhost.objects.variables import variable_maps, with_places


def load_object(path: str | os.PathLike[str], form: Form = Form.LOWERED) -> ObjectFile:
    """Reads an ELF object of machine BPF in a form, and rejects what the host does not have.

    Raises ObjectError, whose text begins with the path, if the file can't be read, is not such an object or is damaged; or if it needs what
    the host does not have: other helpers or kinds of maps, addresses in variables, CO-RE relocations of other types than the context's, more
    than the limits of docs/PROTOCOL.md; and, if programs are taken as they are, calls between functions, legacy loads of the packet, and
    atomic operations that fetch.
    Raises MissingPackage without pyelftools.
    """
    name = os.fsdecode(path)
    try:
        return _read(name, read_elf(path), form)
    except ObjectError as error:
        raise ObjectError(f"{name}: {error}") from error


def _read(name: str, elf: ElfObject, form: Form) -> ObjectFile:
    btf, btf_ext = _types(elf)
    changes = MapChanges(form is not Form.LOWERED, line_of=lambda symbol: line_of_use(elf, btf_ext, symbol))
    maps = [*defined_maps(elf, btf, changes), *variable_maps(elf, btf)]
    check_maps([each.map for each in maps])
    programs, functions = read_programs(elf, maps, (btf, btf_ext), is_lowered=form is not Form.AS_IS)
    types = Types(btf) if btf else None
    return ObjectFile(name, programs, tuple(each.map for each in maps), types, functions, tuple(changes.told), form)


def _types(elf: ElfObject) -> tuple[Btf | None, BtfExt]:
    section, extension = elf.section(".BTF"), elf.section(".BTF.ext")
    if section is None:
        return None, NOTHING
    btf = read_btf(elf.data(section))
    btf_ext = read_btf_ext(elf.data(extension), btf.strings) if extension else NOTHING
    return with_places(btf, elf), btf_ext
