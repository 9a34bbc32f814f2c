"""CO-RE relocations of the context, struct __sk_buff, which each object that includes vmlinux.h has: the host's context has its fields.

Source: the kernel's Documentation/bpf/llvm_reloc.rst, "CO-RE Relocations"; enum bpf_core_relo_kind of include/uapi/linux/bpf.h; the fields
of struct __sk_buff there, whose order is in docs/PROTOCOL.md ("PROG_TEST_RUN").
"""

from __future__ import annotations

from bpfhost.instead import of_field
from bpfhost.numbers import SLOT_SIZE
from bpfhost.objects.btf import Btf, Composite
from bpfhost.objects.btf_ext import CoreRelocation
from bpfhost.objects.layout import resolve, spelling
from bpfhost.objects.place import Place
from bpfhost.slots import WIDE_LOAD

CONTEXT = "__sk_buff"
FIELDS = (
    "len", "pkt_type", "mark", "queue_mapping", "protocol", "vlan_present", "vlan_tci", "vlan_proto", "priority", "ingress_ifindex", "ifindex"
)  # fmt: skip
_WORD = 4
# What a relocation of a field asks for: its offset, its size in bytes, whether it exists, whether it is signed.
_OFFSET, _SIZE, _EXISTS, _SIGNED = 0, 1, 2, 3
# A type with this name, three underscores and a suffix is a flavor of it.
_FLAVOR = "___"
_INSTEAD = "include bpfhost/filter.h, not vmlinux.h, which has the types of one kernel"
_LOADS_AND_STORES, _ALU = (1, 2, 3), (4, 7)


def relocate(place: Place, slots: bytearray, btf: Btf | None, relocation: CoreRelocation) -> None:
    """Applies a CO-RE relocation to the slots of a function. Raises ObjectError unless it is for a field of the context."""
    slot = (relocation.offset - place.begin) // SLOT_SIZE
    type_name = spelling(btf, relocation.type) if btf and relocation.type < len(btf.types) else "?"
    field = _field(btf, relocation)
    if field is None or relocation.kind not in (_OFFSET, _SIZE, _EXISTS, _SIGNED):
        raise place.refused(slot, f"has a CO-RE relocation of type {type_name}, and the host has no kernel's types: {_INSTEAD}")
    known = FIELDS.index(field) if field in FIELDS else None
    if relocation.kind == _EXISTS:
        number = int(known is not None)
    elif known is None:
        has = f"and the host's context has skb->{FIELDS[0]} to skb->{FIELDS[-1]}"
        raise place.refused(slot, f"uses skb->{field}, {has}", of_field(field))
    else:
        number = {_OFFSET: _WORD * known, _SIZE: _WORD, _SIGNED: 0}[relocation.kind]
    if not _put(slots, slot, number):
        raise place.refused(slot, f"has a CO-RE relocation of type {type_name} at an instruction that has no room for it")


def _field(btf: Btf | None, relocation: CoreRelocation) -> str | None:
    """The field of the context that a relocation is for; None if it is for something else."""
    if btf is None or relocation.type >= len(btf.types):
        return None
    found = resolve(btf, relocation.type)
    numbers = relocation.access.split(":")
    if not isinstance(found, Composite) or found.is_union or found.name.partition(_FLAVOR)[0] != CONTEXT:
        return None
    if len(numbers) < 2 or numbers[0] != "0" or not numbers[1].isdecimal() or int(numbers[1]) >= len(found.members):
        return None
    return found.members[int(numbers[1])].name or None


def _put(slots: bytearray, slot: int, number: int) -> bool:
    """Writes a number into its instruction: the offset of a load or a store, or the constant of arithmetic or of a wide load."""
    at = SLOT_SIZE * slot
    if at + SLOT_SIZE > len(slots):
        return False
    kind = slots[at] & 7
    if kind in _LOADS_AND_STORES:
        slots[at + 2 : at + 4] = number.to_bytes(2, "little")
    elif kind in _ALU or slots[at] == WIDE_LOAD:
        slots[at + 4 : at + 8] = number.to_bytes(4, "little")
    else:
        return False
    return True
