"""The records of a .BTF section: types by their ids.

Source: the kernel's Documentation/bpf/btf.rst, and include/uapi/linux/btf.h for the kinds.
"""

from __future__ import annotations

from collections.abc import Callable, Iterator
from dataclasses import dataclass
from functools import cached_property

from bpfhost.objects.byte_reader import ByteReader
from bpfhost.objects.errors import ObjectError

MAGIC = 0xEB9F
_HEADER_SIZE = 24


@dataclass(frozen=True)
class Void:
    """Type 0, and the target of a pointer to void."""

    name: str = "void"


@dataclass(frozen=True)
class Int:
    """An integer: `size` bytes, of which `bits` bits from `bit_offset` on are used."""

    name: str
    size: int
    bits: int
    bit_offset: int
    signed: bool
    char: bool
    boolean: bool


@dataclass(frozen=True)
class Float:
    """A floating-point number of `size` bytes."""

    name: str
    size: int


@dataclass(frozen=True)
class Pointer:
    """A pointer to a type."""

    target: int


@dataclass(frozen=True)
class Array:
    """`count` elements of one type."""

    element: int
    count: int


@dataclass(frozen=True)
class Member:
    """A member of a struct or a union; `bits` is 0 unless it is a bit-field. Anonymous structs and unions have no name."""

    name: str
    type: int
    bit_offset: int
    bits: int


@dataclass(frozen=True)
class Composite:
    """A struct or a union of `size` bytes."""

    name: str
    size: int
    members: tuple[Member, ...]
    is_union: bool


@dataclass(frozen=True)
class Enum:
    """An enum of `size` bytes; `names` has the first name of each value, modulo 2^(8 * size)."""

    name: str
    size: int
    signed: bool
    names: dict[int, str]


@dataclass(frozen=True)
class Forward:
    """A struct or a union that is declared but not defined."""

    name: str
    is_union: bool


@dataclass(frozen=True)
class Typedef:
    """A typedef."""

    name: str
    target: int


@dataclass(frozen=True)
class Modifier:
    """A type with const, volatile, restrict or a type tag."""

    word: str
    target: int


@dataclass(frozen=True)
class Function:
    """A function, or a function's type if it has no name; or a declaration tag."""

    name: str


@dataclass(frozen=True)
class Variable:
    """A variable."""

    name: str
    type: int


@dataclass(frozen=True)
class Placed:
    """The place of a variable in its section: its type's id, and its range of bytes."""

    variable: int
    offset: int
    size: int


@dataclass(frozen=True)
class DataSection:
    """The variables of a section."""

    name: str
    size: int
    variables: tuple[Placed, ...]


Type = (
    Void
    | Int
    | Float
    | Pointer
    | Array
    | Composite
    | Enum
    | Forward
    | Typedef
    | Modifier
    | Function
    | Variable
    | DataSection
)


@dataclass(frozen=True)
class Btf:
    """All types of an object by their ids, and its strings."""

    types: tuple[Type, ...]
    strings: ByteReader

    def type(self, type_id: int) -> Type:
        """The type of an id."""
        if not 0 <= type_id < len(self.types):
            raise ObjectError(f"section .BTF has no type {type_id}, but 0 to {len(self.types) - 1}")
        return self.types[type_id]

    def section(self, name: str) -> tuple[int, DataSection] | None:
        """The first type, with its id, that describes a section of this name."""
        return self._sections.get(name)

    @cached_property
    def _sections(self) -> dict[str, tuple[int, DataSection]]:
        found: dict[str, tuple[int, DataSection]] = {}
        for type_id, each in enumerate(self.types):
            if isinstance(each, DataSection):
                found.setdefault(each.name, (type_id, each))
        return found


@dataclass(frozen=True)
class _Record:
    """The header of a type: three words, and the offset of the words of its kind."""

    reader: ByteReader
    strings: ByteReader
    at: int
    name: str
    kind: int
    count: int
    flag: bool
    size: int

    def rows(self, width: int) -> Iterator[tuple[int, ...]]:
        """The rows after the header, `count` of so many words."""
        words = self.reader.words(self.at, self.count * width)
        return (words[at : at + width] for at in range(0, len(words), width))

    def word(self) -> int:
        """The one word after the header."""
        return self.reader.words(self.at, 1)[0]


def read_btf(section: bytes) -> Btf:
    """Reads a .BTF section. Raises ObjectError if a range, an id or a kind is wrong."""
    whole = ByteReader(section, "section .BTF")
    header_size = read_head(whole)
    type_at, type_size, string_at, string_size = whole.words(8, 4)
    strings = whole.part(header_size + string_at, string_size, "the strings of section .BTF")
    if not strings.data.endswith(b"\0"):
        raise ObjectError("the strings of section .BTF do not end with a zero byte")
    records = whole.part(header_size + type_at, type_size, "the types of section .BTF")
    types = (Void(), *_types(records, strings))
    for type_id, found in enumerate(types):
        _check_targets(type_id, found, len(types))
    return Btf(types, strings)


def read_head(whole: ByteReader) -> int:
    """The size of the header of a .BTF or a .BTF.ext section, whose first words are checked."""
    first, size = whole.words(0, 2)
    if first & 0xFFFF != MAGIC:
        raise ObjectError(f"{whole.name} does not begin with the number of BTF, {MAGIC:#x}, but with {first & 0xFFFF:#x}")
    if first >> 16 & 0xFF != 1:
        raise ObjectError(f"{whole.name} is of version {first >> 16 & 0xFF}, and 1 is known")
    if size < _HEADER_SIZE:
        raise ObjectError(f"{whole.name} has a header of {size} bytes, and one has at least {_HEADER_SIZE}")
    return size


def _types(reader: ByteReader, strings: ByteReader) -> Iterator[Type]:
    at = 0
    while at < len(reader.data):
        name_at, info, size = reader.words(at, 3)
        kind = info >> 24 & 0x1F
        if kind not in _KINDS:
            raise ObjectError(f"section .BTF has a type of kind {kind}, which is not known")
        read, fixed, row = _KINDS[kind]
        count = info & 0xFFFF
        name = strings.string(name_at)
        yield read(_Record(reader, strings, at + 12, name, kind, count, bool(info >> 31), size))
        at += 12 + fixed + row * count


def _int(record: _Record) -> Type:
    word = record.word()
    encoding, bit_offset, bits = word >> 24 & 0xF, word >> 16 & 0xFF, word & 0xFF
    if record.size not in (1, 2, 4, 8, 16) or bit_offset + bits > 8 * record.size or bits == 0:
        raise ObjectError(f"section .BTF has a number {record.name} of {record.size} bytes with {bits} bits")
    return Int(record.name, record.size, bits, bit_offset, bool(encoding & 1), bool(encoding & 2), bool(encoding & 4))


def _float(record: _Record) -> Type:
    return Float(record.name, record.size)


def _pointer(record: _Record) -> Type:
    return Pointer(record.size)


def _array(record: _Record) -> Type:
    element, _index, count = record.reader.words(record.at, 3)
    return Array(element, count)


def _composite(record: _Record) -> Type:
    members = []
    for name_at, type_id, offset in record.rows(3):
        bits, bit_offset = (offset >> 24, offset & 0xFFFFFF) if record.flag else (0, offset)
        members.append(Member(record.strings.string(name_at), type_id, bit_offset, bits))
    return Composite(record.name, record.size, tuple(members), record.kind == 5)


def _enum(record: _Record) -> Type:
    return _enumeration(record, ((name_at, value) for name_at, value in record.rows(2)))


def _enum64(record: _Record) -> Type:
    return _enumeration(record, ((name_at, low | high << 32) for name_at, low, high in record.rows(3)))


def _enumeration(record: _Record, rows: Iterator[tuple[int, int]]) -> Type:
    if record.size not in (1, 2, 4, 8):
        raise ObjectError(f"section .BTF has an enum {record.name} of {record.size} bytes")
    names: dict[int, str] = {}
    for name_at, value in rows:
        names.setdefault(value % (1 << 8 * record.size), record.strings.string(name_at))
    return Enum(record.name, record.size, record.flag, names)


def _forward(record: _Record) -> Type:
    return Forward(record.name, record.flag)


def _typedef(record: _Record) -> Type:
    return Typedef(record.name, record.size)


_MODIFIERS = {9: "volatile", 10: "const", 11: "restrict"}


def _modifier(record: _Record) -> Type:
    return Modifier(_MODIFIERS.get(record.kind, ""), record.size)


def _function(record: _Record) -> Type:
    return Function(record.name)


def _variable(record: _Record) -> Type:
    return Variable(record.name, record.size)


def _data_section(record: _Record) -> Type:
    variables = tuple(Placed(variable, offset, size) for variable, offset, size in record.rows(3))
    return DataSection(record.name, record.size, variables)


# For each kind, how to read it, and how many bytes follow the header: in all, and for each of `vlen` rows.
_KINDS: dict[int, tuple[Callable[[_Record], Type], int, int]] = {
    1: (_int, 4, 0),
    2: (_pointer, 0, 0),
    3: (_array, 12, 0),
    4: (_composite, 0, 12),
    5: (_composite, 0, 12),
    6: (_enum, 0, 8),
    7: (_forward, 0, 0),
    8: (_typedef, 0, 0),
    9: (_modifier, 0, 0),
    10: (_modifier, 0, 0),
    11: (_modifier, 0, 0),
    12: (_function, 0, 0),
    13: (_function, 0, 8),
    14: (_variable, 4, 0),
    15: (_data_section, 0, 12),
    16: (_float, 0, 0),
    17: (_function, 4, 0),
    18: (_modifier, 0, 0),
    19: (_enum64, 0, 12),
}


def targets(found: Type) -> tuple[int, ...]:
    """The ids of the types that a type refers to."""
    match found:
        case Pointer(target=target) | Typedef(target=target) | Modifier(target=target):
            return (target,)
        case Variable(type=target) | Array(element=target):
            return (target,)
        case Composite(members=members):
            return tuple(member.type for member in members)
        case DataSection(variables=variables):
            return tuple(placed.variable for placed in variables)
    return ()


def _check_targets(type_id: int, found: Type, count: int) -> None:
    wrong = next((target for target in targets(found) if target >= count), None)
    if wrong is not None:
        raise ObjectError(f"type {type_id} of section .BTF is made of type {wrong}, and there are {count}")
