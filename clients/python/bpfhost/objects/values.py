"""Values of types, from the bytes of a map: as C writes initializers, and as plain lists and dicts."""

from __future__ import annotations

import ipaddress
import math
import struct
from dataclasses import dataclass

from bpfhost.objects.btf import Array, Btf, Composite, DataSection, Enum, Float, Int, Member, Modifier, Pointer, Typedef, Variable
from bpfhost.objects.errors import ObjectError
from bpfhost.objects.layout import DEEPEST, POINTER_SIZE, resolve, size_of, spelling

# A value with more parts is not shown: a map's value has at most 4,096 bytes, so no compiler's type is that large.
MOST_PARTS = 65_536


@dataclass(frozen=True)
class Leaf:
    """A number, a name or a string: for JSON, and as C writes it."""

    plain: object
    text: str


@dataclass(frozen=True)
class Fields:
    """The values of members, with their names."""

    members: tuple[tuple[str, Value], ...]


@dataclass(frozen=True)
class Elements:
    """The values of an array's elements."""

    values: tuple[Value, ...]


Value = Leaf | Fields | Elements


def text(value: Value) -> str:
    """A value as C writes it: `{ .src = 1, .ports = { 53, 80 } }`."""
    match value:
        case Leaf(text=written):
            return written
        case Fields(members=members):
            inner = ", ".join(f".{name} = {text(member)}" for name, member in members)
        case Elements(values=values):
            inner = ", ".join(text(element) for element in values)
    return f"{{ {inner} }}" if inner else "{ }"


def plain(value: Value) -> object:
    """A value as numbers, strings, lists and dicts."""
    match value:
        case Leaf(plain=known):
            return known
        case Fields(members=members):
            return {name: plain(member) for name, member in members}
        case Elements(values=values):
            return [plain(element) for element in values]


def texts(value: Value) -> object:
    """A value as texts, lists and dicts."""
    match value:
        case Leaf(plain=str(written)):
            return written
        case Leaf(text=written):
            return written
        case Fields(members=members):
            return {name: texts(member) for name, member in members}
        case Elements(values=values):
            return [texts(element) for element in values]


def decode(btf: Btf, type_id: int, data: bytes) -> Value:
    """The value of the first bytes. Raises ObjectError if there are too few, or if the type has no values."""
    size = size_of(btf, type_id)
    if len(data) < size:
        raise ObjectError(f"a value of type {spelling(btf, type_id)} has {size} bytes, and there are {len(data)}")
    return _Decoder(btf, type_id, data).value(type_id, 0, DEEPEST)


@dataclass
class _Decoder:
    """Reads the parts of one value at their offsets, and counts them."""

    btf: Btf
    whole: int
    data: bytes
    left: int = MOST_PARTS

    def value(self, type_id: int, at: int, depth: int) -> Value:
        """The value of a type at an offset in bytes, with a limit on nested types."""
        self._count(depth)
        found = resolve(self.btf, type_id)
        size = address_size(self.btf, type_id)
        if size is not None and not (isinstance(found, Array) and self._is_text(found)):
            return _address(found, self._bytes(at, size))
        match found:
            case Int():
                return _number(found, self._bits(8 * at + found.bit_offset, found.bits))
            case Enum():
                return _enumerator(found, self._bits(8 * at, 8 * found.size))
            case Float():
                return _float(self._bytes(at, found.size))
            case Pointer():
                address = self._bits(8 * at, 8 * POINTER_SIZE)
                return Leaf(address, f"{address:#x}")
            case Array():
                return self._array(found, at, depth)
            case Composite():
                return Fields(tuple(self._fields(found, at, depth)))
            case DataSection():
                return Fields(tuple(self._variables(found, at, depth)))
            case Variable(type=target):
                return self.value(target, at, depth - 1)
        raise ObjectError(f"the type {spelling(self.btf, type_id)} has no values")

    def _count(self, depth: int) -> None:
        self.left -= 1
        if depth < 0 or self.left < 0:
            raise ObjectError(f"the type {spelling(self.btf, self.whole)} has too many parts to be shown")

    def _is_text(self, found: Array) -> bool:
        element = resolve(self.btf, found.element)
        return isinstance(element, Int) and (element.char or element.name == "char")

    def _array(self, found: Array, at: int, depth: int) -> Value:
        size = size_of(self.btf, found.element)
        element = resolve(self.btf, found.element)
        if isinstance(element, Int) and size == 1 and (element.char or element.name == "char"):
            written = _string(self._bytes(at, found.count))
            if written is not None:
                return written
        # Elements without bytes are shown once: all are the same.
        count = found.count if size else 0
        return Elements(tuple(self.value(found.element, at + number * size, depth - 1) for number in range(count)))

    def _fields(self, found: Composite, at: int, depth: int) -> list[tuple[str, Value]]:
        fields: list[tuple[str, Value]] = []
        for member in found.members:
            value = self._member(member, at, depth)
            if member.name:
                fields.append((member.name, value))
            elif isinstance(value, Fields):
                # C treats the members of an anonymous struct or union as members of the type around it.
                fields.extend(value.members)
        return fields

    def _member(self, member: Member, at: int, depth: int) -> Value:
        found = resolve(self.btf, member.type)
        if not member.bits and member.bit_offset % 8 == 0:
            return self.value(member.type, at + member.bit_offset // 8, depth - 1)
        self._count(depth)
        first = 8 * at + member.bit_offset
        match found:
            case Int():
                bits = member.bits or found.bits
                return _number(found, self._bits(first + (0 if member.bits else found.bit_offset), bits), bits)
            case Enum():
                bits = member.bits or 8 * found.size
                return _enumerator(found, self._bits(first, bits), bits)
        raise ObjectError(f"the member {member.name} of type {spelling(self.btf, member.type)} is no bit-field")

    def _variables(self, found: DataSection, at: int, depth: int) -> list[tuple[str, Value]]:
        variables: list[tuple[str, Value]] = []
        for placed in found.variables:
            variable = self.btf.type(placed.variable)
            if isinstance(variable, Variable):
                variables.append((variable.name, self.value(variable.type, at + placed.offset, depth - 1)))
        return variables

    def _bytes(self, at: int, size: int) -> bytes:
        if at + size > len(self.data):
            raise ObjectError(f"a part of a value ends at byte {at + size}, and there are {len(self.data)}")
        return self.data[at : at + size]

    def _bits(self, first: int, count: int) -> int:
        """The number in a range of bits, from the lowest bit of the lowest byte on (little-endian)."""
        at = first // 8
        whole = int.from_bytes(self._bytes(at, (first + count + 7) // 8 - at), "little")
        return whole >> first % 8 & (1 << count) - 1


# Types of linux/types.h whose values are addresses, and the sizes of arrays of bytes that are shown as addresses: IPv4, Ethernet and IPv6.
_ADDRESS = "__be32"
_ADDRESS_SIZES = (4, 6, 16)


def address_size(btf: Btf, type_id: int) -> int | None:
    """The bytes of an address, if the type is one: `__be32`, or an array of 4, 6 or 16 unsigned bytes; else None."""
    named = type_id
    for _ in range(DEEPEST):
        each = btf.type(named)
        if isinstance(each, Typedef) and each.name == _ADDRESS:
            return 4
        if not isinstance(each, Typedef | Modifier):
            break
        named = each.target
    found = resolve(btf, type_id)
    if isinstance(found, Array) and found.count in _ADDRESS_SIZES:
        element = resolve(btf, found.element)
        if isinstance(element, Int) and element.size == 1 and not element.signed and not element.boolean:
            return found.count
    return None


def _address(found: object, data: bytes) -> Leaf:
    """An address as text; for JSON, the number or the list of bytes of its type."""
    text = data.hex(":") if len(data) == 6 else str(ipaddress.ip_address(data))
    return Leaf(list(data) if isinstance(found, Array) else int.from_bytes(data, "little"), text)


def _signed(number: int, bits: int) -> int:
    return number - (1 << bits) if number >> bits - 1 else number


def _number(found: Int, number: int, bits: int | None = None) -> Leaf:
    bits = bits or found.bits
    if found.boolean and number < 2:
        return Leaf(bool(number), "true" if number else "false")
    if found.char or found.name == "char":
        if 0x20 <= number < 0x7F and bits == 8:
            return Leaf(chr(number), f"'{_escaped(chr(number), chr(39))}'")
    value = _signed(number, bits) if found.signed else number
    return Leaf(value, str(value))


def _enumerator(found: Enum, number: int, bits: int | None = None) -> Leaf:
    bits = bits or 8 * found.size
    wide = _signed(number, bits) % (1 << 8 * found.size)
    name = found.names.get(number) or (found.names.get(wide) if found.signed or bits == 8 * found.size else None)
    if name:
        return Leaf(name, name)
    value = _signed(number, bits) if found.signed else number
    return Leaf(value, str(value))


def _float(data: bytes) -> Leaf:
    form = {2: "<e", 4: "<f", 8: "<d"}.get(len(data))
    if form is None:
        return Leaf(data.hex(), f"0x{data[::-1].hex() or '0'}")
    value = struct.unpack(form, data)[0]
    return Leaf(value if math.isfinite(value) else str(value), repr(value))


def _string(data: bytes) -> Leaf | None:
    """The string in an array of char: printable ASCII, followed only by zeros; None if it is something else."""
    written = data.rstrip(b"\0")
    if not all(0x20 <= byte < 0x7F for byte in written):
        return None
    return Leaf(written.decode(), f'"{_escaped(written.decode(), chr(34))}"')


def _escaped(written: str, quote: str) -> str:
    return written.replace("\\", "\\\\").replace(quote, f"\\{quote}")
