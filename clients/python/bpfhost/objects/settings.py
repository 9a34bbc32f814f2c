"""Sets global variables from text before an object is loaded: `limit=1000`, `allowed=192.0.2.1`.

The sections of variables are maps with an initial value (`.data`, `.rodata`, `.bss`); this module changes that value.
"""

from __future__ import annotations

import ipaddress
import re
from collections.abc import Mapping
from dataclasses import replace

from bpfhost.objects.btf import Array, Btf, DataSection, Enum, Int, Placed, Variable
from bpfhost.objects.errors import ObjectError
from bpfhost.objects.layout import resolve, size_of, spelling
from bpfhost.objects.model import ObjectFile, ObjectMap
from bpfhost.objects.values import address_size

_MAC = re.compile(r"[0-9A-Fa-f]{1,2}(?::[0-9A-Fa-f]{1,2}){5}")


def with_values(found: ObjectFile, values: Mapping[str, str]) -> ObjectFile:
    """The object with these values for its global variables, by their names. Raises ObjectError if one can't have its value."""
    if not values:
        return found
    if found.types is None:
        raise ObjectError(f"{found.path}: no variable can be set: the object has no types (clang -g)")
    btf, maps, left = found.types.btf, [], dict(values)
    for declared in found.maps:
        placed = _variables(btf, declared)
        for name in [name for name in left if name in placed]:
            declared = _with_value(found.path, btf, declared, placed[name], name, left.pop(name))
        maps.append(declared)
    if left:
        names = sorted(name for declared in found.maps for name in _variables(btf, declared))
        has = f"it has {', '.join(names)}" if names else "it has none"
        raise ObjectError(f"{found.path}: there is no variable {next(iter(left))} to set: {has}; clang keeps a const one only if it is volatile too")
    return replace(found, maps=tuple(maps))


def _variables(btf: Btf, declared: ObjectMap) -> dict[str, Placed]:
    """The variables of a section, by their names."""
    section = btf.type(declared.value_type) if declared.initial is not None and declared.value_type is not None else None
    if not isinstance(section, DataSection):
        return {}
    named = ((btf.type(placed.variable), placed) for placed in section.variables)
    return {variable.name: placed for variable, placed in named if isinstance(variable, Variable)}


def _with_value(path: str, btf: Btf, declared: ObjectMap, placed: Placed, name: str, text: str) -> ObjectMap:
    variable = btf.type(placed.variable)
    assert isinstance(variable, Variable) and declared.initial is not None
    try:
        data = _bytes_of(btf, variable.type, text)
    except ValueError as error:
        raise ObjectError(f"{path}: {name} is of type {spelling(btf, variable.type)}, and {text!r} is no value of it: {error}") from error
    return replace(declared, initial=declared.initial[: placed.offset] + data + declared.initial[placed.offset + len(data) :])


def _bytes_of(btf: Btf, type_id: int, text: str) -> bytes:
    """The bytes of a value. Raises ValueError if the text is not a value of the type."""
    found = resolve(btf, type_id)
    size = address_size(btf, type_id)
    if size is not None and (":" in text or text.count(".") == 3):
        return _address(text, size)
    match found:
        case Int(boolean=True):
            return _number({"true": 1, "false": 0}.get(text.lower()) if not text[:1].isdigit() else int(text, 0), found.size, False)
        case Int():
            return _number(_whole(text), found.size, found.signed)
        case Enum(names=names):
            by_name = {name: number for number, name in names.items()}
            return by_name[text].to_bytes(found.size, "little") if text in by_name else _number(_whole(text), found.size, found.signed)
        case Array(element=element, count=count):
            return _array(btf, element, count, text)
    raise ValueError("only numbers, enumerations, addresses, strings and arrays of these are set")


def _whole(text: str) -> int:
    try:
        return int(text, 0)
    except ValueError:
        raise ValueError("an integer is needed, as 10, -1 or 0x1f") from None


def _number(number: int | None, size: int, signed: bool) -> bytes:
    if number is None:
        raise ValueError("true or false is needed")
    bits = 8 * size
    least, most = (-(1 << bits - 1), (1 << bits - 1) - 1) if signed else (0, (1 << bits) - 1)
    if not least <= number <= most:
        raise ValueError(f"it has room for {least:,} to {most:,}")
    return number.to_bytes(size, "little", signed=signed)


def _address(text: str, size: int) -> bytes:
    """The bytes of an address in network byte order."""
    if size == 6:
        if not _MAC.fullmatch(text):
            raise ValueError("six bytes in hexadecimal digits are needed, as 02:00:00:00:00:01")
        return bytes(int(part, 16) for part in text.split(":"))
    address = ipaddress.ip_address(text).packed
    if len(address) != size:
        raise ValueError(f"an address of {size} bytes is needed")
    return address


def _array(btf: Btf, element: int, count: int, text: str) -> bytes:
    found = resolve(btf, element)
    if isinstance(found, Int) and found.size == 1 and (found.char or found.name == "char"):
        data = text.encode()
        if len(data) >= count:
            raise ValueError(f"it has room for {count - 1} bytes and the zero after them")
        return data.ljust(count, b"\0")
    parts = [part.strip() for part in text.split(",")]
    if len(parts) > count:
        raise ValueError(f"it has {count} elements, and {len(parts)} are given")
    return b"".join(_bytes_of(btf, element, part) for part in parts).ljust(count * size_of(btf, element), b"\0")
