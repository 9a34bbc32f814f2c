"""Resolves a type's other names; the size of its values; and how it is written in C."""

from __future__ import annotations

from bpfhost.objects.btf import (
    Array,
    Btf,
    Composite,
    DataSection,
    Enum,
    Float,
    Forward,
    Function,
    Int,
    Modifier,
    Pointer,
    Type,
    Typedef,
    Variable,
    Void,
)
from bpfhost.objects.errors import ObjectError

POINTER_SIZE = 8
# The deepest nesting of types; the kernel allows 32 (MAX_RESOLVE_DEPTH in kernel/bpf/btf.c).
DEEPEST = 32


def resolve(btf: Btf, type_id: int) -> Type:
    """The type without typedefs, const, volatile, restrict and tags."""
    return btf.type(resolve_id(btf, type_id))


def resolve_id(btf: Btf, type_id: int) -> int:
    """The id of the type without typedefs, const, volatile, restrict and tags."""
    first = type_id
    for _ in range(DEEPEST + 1):
        found = btf.type(type_id)
        if not isinstance(found, Typedef | Modifier):
            return type_id
        type_id = found.target
    raise ObjectError(f"type {first} of section .BTF has no end after {DEEPEST} other types")


def size_of(btf: Btf, type_id: int) -> int:
    """The size of a type's values in bytes. Raises ObjectError if the type has no values: void, functions, forward declarations."""
    first, count = type_id, 1
    for _ in range(DEEPEST + 1):
        found = resolve(btf, type_id)
        match found:
            case Int(size=size) | Float(size=size) | Enum(size=size) | Composite(size=size) | DataSection(size=size):
                return count * size
            case Pointer():
                return count * POINTER_SIZE
            case Array(element=type_id, count=more):
                count *= more
            case Variable(type=type_id):
                pass
            case _:
                raise ObjectError(f"the type {spelling(btf, type_id)} has no size")
    raise ObjectError(f"type {first} of section .BTF is nested more than {DEEPEST} times")


def spelling(btf: Btf, type_id: int) -> str:
    """The type as written in C without a name, as `struct flow *` or `unsigned char[6]`."""
    return _spelled(btf, type_id, "", DEEPEST)


def _spelled(btf: Btf, type_id: int, declarator: str, depth: int) -> str:
    """The type with a declarator after its name, as `*` or `[6]`."""
    if depth < 0:
        raise ObjectError(f"type {type_id} of section .BTF is nested more than {DEEPEST} times")
    found = btf.type(type_id)
    match found:
        case Pointer(target=target):
            return _spelled(btf, target, f"*{declarator}", depth - 1)
        case Array(element=target, count=count):
            inner = f"({declarator})" if declarator.startswith("*") else declarator
            return _spelled(btf, target, f"{inner}[{count}]", depth - 1)
        case Modifier(word=word, target=target) if word and isinstance(resolve(btf, target), Pointer):
            return _spelled(btf, target, f"{word} {declarator}".rstrip(), depth - 1)
        case Modifier(word=word, target=target):
            return f"{word} {_spelled(btf, target, declarator, depth - 1)}".lstrip()
        case Variable(type=target):
            return _spelled(btf, target, declarator, depth - 1)
    own = _own_name(found)
    return f"{own} {declarator}" if declarator[:1] in ("*", "(") else f"{own}{declarator}"


def _own_name(found: Type) -> str:
    match found:
        case Composite(name=name, is_union=is_union) | Forward(name=name, is_union=is_union):
            return f"{'union' if is_union else 'struct'} {name}".rstrip()
        case Enum(name=name):
            return f"enum {name}".rstrip()
        case Function(name=name):
            return f"{name or 'function'} ()"
        case Void(name=name) | Int(name=name) | Float(name=name) | Typedef(name=name) | DataSection(name=name):
            return name
    return "?"
