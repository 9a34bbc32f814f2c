"""Encodes command frames (docs/PROTOCOL.md). Each function has the name of its command and takes the tenant first.

A number that does not fit its field raises ValueError. The host checks everything else.
"""

from dataclasses import astuple, dataclass, fields

from bpfhost.numbers import SOCKET_FILTER, Command, MapType, Update


@dataclass(frozen=True)
class Context:
    """The words of a test run's context after the packet's length: fields of the kernel's `__sk_buff`, 32 bits each."""

    pkt_type: int = 0
    mark: int = 0
    queue_mapping: int = 0
    protocol: int = 0
    vlan_present: int = 0
    vlan_tci: int = 0
    vlan_proto: int = 0
    priority: int = 0
    ingress_ifindex: int = 0
    ifindex: int = 0

    def to_bytes(self) -> bytes:
        """The ten words as they are in a frame."""
        return b"".join(_number("a word of the context", word, 32) for word in astuple(self))


NO_CONTEXT = Context()
# Bytes of a test run's frame before its context: length, tenant, command, descriptor.
_BEFORE_CONTEXT = 12


def place_of(word: str) -> int:
    """The offset of a word of the context in a test run's frame. Raises ValueError if there is no such word."""
    names = [each.name for each in fields(Context)]
    if word not in names:
        raise ValueError(f"the context has no word {word}, but {', '.join(names)}")
    return _BEFORE_CONTEXT + 4 * names.index(word)


def _number(name: str, value: int, bits: int) -> bytes:
    """The bytes of a number, little-endian."""
    if not 0 <= value < 1 << bits:
        raise ValueError(f"{name} is {value}, and a frame has room for 0 to {(1 << bits) - 1}")
    return value.to_bytes(bits // 8, "little")


def frame(tenant: int, command: int, body: bytes = b"") -> bytes:
    """A frame with any body, valid or not."""
    head = _number("the tenant", tenant, 16) + _number("the command", command, 16)
    return _number("the length", len(head) + len(body), 32) + head + body


def map_create(
    tenant: int, map_type: MapType | int, key_size: int, value_size: int, max_entries: int, flags: int = 0
) -> bytes:
    """Creates a map; sizes are in bytes."""
    fields = {"the type": map_type, "the key's size": key_size, "the value's size": value_size}
    fields.update({"the number of entries": max_entries, "the flags": flags})
    body = b"".join(_number(name, value, 32) for name, value in fields.items())
    return frame(tenant, Command.MAP_CREATE, body)


def _on_descriptor(tenant: int, command: int, descriptor: int, rest: bytes = b"") -> bytes:
    return frame(tenant, command, _number("the descriptor", descriptor, 32) + rest)


def map_lookup_elem(tenant: int, descriptor: int, key: bytes) -> bytes:
    """Looks up the value of a key."""
    return _on_descriptor(tenant, Command.MAP_LOOKUP_ELEM, descriptor, key)


def map_update_elem(tenant: int, descriptor: int, key: bytes, value: bytes, flags: Update | int = Update.ANY) -> bytes:
    """Sets the value of a key."""
    rest = _number("the flags", flags, 64) + key + value
    return _on_descriptor(tenant, Command.MAP_UPDATE_ELEM, descriptor, rest)


def map_delete_elem(tenant: int, descriptor: int, key: bytes) -> bytes:
    """Deletes a key of a hash map."""
    return _on_descriptor(tenant, Command.MAP_DELETE_ELEM, descriptor, key)


def map_get_next_key(tenant: int, descriptor: int, key: bytes = b"") -> bytes:
    """Asks for the key after `key`, or for the first key."""
    return _on_descriptor(tenant, Command.MAP_GET_NEXT_KEY, descriptor, key)


def prog_load(tenant: int, slots: bytes, prog_type: int = SOCKET_FILTER) -> bytes:
    """Loads a program from the bytes of its slots (`bpfhost.assemble` makes them from text)."""
    return frame(tenant, Command.PROG_LOAD, _number("the program's type", prog_type, 32) + slots)


def prog_test_run(tenant: int, descriptor: int, packet: bytes = b"", context: Context = NO_CONTEXT) -> bytes:
    """Runs a program on a packet."""
    return _on_descriptor(tenant, Command.PROG_TEST_RUN, descriptor, context.to_bytes() + packet)


def close(tenant: int, descriptor: int) -> bytes:
    """Closes a descriptor of a map or of a program."""
    return _on_descriptor(tenant, Command.CLOSE, descriptor)
