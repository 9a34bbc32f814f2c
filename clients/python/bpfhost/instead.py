"""What to use in this profile in place of what only a kernel has: fields of the context, helpers, kinds of maps; each with an example.

Source of the fields: struct __sk_buff of include/uapi/linux/bpf.h.
"""

from __future__ import annotations

from bpfhost.slots import Access

_TIME = "run --time mark gives the milliseconds since the first packet: `u32 now = skb->mark;` (examples/filters/token_bucket.c)"
_EVENTS = (
    "count in a map, which is read after the run, and keep packets by the result, with run --accepted FILE: "
    "`counts[kind & 15] += 1; return -1;` (examples/filters/arp_watch.c)"
)
_TAIL_CALL = (
    "call a function, which is inlined, `return is_tcp ? of_tcp(skb) : of_udp(skb);` (examples/filters/parsed.c), or load two programs, "
    "each for a tenant of its own"
)
_LRU = (
    "use HASH, and count what has no room: `if (bpf_map_update_elem(&seen, &key, &value, BPF_ANY)) dropped += 1;` "
    "(examples/filters/mac_table.c)"
)
_PREFIXES = (
    "keep the prefixes in an array, the longest first, and let a loop look through it: "
    "`for (i = 0; i < 16; i++) if ((address & masks[i]) == nets[i]) return i;` (examples/filters/prefixes.c)"
)
_HASH = (
    "compute a number of the addresses and ports: `hash = (ip.source ^ ip.destination ^ ports.source) * 0x9e3779b1;` "
    "(examples/filters/sample_flows.c)"
)
_PACKET = "read the packet by bpf_skb_load_bytes: `bpf_skb_load_bytes(skb, 14, &ip, sizeof ip)` (examples/filters/flow_count.c)"
_SCRATCH = "keep it in a variable on the stack, or in a global one: `u32 at = 14;` (examples/filters/vlan_tags.c)"
_RANDOM = "count in a global variable, and take one packet of so many: `if (seen++ % 10) return 0;` (examples/filters/sampling.c)"
_PROCESSOR = "one processor runs all programs: `u32 processor = 0;` (examples/filters/proto_bytes.c)"

# By the numbers of helpers in linux/bpf.h.
_HELPERS = {5: _TIME, 118: _TIME, 125: _TIME, 160: _TIME, 208: _TIME, 7: _RANDOM, 8: _PROCESSOR, 12: _TAIL_CALL, 34: _HASH}
_HELPERS |= {helper: _EVENTS for helper in (6, 25, 111, 130, 131, 132, 133, 134, 177)}
_HELPERS |= {helper: _PACKET for helper in (39, 68)}
# By the numbers of kinds of maps.
_MAPS = {3: _TAIL_CALL, 4: _EVENTS, 9: _LRU, 10: _LRU, 11: _PREFIXES, 27: _EVENTS}
_FIELDS = {"hash": _HASH, "cb": _SCRATCH, "data": _PACKET, "data_end": _PACKET, "tstamp": _TIME, "hwtstamp": _TIME}

# The context's fields with their offsets and sizes.
_WORDS = "len pkt_type mark queue_mapping protocol vlan_present vlan_tci vlan_proto priority ingress_ifindex ifindex".split()
_LATER = (
    ("tc_index", 44, 4), ("cb", 48, 20), ("hash", 68, 4), ("tc_classid", 72, 4), ("data", 76, 4), ("data_end", 80, 4), ("napi_id", 84, 4),
    ("family", 88, 4), ("remote_ip4", 92, 4), ("local_ip4", 96, 4), ("remote_ip6", 100, 16), ("local_ip6", 116, 16),
    ("remote_port", 132, 4), ("local_port", 136, 4), ("data_meta", 140, 4), ("flow_keys", 144, 8), ("tstamp", 152, 8), ("wire_len", 160, 4),
    ("gso_segs", 164, 4), ("sk", 168, 8), ("gso_size", 176, 4), ("tstamp_type", 180, 1), ("hwtstamp", 184, 8),
)  # fmt: skip
_OFFSETS = (*((name, 4 * number, 4) for number, name in enumerate(_WORDS)), *_LATER)


def of_helper(number: int) -> str | None:
    """What to use in place of a helper."""
    return _HELPERS.get(number)


def of_map(number: int) -> str | None:
    """What to use in place of a kind of map."""
    return _MAPS.get(number)


def of_field(name: str) -> str | None:
    """What to use in place of a field of the context."""
    return _FIELDS.get(name)


def of_access(access: Access) -> str | None:
    """Which field of the context an access is to, and what to use in its place; None if there is no such field."""
    found = next((field for field in _OFFSETS if field[1] <= access.offset < field[1] + field[2]), None)
    if found is None:
        return None
    name = f"skb->{found[0]}"
    if not access.is_load:
        return f"{name} is written, and a program only reads the context: keep the number in a variable"
    if found[0] in _WORDS:
        return f"a part of {name} is read: read the whole word into a variable, `u32 word = {name};`"
    does = of_field(found[0])
    return f"{name} is a field that the host's context does not have{f': {does}' if does else ''}"
