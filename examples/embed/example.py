#!/usr/bin/env python3
"""The example of example.c by only ctypes: the shared library exports each function of bpfhost.h, so nothing is compiled.

usage: example.py [LIBRARY]; without it, an installed libbpfhost.so.0.3
"""

from __future__ import annotations

import ctypes
import sys
from ctypes import POINTER, Structure, byref, c_bool, c_char_p, c_int, c_int32, c_size_t, c_uint16, c_uint32, c_uint64, c_void_p

HONEST, HOSTILE, TENANTS = 0, 1, 2
# Of each tenant the first descriptor is 3.
COUNTS, FILTER = 3, 4
SOCKET_FILTER, ARRAY, DONE = 1, 2, 0
# Returns the length of a UDP packet and counts it in the map of descriptor 3; returns 0 for all others (filter.txt).
FILTER_SLOTS = bytes.fromhex(
    "bf16000000000000 b702000017000000 bfa3000000000000 07030000f8ffffff b704000001000000 850000001a000000 55000d0000000000 71a1f8ff00000000"
    "55010b0011000000 620afcff00000000 1811000003000000 0000000000000000 bfa2000000000000 07020000fcffffff 8500000001000000 1500040000000000"
    "b701000001000000 db10000000000000 6160000000000000 9500000000000000 b700000000000000 9500000000000000"
)
READS_OUTSIDE = bytes.fromhex("7910001000000000 9500000000000000")
NEVER_ENDS = bytes.fromhex("b700000000000000 0700000001000000 0500feff00000000")
TAKES_THE_MAP = bytes.fromhex("1811000003000000 0000000000000000 b700000000000000 9500000000000000")


class Seed(Structure):
    """bpfhost_seed."""

    _fields_ = [("words", c_uint64 * 2)]


class Reply(Structure):
    """bpfhost_reply."""

    _fields_ = [
        ("tenant", c_uint16),
        ("command", c_uint16),
        ("status", c_int32),
        ("payload", c_void_p),
        ("payload_length", c_size_t),
        ("result", c_uint32),
        ("slot", c_uint32),
        ("reason", c_uint16),
    ]


# What each function returns and takes, as bpfhost.h declares it. A frame, a key, slots and a packet are bytes.
FUNCTIONS = {
    "random_seed": (c_bool, POINTER(Seed)),
    "new": (c_int, POINTER(c_void_p), c_size_t, POINTER(Seed)),
    "free": (None, c_void_p),
    "ask_sized": (c_int, c_void_p, c_char_p, c_size_t, POINTER(Reply), c_size_t),
    "code_text": (c_char_p, c_int),
    "memory_refused": (c_int, c_void_p, c_uint16, POINTER(c_bool)),
    "frame_map_create": (c_size_t, c_char_p, c_size_t, c_uint16, *[c_uint32] * 5),
    "frame_map_lookup": (c_size_t, c_char_p, c_size_t, c_uint16, c_uint32, c_char_p, c_size_t),
    "frame_prog_load": (c_size_t, c_char_p, c_size_t, c_uint16, c_uint32, c_char_p, c_size_t),
    "frame_prog_test_run": (c_size_t, c_char_p, c_size_t, c_uint16, c_uint32, c_void_p, c_char_p, c_size_t),
    "frame_close": (c_size_t, c_char_p, c_size_t, c_uint16, c_uint32),
}


class Host:
    """A host, by the functions of the library."""

    def __init__(self, path: str) -> None:
        self.library = ctypes.CDLL(path)
        for name, (returned, *parameters) in FUNCTIONS.items():
            function = getattr(self.library, f"bpfhost_{name}")
            function.restype, function.argtypes = returned, parameters
        self.room = ctypes.create_string_buffer(512)
        self.host = c_void_p()
        seed = Seed()
        if not self.library.bpfhost_random_seed(byref(seed)):
            sys.exit("no host: the system has no random bytes for its seed")
        self.demand("no host", self.library.bpfhost_new(byref(self.host), TENANTS, byref(seed)))

    def demand(self, what: str, code: int) -> None:
        """Ends this program at another code: a mistake of its own."""
        if code != DONE:
            sys.exit(f"{what}: {self.library.bpfhost_code_text(code).decode()}")

    def ask(self, command: str, *arguments: object) -> Reply:
        """The reply to a command, whose frame a function of the library makes."""
        length = getattr(self.library, f"bpfhost_frame_{command}")(self.room, len(self.room), *arguments)
        reply = Reply()
        self.demand("no reply", self.library.bpfhost_ask_sized(self.host, self.room, length, byref(reply), ctypes.sizeof(reply)))
        return reply

    def load(self, what: str, tenant: int, slots: bytes) -> None:
        reply = self.ask("prog_load", tenant, SOCKET_FILTER, slots, len(slots) // 8)
        refused = f"status {reply.status}, slot {reply.slot}, reason {reply.reason}"
        print(f"  {what}: {f'descriptor {reply.status}' if reply.status >= 0 else refused}")

    def run(self, what: str, protocol: int) -> None:
        """Runs the filter on a packet of 64 bytes: IPv4 after the addresses of Ethernet."""
        packet = bytes([*[0] * 12, 8, 0, 0x45, *[0] * 8, protocol, *[0] * 40])
        reply = self.ask("prog_test_run", HONEST, FILTER, None, packet, len(packet))
        print(f"  {what}: status {reply.status}, keeps {reply.result} bytes")

    def look_up(self, who: str, tenant: int) -> None:
        reply = self.ask("map_lookup", tenant, COUNTS, bytes(4), 4)
        # The payload is lent until the next call.
        found = int.from_bytes(ctypes.string_at(reply.payload, reply.payload_length), "little") if reply.status == 0 else None
        print(f"  {who} looks the count up: {f'status {reply.status}' if found is None else found}")

    def free(self) -> None:
        self.library.bpfhost_free(self.host)


def main() -> None:
    host = Host(sys.argv[1] if len(sys.argv) > 1 else "libbpfhost.so.0.3")
    print("An honest tenant makes a map for one count and loads its filter:")
    print(f"  the map: descriptor {host.ask('map_create', HONEST, ARRAY, 4, 8, 1, 0).status}")
    host.load("the filter", HONEST, FILTER_SLOTS)
    print("It filters packets that lie in memory:")
    for what, protocol in (("UDP", 17), ("TCP", 6), ("UDP", 17), ("ICMP", 1)):
        host.run(what, protocol)
    print("Its neighbour is hostile, and is refused:")
    host.load("a read outside the context", HOSTILE, READS_OUTSIDE)
    host.load("a loop without end", HOSTILE, NEVER_ENDS)
    host.load("the other tenant's map", HOSTILE, TAKES_THE_MAP)
    host.look_up("the neighbour", HOSTILE)
    print(f"  closes the map: status {host.ask('close', HOSTILE, COUNTS).status}")
    print("Nothing of the honest tenant has changed:")
    host.look_up("it", HONEST)
    host.run("UDP", 17)
    refused = c_bool(True)
    host.demand("not asked", host.library.bpfhost_memory_refused(host.host, HONEST, byref(refused)))
    print(f"Memory was refused to it: {'yes' if refused.value else 'never'}.")
    host.free()


if __name__ == "__main__":
    main()
