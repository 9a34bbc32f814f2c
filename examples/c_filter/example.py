#!/usr/bin/env python3
"""A filter written in C, run on three packets. usage: example.py BPFHOST [CLANG OBJCOPY]

With a clang and an llvm-objcopy, the slots are compiled from filter.c; without them, they are those of filter.txt.
"""

import struct
import subprocess
import sys
import tempfile
from pathlib import Path

HERE = Path(__file__).resolve().parent
INCLUDE = HERE.parents[1] / "clients/c/include"
sys.dont_write_bytecode = True
sys.path.insert(0, str(HERE.parents[1] / "clients/python"))

from bpfhost import Host, HostError, MapType, ReplyError, assemble, disassemble, frames  # noqa: E402

TENANT, KEPT, FILTER = 0, 3, 4
# The version of clang that made filter.txt; another one may compile the same C to other slots.
CLANG_OF_TEXT = "version 14."
UDP, TCP = 17, 6


def tool(*words):
    """Calls a compiler's tool, and exits if it fails."""
    try:
        ended = subprocess.run([str(word) for word in words], capture_output=True, text=True, check=False)
    except OSError as error:
        sys.exit(f"c_filter: {words[0]} does not start: {error.strerror}")
    if ended.returncode:
        sys.exit(f"c_filter: {words[0]} failed:\n{ended.stderr}")
    return ended.stdout


def compiled(clang, objcopy):
    """The slots of filter.c: section "socket" of clang's object."""
    with tempfile.TemporaryDirectory() as scratch:
        made, cut_out = Path(scratch, "filter.o"), Path(scratch, "filter.bin")
        tool(clang, "-O2", "-target", "bpf", f"-I{INCLUDE}", "-c", HERE / "filter.c", "-o", made)
        tool(objcopy, "-O", "binary", "--only-section=socket", made, cut_out)
        return cut_out.read_bytes()


def slots_of_filter(bpfhost, tools):
    text = (HERE / "filter.txt").read_text()
    if not tools:
        return assemble(bpfhost, text)
    slots = compiled(*tools)
    if CLANG_OF_TEXT in tool(tools[0], "--version") and disassemble(bpfhost, slots) != text:
        sys.exit("c_filter: filter.txt is not what `bpfhost dis` writes for the slots of filter.c")
    return slots


def ipv4(protocol, inner):
    """An Ethernet frame with an IPv4 packet from 192.0.2.1 to 192.0.2.53."""
    ethernet = bytes.fromhex("02000000003502000000000108 00")
    addresses = bytes([192, 0, 2, 1, 192, 0, 2, 53])
    return ethernet + struct.pack(">BBHHHBBH", 0x45, 0, 20 + len(inner), 0, 0, 64, protocol, 0) + addresses + inner


def packets():
    question = struct.pack(">HHHHHH", 1, 0x100, 1, 0, 0, 0) + b"\x07example\x03com\x00" + struct.pack(">HH", 1, 1)
    query = ipv4(UDP, struct.pack(">HHHH", 40000, 53, 8 + len(question), 0) + question)
    to_port_53 = ipv4(TCP, struct.pack(">HHIIBBHHH", 40000, 53, 0, 0, 0x50, 2, 64240, 0, 0))
    return {"a DNS query": query, "the query, cut off in its UDP header": query[:40], "TCP to port 53": to_port_53}


def show(host, slots):
    made = host.ask(frames.map_create(TENANT, MapType.ARRAY, 4, 8, 1))
    print(f"the map: {made.says()}")
    print(f"the filter: {host.ask(frames.prog_load(TENANT, slots)).says()}")
    for name, packet in packets().items():
        reply = host.ask(frames.prog_test_run(TENANT, FILTER, packet))
        print(f"{name}, {len(packet)} bytes: {reply.says()}")
    kept = host.ask(frames.map_lookup_elem(TENANT, KEPT, bytes(4)))
    print(f"kept: {int.from_bytes(kept.payload, 'little')}")


def main():
    if len(sys.argv) not in (2, 4):
        sys.exit("usage: example.py BPFHOST [CLANG OBJCOPY]")
    bpfhost, *tools = sys.argv[1:]
    try:
        slots = slots_of_filter(bpfhost, tools)
        with Host(bpfhost) as host:
            show(host, slots)
    except (HostError, ReplyError) as error:
        sys.exit(f"c_filter: {error}")


main()
