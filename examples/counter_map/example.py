#!/usr/bin/env python3
"""A map that a program counts in: it is read, iterated and changed from outside, and closed. usage: example.py BPFHOST"""

import sys
from pathlib import Path

HERE = Path(__file__).resolve().parent
sys.dont_write_bytecode = True
sys.path.insert(0, str(HERE.parents[1] / "clients/python"))

from bpfhost import Host, HostError, MapType, ReplyError, Update, assemble, frames  # noqa: E402
from bpfhost.numbers import LARGEST_AREA, LONGEST_VALUE  # noqa: E402

TENANT, COUNTS, PROGRAM = 0, 3, 4
# The number of the longest values; a tenant's maps have room for four times as many.
MOST_VALUES = LARGEST_AREA // LONGEST_VALUE


class Session:
    """One tenant at a host; each step is shown with its reply."""

    def __init__(self, host):
        self.host = host

    def step(self, does, frame):
        reply = self.host.ask(frame)
        print(f"  {does}: {reply.says()}")
        return reply

    def count(self, *packets):
        for packet in packets:
            self.step(f"run on {packet.decode()!r}", frames.prog_test_run(TENANT, PROGRAM, packet))

    def walk(self):
        """Gets each key after the one before, and looks it up."""
        reply = self.host.ask(frames.map_get_next_key(TENANT, COUNTS))
        while reply.status == 0:
            key = reply.payload
            value = self.host.ask(frames.map_lookup_elem(TENANT, COUNTS, key)).payload
            print(f"  key {key.hex()} ({chr(key[0])}) has {int.from_bytes(value, 'little')}")
            reply = self.host.ask(frames.map_get_next_key(TENANT, COUNTS, key))
        print(f"  behind the last key: {reply.says()}")


def key_of(letter):
    return letter.encode() + bytes(3)


def hash_map(entries):
    return frames.map_create(TENANT, MapType.HASH, 4, 8, entries)


def largest_map():
    return frames.map_create(TENANT, MapType.ARRAY, 4, LONGEST_VALUE, MOST_VALUES)


def show(session, slots):
    print("A hash map for three keys, and the program that counts in it:")
    session.step("make the map", hash_map(3))
    session.step("load the program", frames.prog_load(TENANT, slots))
    session.count(b"apple", b"bean", b"avocado", b"cherry", b"")
    print("A fourth key finds the map full, and is not counted:")
    session.count(b"date")

    print("The map from outside:")
    session.walk()
    session.step("look d up", frames.map_lookup_elem(TENANT, COUNTS, key_of("d")))
    session.step("delete b", frames.map_delete_elem(TENANT, COUNTS, key_of("b")))
    forty = (40).to_bytes(8, "little")
    for does, flags in {"put 40 under a, if a is new": Update.NOEXIST, "put 40 under a": Update.ANY}.items():
        session.step(does, frames.map_update_elem(TENANT, COUNTS, key_of("a"), forty, flags))
    print("The program sees it:")
    session.count(b"apricot", b"date")
    session.walk()

    print("Its descriptor is closed while the program holds the map:")
    session.step("close the map's descriptor", frames.close(TENANT, COUNTS))
    session.step("look a up", frames.map_lookup_elem(TENANT, COUNTS, key_of("a")))
    session.step("load the program again", frames.prog_load(TENANT, slots))
    session.count(b"almond")
    print("A new map gets the number; the program counts on in its own:")
    session.step("make a map", hash_map(3))
    session.count(b"anise")
    session.step("look a up in the new map", frames.map_lookup_elem(TENANT, COUNTS, key_of("a")))
    session.step("close the new map", frames.close(TENANT, COUNTS))
    print("The map is gone with its program, and its room is free:")
    for _ in range(3):
        session.step("make a map that takes a quarter of the room", largest_map())
    session.step("make a map that takes the last quarter", largest_map())
    session.step("close the program", frames.close(TENANT, PROGRAM))
    session.step("make a map that takes the last quarter", largest_map())


def main():
    if len(sys.argv) != 2:
        sys.exit("usage: example.py BPFHOST")
    try:
        slots = assemble(sys.argv[1], (HERE / "program.txt").read_text())
        with Host(sys.argv[1]) as host:
            show(Session(host), slots)
    except (HostError, ReplyError) as error:
        sys.exit(f"counter_map: {error}")


main()
