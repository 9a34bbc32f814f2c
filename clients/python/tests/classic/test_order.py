"""Filters as libpcap makes them, one test after another: the order in the translation, and packets that end anywhere."""

from __future__ import annotations

import random
from itertools import product

from bpfhost import Packets
from bpfhost.classic import ClassicProgram, Instruction, Semantics
from tests.classic.common import MANY, BpfFilter, needs_libpcap, on_host
from tests.classic.interpreter import run
from tests.classic.translated import TranslationTest

# Loads with the tests of what they load: the codes and the numbers of both. Some are relative to X, which is 0 or the length of a header.
_TESTS = [
    (0x28, 12, 0x15, 0x0800), (0x28, 12, 0x15, 0x0800), (0x28, 12, 0x15, 0x86DD), (0x28, 20, 0x45, 0x1FFF), (0x28, 20, 0x45, 0x1FFF),
    (0x30, 23, 0x15, 6), (0x30, 20, 0x15, 6), (0x20, 26, 0x15, 0x0A000001), (0x20, 30, 0x15, 0x0A000001), (0x20, 30, 0x25, 0x0A000001),
    (0x48, 14, 0x15, 443), (0x48, 16, 0x15, 443), (0x50, 26, 0x45, 0x10), (0x28, 54, 0x15, 443), (0x28, 56, 0x35, 443),
    (0x30, 70, 0x15, 0), (0x30, 200, 0x15, 0), (0x80, 0, 0x25, 60), (0xB1, 14, 0x45, 0x40), (0x30, 22, 0x45, 0x80),
]  # fmt: skip
# What packets have at the offsets of these loads.
_FIELDS = {
    12: ("0800", "0800", "0800", "86dd", "0806"), 14: ("45", "45", "46", "4f", "60", "40"), 20: ("0000", "0000", "2000", "0001", "0600"),
    22: ("40", "80"), 23: ("06", "06", "11"), 26: ("0a000001", "c0000201"), 30: ("0a000001", "c0000201"), 34: ("01bb", "0035"),
    36: ("01bb", "0035"), 46: ("50", "80"), 54: ("01bb", "0035"), 56: ("01bb", "0035"), 70: ("00", "01"),
}  # fmt: skip


def filter_of(draw: random.Random) -> list[Instruction]:
    """Tests one after another: each goes on if it holds, or if it does not, and otherwise to the end, or over the next one."""
    tests = [draw.choice(_TESTS) for _ in range(draw.randint(2, 8))]
    end, found = 2 * len(tests) + 1, list[Instruction]()
    for number, (load, offset, test, k) in enumerate(tests):
        found.append(Instruction(load, 0, 0, offset))
        far = draw.choice((0, 0, 0, 2)) if number + 1 < len(tests) else 0
        yes, no = far, end - len(found) - 1
        if test == 0x45 or draw.random() < 0.2:
            yes, no = no, yes
        found.append(Instruction(test, yes, no, k))
    return [*found, draw.choice((Instruction(0x06, 0, 0, 96), Instruction(0x16, 0, 0, 0))), Instruction(0x06, 0, 0, 0)]


def packet_of(draw: random.Random) -> bytes:
    """A packet with the bytes that the tests look for, or nearly so."""
    packet = bytearray(draw.choice((90, 90, 220)))
    for offset, values in _FIELDS.items():
        value = bytes.fromhex(draw.choice(values))
        packet[offset : offset + len(value)] = value
    return bytes(packet[: draw.choice((len(packet), draw.randint(0, 80)))])


class Order(TranslationTest):
    def test_drawn_filters(self) -> None:
        draw, kept = random.Random("filters"), 0
        for _ in range(400 * MANY):
            program = ClassicProgram(tuple(filter_of(draw)))
            packets = [packet_of(draw) for _ in range(60)]
            for semantics in Semantics:
                kept += sum(map(bool, self.same(program, packets, semantics)))
        self.assertGreater(kept, 1000 * MANY)

    def test_every_length(self) -> None:
        """A packet that a filter keeps, and each prefix of it."""
        draw, kept = random.Random("lengths"), 0
        for _ in range(100 * MANY):
            program = ClassicProgram(tuple(filter_of(draw)))
            packet = next((each for each in (packet_of(draw) for _ in range(50)) if run(program.instructions, each)), None)
            if packet:
                self.same(program, [packet[:length] for length in range(len(packet) + 1)])
                kept += 1
        self.assertGreater(kept, 20 * MANY)

    def test_loads_side_by_side(self) -> None:
        """Two loads, of which one is enough for a result, or both are needed; the second ends with the first one, or a byte later."""
        loads = [Instruction(code, 0, 0, at) for at in range(20, 23) for code in (0x30, 0x28)]
        packets = [bytes(20) + first + bytes(9) for first in (b"\0", b"\1")]
        cut = [packet[:length] for packet in packets for length in range(len(packet) + 1)]
        ends = (Instruction(0x06, 0, 0, 96), Instruction(0x06, 0, 0, 0))
        for one, other in product(loads, loads):
            program = ClassicProgram((one, Instruction(0x15, 2, 0, 0), other, Instruction(0x15, 0, 1, 0), *ends))
            self.same(program, cut)
            found = on_host(self.tenant, program.translated(fast=False).slots, Packets.of(cut, 0))
            self.assertEqual(found, [run(program.instructions, each) for each in cut], program.listing())

    @needs_libpcap
    def test_what_is_tested_first(self) -> None:
        """Of the bytes on the stack: IPv4 before IPv6, and addresses before the kind of packet, which few packets fail."""
        for expression, first in {
            "tcp": r"call 26\nr7 = \*\(u16 \*\)\(r10 - \d+\)\nif w7 == 8 goto \+\d+\nif w7 == 56710 goto ",
            "host 10.0.0.1 and port 53": r"call 26\nr7 = \*\(u32 \*\)\(r10 - \d+\)\nif w7 == 16777226 goto ",
            "ip6 and port 53": r"call 26\nr7 = \*\(u16 \*\)\(r10 - \d+\)\nif w7 == 56710 goto ",
        }.items():
            text = self.text(expression)
            self.assertRegex(text[text.index("call 26") :], rf"\A{first}")

    @needs_libpcap
    def test_fragments(self) -> None:
        """A test that was moved after others still ends the program."""
        program = ClassicProgram.of_expression("tcp port 443")
        whole = bytearray(60)
        whole[12:15], whole[23], whole[34:36] = b"\x08\0\x45", 6, b"\x01\xbb"
        packets = []
        for place in (0, 1, 0x1FFF, 0x2000, 0x4000, 0x8001):
            whole[20:22] = place.to_bytes(2, "big")
            packets.append(bytes(whole))
        reference = BpfFilter(program.instructions)
        found = self.same(program, packets)
        self.assertEqual(found, [reference.run(each) for each in packets])
        self.assertEqual([bool(each) for each in found], [True, False, False, True, True, False])
