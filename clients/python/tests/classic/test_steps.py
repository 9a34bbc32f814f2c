"""What each step of a translation changes, by its slots; the results stay those of the classic program, and of libpcap's interpreter."""

from __future__ import annotations

import random
from collections.abc import Sequence

from bpfhost.classic import ClassicProgram, Instruction, Semantics
from tests.classic.common import MANY, BpfFilter, needs_libpcap
from tests.classic.interpreter import run
from tests.classic.traffic import ethernet
from tests.classic.translated import TranslationTest

KEEP, DROP = Instruction(0x06, 0, 0, 96), Instruction(0x06, 0, 0, 0)
# A test of r0 after a call.
FAILED = "if r0 != 0 goto"


def prefixes(packet: bytes) -> list[bytes]:
    """All beginnings of a packet."""
    return [packet[:length] for length in range(len(packet) + 1)]


def ipv4(*, kind: int = 0x0800, first: int = 0x45, service: int = 0, fragment: int = 0, protocol: int = 6, port: int = 443) -> bytes:
    """A packet of 60 bytes with ports after 20 bytes of IPv4."""
    packet = bytearray(60)
    packet[12:14], packet[14:16], packet[20:22] = kind.to_bytes(2, "big"), bytes([first, service]), fragment.to_bytes(2, "big")
    packet[23], packet[36:38] = protocol, port.to_bytes(2, "big")
    return bytes(packet)


class StepsTest(TranslationTest):
    def kept(self, expression: str, packets: Sequence[bytes]) -> list[bool]:
        """Whether an expression keeps each packet, by this host, the interpreter and libpcap's, which agree."""
        program = ClassicProgram.of_expression(expression)
        found = self.same(program, packets)
        self.assertEqual(found, [BpfFilter(program.instructions).run(packet) for packet in packets], expression)
        return [bool(each) for each in found]


@needs_libpcap
class Failures(StepsTest):
    """Whether a call has found its bytes is tested on the path that zeros take."""

    def test_both_end_with_0(self) -> None:
        """Zeros are no EtherType of IPv4, and a packet without one is not kept either: nothing is tested."""
        self.assertNotIn(FAILED, self.text("ip"))
        self.assertEqual(sum(self.kept("ip", prefixes(ipv4()))), 60 - 14 + 1)

    def test_zeros_are_kept(self) -> None:
        """A byte of 0 is below 5, and one that is not there is not: only packets with a byte below 5 have a test of the call."""
        self.assertRegex(self.text("ether[30] < 5"), r"call 26\nr7 = .*\nif w7 >= 5 goto \+\d+\nif r0 != 0 goto \+\d+\nw0 = 262144\n")
        self.assertEqual(sum(self.kept("ether[30] < 5", prefixes(bytes(60)))), 60 - 31 + 1)

    def test_short_packets_have_a_path(self) -> None:
        """Headers of 26 bytes are tested first; those of a packet with fewer are then loaded one by one, and it may still be kept."""
        text = self.text("tcp port 443")
        self.assertGreater(text.index(FAILED), text.index("if w7 == 8 goto"))
        # A header of IPv4 with the length 0, so the ports are its first four bytes.
        packet = ipv4(first=0x40, service=0)[:14] + bytes.fromhex("4000 01bb") + ipv4()[18:]
        self.assertEqual([at for at, is_kept in enumerate(self.kept("tcp port 443", prefixes(packet))) if is_kept], list(range(24, 61)))

    def test_zeros_of_other_headers(self) -> None:
        """A second call leaves zeros in its own bytes, and not in those of the first one."""
        for first, second in ((0, 0), (0, 1), (1, 0), (1, 1)):
            program = ClassicProgram((
                Instruction(0x30, 0, 0, 0), Instruction(0x15, 0, 9, 7), Instruction(0x30, 0, 0, 2), Instruction(0x15, 0, 7, 7),
                Instruction(0x30, 0, 0, 60), Instruction(0x15, 0, 5, 0), Instruction(0x30, 0, 0, 1), Instruction(0x15, 0, 3, first),
                Instruction(0x30, 0, 0, 62), Instruction(0x15, 0, 1, second), KEEP, DROP,
            ))  # fmt: skip
            packets = [bytes([7, value, 7]) + bytes(57) + bytes([0, 0, other]) for value in (0, 1) for other in (0, 1)]
            self.same(program, [cut for packet in packets for cut in prefixes(packet)])

    def test_two_calls_before_one_test(self) -> None:
        """Paths from two calls meet, so each tests its own."""
        for number in (0, 1):
            program = ClassicProgram((
                Instruction(0x30, 0, 0, 0), Instruction(0x15, 0, 2, 1), Instruction(0x30, 0, 0, 200), Instruction(0x05, 0, 0, 1),
                Instruction(0x30, 0, 0, 300), Instruction(0x15, 0, 1, number), KEEP, DROP,
            ))  # fmt: skip
            for first in (0, 1):
                self.same(program, prefixes(bytes([first]) + bytes(301))[195:])


class Context(TranslationTest):
    """The first call on a path saves the context, and the others pass the saved one."""

    @needs_libpcap
    def test_who_saves_it(self) -> None:
        for expression in ("ip", "tcp port 443"):
            self.assertEqual(self.text(expression).count("r6 = r1"), 1)
        self.assertNotIn("r1 = r6", self.text("ip"))
        self.assertIn("r1 = r6", self.text("tcp port 443"))
        self.assertLess(self.text("tcp port 443").index("r6 = r1"), self.text("tcp port 443").index("call 26"))

    def test_paths_with_and_without_a_call_meet(self) -> None:
        """Then it is saved at the beginning."""
        length, byte = Instruction(0x80, 0, 0, 0), Instruction(0x30, 0, 0, 200)
        program = ClassicProgram((length, Instruction(0x25, 0, 2, 250), byte, Instruction(0x15, 1, 0, 9), length, Instruction(0x16, 0, 0, 0)))
        self.assertTrue(self.text(program).startswith("r6 = r1\n"))
        self.same(program, [bytes(size) for size in (0, 249, 250, 251, 300)])

    def test_arguments_are_sequences(self) -> None:
        """The arguments are in the order in which the host's interpreter executes several of them at once."""
        program = ClassicProgram((Instruction(0x30, 0, 0, 5), Instruction(0x16, 0, 0, 0)))
        self.assertTrue(self.text(program).startswith("r3 = r10\nr3 += -8\nr6 = r1\nr2 = 5\nr4 = 1\ncall 26\n"))


class Folding(TranslationTest):
    """A sum that only one load needs is part of that load."""

    @staticmethod
    def after_sum(number: int, *others: Instruction) -> ClassicProgram:
        """A byte at A + number + 2; A is the first byte."""
        sums = (Instruction(0x30, 0, 0, 0), Instruction(0x04, 0, 0, number), Instruction(0x07, 0, 0, 0))
        return ClassicProgram((*sums, Instruction(0x50, 0, 0, 2), *others, Instruction(0x16, 0, 0, 0)))

    def test_number_is_part_of_the_offset(self) -> None:
        self.assertIn("r2 = r7\nr2 += 12\n", self.text(self.after_sum(10)))
        self.assertNotIn("r8", self.text(self.after_sum(10)))
        self.same(self.after_sum(10), prefixes(bytes([3]) + bytes(range(100, 140))))

    def test_x_is_read_later(self) -> None:
        """Then it is copied."""
        program = self.after_sum(10, Instruction(0x0C, 0, 0, 0))
        self.assertIn("w8 = w7", self.text(program))
        self.same(program, prefixes(bytes([3]) + bytes(range(100, 140))))

    def test_sums_that_wrap(self) -> None:
        """The sum in A has 32 bits: it is no part of an offset if it may be larger."""
        for number in (2**31 - 300, 2**31 - 257, 2**31 - 256, 2**32 - 3, 2**32 - 1):
            for semantics in Semantics:
                self.same(self.after_sum(number), [bytes([first]) + bytes(range(1, 9)) for first in range(6)], semantics)


@needs_libpcap
class Merging(StepsTest):
    """The EtherType of IPv4 and the first byte of its header are tested by one load."""

    def test_one_load(self) -> None:
        """08 00 45 00 as a number in the order of this machine."""
        for expression in ("tcp port 443", "udp port 53", "tcp dst port 80 or udp dst port 53", "not port 22"):
            self.assertIn(f"if w4 == {0x450008} goto", self.text(expression))
        # These have no test of the first byte, or addresses of four bytes that are aligned otherwise.
        for expression in ("ip", "tcp", "host 10.0.0.1 and port 53"):
            self.assertNotIn(f"{0x450008}", self.text(expression))

    def test_other_bytes(self) -> None:
        """Of packets with another EtherType, options, a type of service, one of them and several."""
        packets = [
            ipv4(kind=kind, first=first, service=service, fragment=fragment, protocol=protocol)
            for kind in (0x0800, 0x86DD, 0x0845) for first in (0x45, 0x46, 0x4F, 0x65, 0) for service in (0, 0x10, 0xFF)
            for fragment in (0, 0x2000, 1) for protocol in (6, 17)
        ]  # fmt: skip
        self.assertIn(True, self.kept("tcp port 443", packets))
        self.assertIn(True, self.kept("not port 443", packets))
        self.assertEqual(self.kept("tcp port 443", [ipv4(), ipv4(service=0x10), ipv4(first=0x46)]), [True, True, False])


@needs_libpcap
class Splitting(StepsTest):
    """A number that is not aligned on the stack is compared in pieces, the last one first."""

    def test_addresses_of_interfaces(self) -> None:
        expression, packet = "ether dst 02:00:00:00:00:01", bytes.fromhex("020000000001") + bytes(54)
        self.assertNotIn("w5", self.text("ether host 02:00:00:00:00:01"))
        others = [bytes(packet[:at]) + bytes([packet[at] ^ 0x80]) + packet[at + 1 :] for at in range(6)]
        self.assertEqual(self.kept(expression, [packet, *others]), [True] + [False] * 6)
        self.kept("ether host 02:00:00:00:00:01", [*prefixes(packet)[:14], *others])

    def test_numbers_at_each_offset(self) -> None:
        """Numbers of two and four bytes at four offsets, next to aligned ones, which decide the layout."""
        draw = random.Random("pieces")
        packets = [draw.randbytes(40) for _ in range(30)]
        for at in range(4):
            for code, size in ((0x28, 2), (0x20, 4)):
                number = int.from_bytes(packets[0][at + 8 : at + 8 + size], "big")
                loads = [Instruction(0x20, 0, 0, 4), Instruction(0x15, 4, 0, 1), Instruction(0x20, 0, 0, 16), Instruction(0x15, 2, 0, 1)]
                program = ClassicProgram((*loads, Instruction(code, 0, 0, at + 8), Instruction(0x15, 0, 1, number), KEEP, DROP))
                self.assertEqual(self.same(program, packets)[0], 96)
                larger = Instruction(0x15, 0, 1, number ^ 2**31)
                self.same(ClassicProgram((*program.instructions[:5], larger, KEEP, DROP)), packets)


@needs_libpcap
class Masks(StepsTest):
    """AND with a number in the packet's byte order."""

    def test_networks(self) -> None:
        text = self.text("src net 10.1.0.0/16")
        self.assertNotIn("be32", text)
        self.assertIn(f"w7 &= {0xFFFF}\nif w7 == {0x010A}", text)

    def test_numbers_that_are_needed(self) -> None:
        """What is masked and then compared by size stays a number."""
        for expression in ("ip[2:2] & 0xff0 > 0x100", "ip[2:2] & 0x1ff = 0x102", "ip[4:4] & 0x80000000 != 0", "ip[2:2] & 0xf0f - 1 = 5"):
            packets = [ipv4()[:16] + low + ipv4()[18:] for low in (b"\x01\x02", b"\x02\x01", b"\x80\0", b"\0\x80", b"\x01\x10", b"\0\x06")]
            self.kept(expression, packets)

    def test_masks_with_more_bytes(self) -> None:
        """A mask that has more bytes than the number, and a comparison with such a number."""
        for mask in (0xFFFF_FFFF, 0x1_0000, 0xFF00, 0xFF, 0x1_00FF):
            for number in (0x0102, 0x0201, 0x02, 0x01, 0x1_0102, 0):
                tests = (Instruction(0x28, 0, 0, 2), Instruction(0x54, 0, 0, mask), Instruction(0x15, 0, 1, number), KEEP, DROP)
                program = ClassicProgram((Instruction(0x30, 0, 0, 0), Instruction(0x15, 0, 4, 0), *tests))
                self.same(program, [bytes([0, 0, 1, 2]), bytes([0, 0, 2, 1])])


@needs_libpcap
class Counts(StepsTest):
    """How many bytes come to the stack by the first call."""

    def test_no_load_needs_both_stores(self) -> None:
        """Bytes 12 to 20 would be stored as 12 to 19 and 13 to 20, and the EtherType is 12 and 13; bytes 5 to 20 are stored at once."""
        for expression, numbers in {"ip6 and tcp": (5, 16), "tcp": (12, 12), "tcp port 443": (12, 26), "src net 10.0.0.0/24": (12, 20)}.items():
            self.assertIn("r2 = {}\nr4 = {}\ncall 26".format(*numbers), self.text(expression))

    def test_bytes_before_change_no_result(self) -> None:
        packet = ipv4(kind=0x86DD)[:20] + b"\x06"
        self.assertEqual([at for at, is_kept in enumerate(self.kept("ip6 and tcp", prefixes(packet + bytes(60)))) if is_kept], list(range(21, 82)))


@needs_libpcap
class All(StepsTest):
    def test_parts_of_traffic(self) -> None:
        """Expressions for which steps meet, on packets that end anywhere."""
        draw, kept = random.Random("steps"), 0
        parts = ["tcp", "udp port 53", "host 10.0.0.2", "net 10.0.0.0/8", "ip[1] = 0", "tcp[tcpflags] & 2 != 0", "ether[1] & 3 = 1", "ip6"]
        for _ in range(20 * MANY):
            chosen = [draw.choice(("", "not ")) + each for each in draw.sample(parts, 3)]
            program = ClassicProgram.of_expression(f"{chosen[0]} and {chosen[1]} or {chosen[2]}")
            packets = [packet[: draw.randint(0, 90)] for packet in draw.sample(ethernet(), 60)]
            kept += sum(map(bool, self.same(program, packets)))
            self.assertEqual(self.same(program, packets), [run(program.instructions, each) for each in packets])
        self.assertGreater(kept, 100)
