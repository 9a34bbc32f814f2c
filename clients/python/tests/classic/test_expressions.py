"""Expressions as people write them: this host compared with libpcap's interpreter, on the repository's captures, for each link type."""

from __future__ import annotations

import contextlib
import random
import time
from collections.abc import Iterator
from pathlib import Path

from bpfhost import Context, Host, Packets
from bpfhost.classic import ClassicError, ClassicProgram, ExpressionError, Instruction, Length
from tests.classic.common import MANY, BpfFilter, cut, needs_libpcap, on_host
from tests.classic.traffic import ethernet, of_link
from tests.common import PROGRAM, HostTest

EXPRESSIONS = (Path(__file__).parent / "expressions.txt").read_text().splitlines()
# Expressions that the bench measures as well.
HOSTS = " or ".join(f"host 10.0.0.{host}" for host in range(1, 17))
# Expressions for each link type that libpcap compiles them for.
OF_LINKS = [
    "ip", "ip6", "tcp port 443", "host 192.0.2.1 and port 53", "len > 60 and udp", "tcp[tcpflags] & tcp-syn != 0",
    "tcp[((tcp[12] & 0xf0) >> 2):4] = 0x47455420", "ip[2:2] > 100", "not ip", "link[1] & 1 = 0 or link[2:2] > 5", "ip6[6] = 17",
]  # fmt: skip
OF_802_11 = ["type data", "type mgt subtype beacon", "subtype qos-data", "wlan addr1 02:00:00:00:00:35", "dir fromds and tcp", "link[0] = 8"]


def compiled(expressions: list[str], link_type: int = 1) -> Iterator[ClassicProgram]:
    """The programs of those that libpcap compiles: it has no names of ports and protocols if the system has no list of them."""
    for expression in expressions:
        try:
            yield ClassicProgram.of_expression(expression, link_type)
        except (ExpressionError, ClassicError):
            continue


@needs_libpcap
class Expressions(HostTest):
    def setUp(self) -> None:
        super().setUp()
        host = Host(PROGRAM)
        self.addCleanup(host.close)
        self.tenant = host.tenant()

    def same(self, program: ClassicProgram, packets: list[bytes]) -> None:
        """This host has libpcap's result on each packet, whole or cut, with and without headers on the stack."""
        reference = BpfFilter(program.instructions)
        wanted = [reference.run(packet) for packet in packets] * 2
        for fast in (True, False):
            translation = program.translated(fast=fast)
            tried = [*packets, *cut(packets, translation)]
            found = on_host(self.tenant, translation.slots, Packets.of(tried, 0))
            differs = next((at for at, pair in enumerate(zip(found, wanted)) if pair[0] != pair[1]), None)
            self.assertIsNone(differs, f"{program.name}, fast {fast}, packet {differs}: {tried[differs or 0].hex()}")

    def test_on_ethernet(self) -> None:
        programs = list(compiled([*EXPRESSIONS, HOSTS]))
        # Some have names that libpcap looks up in the system.
        self.assertGreater(len(programs), len(EXPRESSIONS) - 10)
        for at, program in enumerate(programs):
            self.same(program, ethernet()[at % 4 :: 4] if MANY == 1 else ethernet())

    def test_combinations(self) -> None:
        draw, sizes = random.Random("combinations"), []
        for _ in range(30 * MANY):
            parts = [draw.choice(["", "not "]) + f"({draw.choice(EXPRESSIONS)})" for _ in range(draw.choice((2, 3, 4, 12)))]
            expression = parts[0] + "".join(draw.choice([" and ", " or "]) + part for part in parts[1:])
            for program in compiled([expression]):
                self.same(program, ethernet()[:: 8 // min(MANY, 8)])
                sizes.append(len(program.instructions))
        self.assertGreater(max(sizes), 100)

    def test_each_link_type(self) -> None:
        tried = 0
        for link_type in range(300):
            programs = list(compiled([*OF_LINKS, *OF_802_11], link_type))
            packets = of_link(link_type) if programs else []
            tried += bool(programs)
            for program in programs:
                self.same(program, packets)
        self.assertGreater(tried, 40, "libpcap compiles for more link types than that")

    def test_without_the_optimizer(self) -> None:
        for expression in EXPRESSIONS[::5]:
            try:
                program = ClassicProgram.of_expression(expression, optimized=False)
            except (ExpressionError, ClassicError):
                continue
            self.same(program, ethernet()[::6])

    def test_lengths_on_the_wire(self) -> None:
        """Packets that a capture has cut, with the length that each had in the word that no ancillary load reads."""
        packets = ethernet()[::7]
        for expression in ("greater 500", "len & 1 = 1", "len > 200 and udp", "ether[len - 20:4] != 0", "less 100 or ip[2:2] = len - 14"):
            program = ClassicProgram.of_expression(expression)
            reference = BpfFilter(program.instructions)
            slots = program.translated(length=Length.WIRE).slots
            for length in (0, 99, 499, 501, 1514):
                wanted = [reference.run(packet, length) for packet in packets]
                self.assertEqual(on_host(self.tenant, slots, Packets.of(packets), Context(priority=length)), wanted, expression)


@needs_libpcap
class Reach(HostTest):
    def test_how_far_a_filter_reads(self) -> None:
        """The first 14 bytes have the type, headers of IPv4 have 60 bytes at most, and a filter of the length reads no byte."""
        offsets = {"ip": 14, "udp port 53": 14 + 60 + 4, "tcp[((tcp[12] & 0xf0) >> 2):4] = 5": 14 + 60 + 60 + 4, "ether[3000] = 1": 3001}
        for expression, reach in {**offsets, "ip[ip[0]] > 3": 14 + 255 + 1, "less 0": None, "ip and len > 60": None}.items():
            self.assertEqual(ClassicProgram.of_expression(expression).translated().reach, reach, expression)
        for expression in ("less 0", "ip and len > 60"):
            reach = ClassicProgram.of_expression(expression).translated(length=Length.WIRE).reach
            self.assertEqual(reach, {"less 0": 0, "ip and len > 60": 14}[expression])


@needs_libpcap
class Sizes(HostTest):
    """How large translations are, and what is left out if there is no room."""

    def test_headers_are_left_out_where_there_is_no_room(self) -> None:
        """Many loads: with the headers on the stack the program is there twice, and that is more than a host takes."""
        for many, is_fast in ((180, True), (250, False)):
            program = ClassicProgram.of_expression(" or ".join(f"tcp[{at}] = {at % 256}" for at in range(many)))
            translation, plain = program.translated(), program.translated(fast=False)
            self.assertEqual((translation.is_fast, plain.is_fast), (is_fast, False))
            self.assertTrue(plain.count < translation.count <= 4096 if is_fast else translation == plain)

    def test_calls_for_headers(self) -> None:
        """The numbers of bytes that calls for headers ask for: a second one if loads are far apart."""
        for expression, sizes in {
            "tcp port 443": [26],
            "host 10.0.0.1 and port 53": [26],
            HOSTS: [30],
            "tcp[((tcp[12] & 0xf0) >> 2):4] = 0x47455420": [35],
            "port 443 and host 2001:db8::35": [38, 8],
            "ip": [],
        }.items():
            slots = ClassicProgram.of_expression(expression).translated().slots
            numbers = [int.from_bytes(slots[at + 4 : at + 8], "little") for at in range(0, len(slots), 8) if slots[at : at + 2] == b"\xb7\x04"]
            self.assertEqual([number for number in numbers if number > 4], sizes, expression)

    def test_programs_that_are_made_to_take_long(self) -> None:
        """Each instruction after tests of many first bytes of IPv4 has a view for each of them; and sums of many loads meet. With twice the
        instructions, the time grows at most with the third power, next to what does not grow."""
        for few, many in zip(self.made(1), self.made(2), strict=True):
            self.assertLess(self.seconds(many), 8 * self.seconds(few) + 1)

    @staticmethod
    def made(size: int) -> list[list[Instruction]]:
        """Four programs that take long, with this many times 350 instructions or more."""
        lengths = [Instruction(0xB1, 0, 0, at % 120) for at in range(350 * size)]
        mixed = [each for at in range(300 * size) for each in (Instruction(0xB1, 0, 0, at % 120), Instruction(0x2D, at % 7, 1, 0))]
        loads = [each for at in range(300 * size) for each in (Instruction(0x30, 0, 0, at % 120), Instruction(0x25, 250, 250 - at % 250, at))]
        far = [each for at in range(900 * size) for each in (Instruction(0x30, 0, 0, at), Instruction(0x25, 250, 1, at))]
        return [lengths, mixed, loads, far]

    @staticmethod
    def seconds(instructions: list[Instruction]) -> float:
        """The processor time in which this program is translated, or refused."""
        begun = time.process_time()
        with contextlib.suppress(ClassicError):
            ClassicProgram((*instructions, *[Instruction(0x87, 0, 0, 0)] * 250, Instruction(0x16, 0, 0, 0))).translated()
        return time.process_time() - begun

    def test_too_many_slots(self) -> None:
        expression = " or ".join(f"ether[{at}] = {at % 251}" for at in range(700, 1400))
        program = ClassicProgram.of_expression(expression)
        with self.assertRaisesRegex(ClassicError, r"its 1,\d\d\d instructions take 6,\d\d\d slots, and 4,096 are the most"):
            program.translated()
