"""Random classic programs on random packets: this host compared with an independent interpreter, libpcap's `bpf_filter`, and the kernel."""

from __future__ import annotations

from bpfhost import Context, Host, Packets
from bpfhost.classic import ClassicError, ClassicProgram, Instruction, Length, Semantics
from bpfhost.classic.checking import check
from bpfhost.classic.instructions import FORMS
from tests.classic.common import MANY, BpfFilter, KernelFilter, cut, needs_kernel, needs_libpcap, on_host
from tests.classic.generator import Generator
from tests.classic.interpreter import run
from tests.common import PROGRAM, HostTest

# The context's words in runs with ancillary loads: no two of them are the same in either order.
WORDS = {
    "pkt_type": 4, "mark": 0x01020304, "queue_mapping": 7, "protocol": 0x0008, "vlan_present": 1, "vlan_tci": 0x2064, "vlan_proto": 0x0081,
    "ifindex": 3, "priority": 1514,
}  # fmt: skip


class RandomPrograms(HostTest):
    def setUp(self) -> None:
        super().setUp()
        host = Host(PROGRAM)
        self.addCleanup(host.close)
        self.tenant = host.tenant()

    def packets(self, draw: Generator, many: int) -> list[bytes]:
        return [draw.packet() for _ in range(many)]

    def test_every_code_is_drawn(self) -> None:
        draw = Generator("codes")
        self.assertEqual({each.code for _ in range(300) for each in draw.program()}, set(FORMS))

    def test_beside_the_book(self) -> None:
        """With and without headers on the stack, in both meanings, with words of the context."""
        draw = Generator("book", has_ancillary=True)
        packets = self.packets(draw, 40)
        for number in range(150 * MANY):
            program = ClassicProgram(tuple(draw.program()))
            for semantics in Semantics:
                for fast in (True, False):
                    length = Length.WIRE if number % 2 else Length.PACKET
                    translation = program.translated(semantics, length, fast=fast)
                    tried = [*packets, *cut(packets, translation)]
                    found = on_host(self.tenant, translation.slots, Packets.of(tried, 0), Context(**WORDS))
                    wire = WORDS["priority"] if length is Length.WIRE else None
                    wanted = [run(program.instructions, each, length=wire, semantics=semantics, words=WORDS) for each in packets]
                    self.assertEqual(found, wanted * 2, (semantics, fast, program.listing()))

    def test_numbers_in_the_order_of_the_packet(self) -> None:
        """Tests for equality and common bits, also with numbers that have more bytes than are loaded."""
        packet = bytes.fromhex("0102 0000 8001 ff00 01020304")
        numbers = (0, 1, 0x0102, 0x0201, 0x1_0102, 0x0102_0000, 0x0102_0304, 0x8001, 0x0180, 0xFF00, 0x00FF, 2**31, 2**32 - 1)
        cases = [(code, at, test, number) for code in (0x20, 0x28) for at in (0, 2, 4, 6, 8) for test in (0x15, 0x45) for number in numbers]
        for code, at, test, number in cases:
            ends = (Instruction(0x06, 0, 0, 1), Instruction(0x06, 0, 0, 2))
            program = ClassicProgram((Instruction(code, 0, 0, at), Instruction(test, 0, 1, number), *ends))
            wanted = [run(program.instructions, packet)]
            # After a second load the headers come to the stack first.
            longer = ClassicProgram((Instruction(0x30, 0, 0, 11), *program.instructions))
            for each in (program, longer):
                self.assertEqual(on_host(self.tenant, each.translated().slots, Packets.of([packet], 0)), wanted, each.listing())

    def test_loads_of_two_sizes_before_one_test(self) -> None:
        """The tested value was loaded as two bytes on one path and as four on the other."""
        for number in (0x0102, 0x0201, 0x0102_0304, 0x0403_0201, 0x0304, 0):
            ways = [Instruction(0x28, 0, 0, 2), Instruction(0x05, 0, 0, 1), Instruction(0x20, 0, 0, 4)]
            test = [Instruction(0x15, 0, 1, number), Instruction(0x06, 0, 0, 1), Instruction(0x06, 0, 0, 2)]
            program = ClassicProgram((Instruction(0x30, 0, 0, 0), Instruction(0x15, 0, 2, 1), *ways, *test))
            packets = [bytes([first, 0]) + bytes.fromhex("0102 01020304") for first in (1, 2)]
            found = on_host(self.tenant, program.translated().slots, Packets.of(packets, 0))
            self.assertEqual(found, [run(program.instructions, packet) for packet in packets], number)

    def test_offsets_that_need_33_bits(self) -> None:
        """X is 2^32 - 16 in many ways, and X + 32 is 16 in 32 bits: out of the packet for libpcap, and a byte for the kernel."""
        high = 2**32 - 16
        number, byte = Instruction(0x00, 0, 0, 0), Instruction(0x30, 0, 0, 0)
        ways: list[list[tuple[int, int]]] = [
            [(0x30, 0), (0x04, high - 7)], [(0x14, 16)], [(0x00, high // 16), (0x24, 16)], [(0x00, high & ~0xFF), (0x44, high & 0xFF)],
            [(0x00, 15), (0xA4, 2**32 - 1)], [(0x00, high // 16), (0x64, 4)], [(0x00, 16), (0x84, 0)], [(0x00, high), (0x34, 1)],
            [(0x00, high), (0x94, 2**32 - 1)], [(0x00, 2**32 - 1), (0x54, high)], [(0x00, high), (0x02, 3), (0x00, 0), (0x60, 3)],
            [(0x20, 4)], [(0x00, high), (0x74, 0)], [(0x30, 0), (0x07, 0), (0x00, high - 7), (0x0C, 0)],
        ]  # fmt: skip
        packet = bytes([7, 0, 0, 0]) + high.to_bytes(4, "big") + bytes(range(50))
        for way in ways:
            steps = [Instruction(code, 0, 0, k) for code, k in way]
            ends = [Instruction(0x07, 0, 0, 0), Instruction(0x50, 0, 0, 32), Instruction(0x16, 0, 0, 0)]
            # Also if another path, on which X is small, leads to the same load.
            other = [byte, Instruction(0x15, 0, len(steps) + 1, 7), number, *steps]
            for program in (ClassicProgram((number, *steps, *ends)), ClassicProgram((*other, *ends))):
                for semantics, wanted in ((Semantics.LIBPCAP, 0), (Semantics.KERNEL, packet[16])):
                    slots = program.translated(semantics).slots
                    self.assertEqual(on_host(self.tenant, slots, Packets.of([packet], 0)), [wanted], (semantics, program.listing()))
                    self.assertEqual(run(program.instructions, packet, semantics=semantics), wanted)

    def test_all_that_the_stack_has(self) -> None:
        """Every word of scratch memory is stored, then each byte of the headers is read; and the same in the other order."""
        numbers = [2**32 - 1 - 3**at for at in range(16)]
        stores = [each for at, number in enumerate(numbers) for each in (Instruction(0x00, 0, 0, number), Instruction(0x02, 0, 0, at))]
        # X is computed from the bytes and words before: X becomes 5 A - X.
        mixed = (Instruction(0x24, 0, 0, 5), Instruction(0x1C, 0, 0, 0), Instruction(0x07, 0, 0, 0))
        loads = [each for at in range(128) for each in (Instruction(0x30, 0, 0, at), *mixed)]
        words = [each for at in range(16) for each in (Instruction(0x60, 0, 0, at), *mixed)]
        packets = [bytes((7 * at + many) % 256 for at in range(many)) for many in (127, 128, 200)]
        for parts in ((stores, loads, words), (loads, stores, words), (stores, words, loads)):
            program = ClassicProgram((*sum(parts, list[Instruction]()), Instruction(0x87, 0, 0, 0), Instruction(0x16, 0, 0, 0)))
            translation = program.translated()
            self.assertTrue(translation.is_fast)
            found = on_host(self.tenant, translation.slots, Packets.of(packets, 0))
            self.assertEqual(found, [run(program.instructions, packet) for packet in packets])

    @needs_libpcap
    def test_beside_libpcap(self) -> None:
        draw = Generator("libpcap")
        packets = self.packets(draw, 200)
        for _ in range(150 * MANY):
            program = ClassicProgram(tuple(draw.program()))
            reference = BpfFilter(program.instructions)
            wanted = [reference.run(each) for each in packets]
            self.assertEqual([run(program.instructions, each) for each in packets[:20]], wanted[:20], program.listing())
            for fast in (True, False):
                translation = program.translated(fast=fast)
                found = on_host(self.tenant, translation.slots, Packets.of([*packets, *cut(packets, translation)]))
                self.assertEqual(found, wanted * 2, (fast, program.listing()))

    @needs_kernel
    def test_beside_the_kernel(self) -> None:
        draw = Generator("kernel")
        packets = [each for each in self.packets(draw, 60) if each]
        for _ in range(100 * MANY):
            program = ClassicProgram(tuple(draw.program()))
            with KernelFilter(program.instructions) as attached:
                wanted = [attached.kept(each) for each in packets]
            for fast in (True, False):
                found = on_host(self.tenant, program.translated(Semantics.KERNEL, fast=fast).slots, Packets.of(packets))
                kept = [min(result, len(each)) for result, each in zip(found, packets)]
                self.assertEqual(kept, wanted, (fast, program.listing()))

    @needs_kernel
    def test_the_kernel_refuses_the_same(self) -> None:
        draw, refused = Generator("any"), 0
        for _ in range(2_000 * MANY):
            instructions = draw.any_program()
            ours, kernels = is_accepted(instructions), is_attached(instructions)
            self.assertEqual(ours, kernels, instructions)
            refused += not ours
        self.assertGreater(refused, 500 * MANY)


def is_accepted(instructions: list[Instruction]) -> bool:
    try:
        check(instructions)
    except ClassicError:
        return False
    return True


def is_attached(instructions: list[Instruction]) -> bool:
    try:
        KernelFilter(instructions).close()
    except OSError:
        return False
    return True
