"""Test runs of many packets: results, contexts, and runs that are refused."""

from __future__ import annotations

from bpfhost import Context, Errno, Host, Packets, Refused, ReplyError, TestRuns, assemble, frames
from bpfhost.packets import ETHERNET
from tests.common import LENGTH, PROGRAM, HostTest, TimedTest

RAW_IP = 101
# r0 = the context's word `protocol`, and `mark` (docs/PROTOCOL.md: the words follow `len`, four bytes each).
PROTOCOL = "r0 = *(u32 *)(r1 + 16)\nexit\n"
MARK = "r0 = *(u32 *)(r1 + 8)\nexit\n"
ADDRESSES = bytes(12)


class Frames(TimedTest):
    def test_they_are_those_of_one_run_after_the_other(self) -> None:
        packets = [b"", b"a", bytes(range(200)), ADDRESSES + b"\x08\x00" + b"ip"]
        context = Context(1, 2, 3, 0, 5, 6, 7, 8, 9, 10)
        program = self.pretender("read()")
        with Host(program) as host:
            runs = TestRuns(host, 7, 9, context)
            told = runs.frames(Packets.of(packets, RAW_IP))
            self.assertEqual(told, b"".join(frames.prog_test_run(7, 9, packet, context) for packet in packets))

    def test_packets_of_one_length_and_of_several(self) -> None:
        """Of a program that reads no type; also if the packets come as a list of their bytes."""
        with Host(self.pretender("read()")) as host:
            runs, by_number = (TestRuns(host, 7, 9, timed=word, reads_protocol=False) for word in (None, "mark"))
            for packets in ([b"abc"], [b"abc", b"def"], [b"", b""], [b"a", b"bc", b"", b"defg"], [bytes(1500)] * 3):
                several = Packets.of(packets)
                for given in (several, Packets(several.data, several.starts, several.lengths, bodies=packets)):
                    self.assertEqual(runs.frames(given), b"".join(frames.prog_test_run(7, 9, packet) for packet in packets))
                numbers = list(range(len(packets)))
                marked = [frames.prog_test_run(7, 9, packet, Context(mark=mark)) for mark, packet in enumerate(packets)]
                self.assertEqual(by_number.frames(several, numbers), b"".join(marked))

    def test_protocol_is_the_type_of_ethernet(self) -> None:
        # As in the kernel: ETH_P_IP is in network byte order; a length (IEEE 802.3) is ETH_P_802_2; 0 if no header fits.
        wanted = {
            ADDRESSES + b"\x08\x00": 0x0008,
            ADDRESSES + b"\x86\xdd" + bytes(40): 0xDD86,
            ADDRESSES + b"\x06\x00": 0x0006,
            ADDRESSES + b"\x05\xff": 0x0400,
            ADDRESSES + b"\x08": 0,
            b"": 0,
        }
        with Host(self.pretender("read()")) as host:
            runs = TestRuns(host, 0, 3, Context(protocol=0))
            for packet, protocol in wanted.items():
                frame = frames.prog_test_run(0, 3, packet, Context(protocol=protocol))
                self.assertEqual(runs.frames(Packets.of([packet])), frame)

    def test_a_packet_that_is_too_long(self) -> None:
        with Host(self.pretender("read()")) as host:
            runs = TestRuns(host, 0, 3)
            self.assertEqual(len(runs.frames(Packets.of([bytes(65_536)]))), 52 + 65_536)
            for link_type in (ETHERNET, RAW_IP):
                with self.assertRaisesRegex(ValueError, "a packet has 65,537 bytes, and that of a test run has 65,536 at most"):
                    runs.frames(Packets.of([bytes(65_537)], link_type))

    def test_numbers_that_have_no_room(self) -> None:
        with Host(self.pretender("read()")) as host:
            self.assertRaisesRegex(ValueError, "the tenant is 65536, and a frame has room for 0 to 65535", TestRuns, host, 65536, 3)
            self.assertRaisesRegex(ValueError, "the descriptor is -1, and a frame has room for 0 to 4294967295", TestRuns, host, 0, -1)

    def test_replies_to_something_else(self) -> None:
        for reply in ("0c000000 0100 0a00 00000000 05000000", "0c000000 0000 0100 00000000 05000000", "08000000 0000 0a00 00000000"):
            program = self.pretender(f"read(52); os.write(1, bytes.fromhex({reply!r})); read()")
            with self.assertRaises(ReplyError), Host(program) as host:
                list(host.tenant().prog_test_runs(3, [Packets.of([b""])]))


    def test_a_refusal_that_is_as_long_as_a_result(self) -> None:
        program = self.pretender("read(52); os.write(1, bytes.fromhex('0c000000 0000 0a00 eaffffff 05000000')); read()")
        with self.assertRaises(Refused) as refused, Host(program) as host:
            list(host.tenant().prog_test_runs(3, [Packets.of([b""])]))
        self.assertTrue(refused.exception.has(Errno.EINVAL))


class Runs(HostTest):
    def test_results_in_order(self) -> None:
        packets = [bytes(length % 1500) for length in range(20_000)]
        with Host(PROGRAM) as host:
            tenant = host.tenant()
            pieces = list(tenant.prog_test_runs(tenant.prog_load(LENGTH), [Packets.of(packets), Packets.of([b"xy"])]))
        self.assertEqual([result for piece in pieces for result in piece], [len(packet) for packet in packets] + [2])

    def test_the_context(self) -> None:
        packet = Packets.of([ADDRESSES + b"\x08\x06"])
        with Host(PROGRAM) as host:
            tenant = host.tenant()
            protocol, mark = (tenant.prog_load(assemble(PROGRAM, text)) for text in (PROTOCOL, MARK))
            self.assertEqual(list(tenant.prog_test_runs(protocol, [packet])), [(0x0608,)])
            self.assertEqual(list(tenant.prog_test_runs(mark, [packet], Context(mark=77))), [(77,)])

    def test_nothing_is_run(self) -> None:
        with Host(PROGRAM) as host:
            self.assertEqual(list(host.tenant().prog_test_runs(3, [])), [])
            self.assertEqual(list(host.tenant().prog_test_runs(3, [Packets.of([])])), [()])

    def test_refused_runs_leave_the_host_of_use(self) -> None:
        with Host(PROGRAM) as host:
            tenant = host.tenant()
            with self.assertRaises(Refused) as refused:
                list(tenant.prog_test_runs(3, (Packets.of([bytes(100)] * 900) for _ in range(30))))
            self.assertTrue(refused.exception.has(Errno.EBADF))
            self.assertEqual(tenant.prog_test_run(tenant.prog_load(LENGTH), bytes(9)), 9)

    def test_a_packet_that_is_too_long_leaves_the_host_of_use(self) -> None:
        with Host(PROGRAM) as host:
            tenant = host.tenant()
            program = tenant.prog_load(LENGTH)
            pieces = [Packets.of([bytes(100)] * 900), Packets.of([bytes(65_537)])]
            self.assertRaisesRegex(ValueError, "a packet has 65,537 bytes", list, tenant.prog_test_runs(program, pieces))
            self.assertEqual(tenant.prog_test_run(program, bytes(9)), 9)

    def test_whoever_stops_early_gets_the_right_reply_next(self) -> None:
        with Host(PROGRAM) as host:
            tenant = host.tenant()
            program = tenant.prog_load(LENGTH)
            results = tenant.prog_test_runs(program, (Packets.of([bytes(100)] * 900) for _ in range(30)))
            self.assertEqual(next(results), (100,) * 900)
            del results
            self.assertEqual(tenant.prog_test_run(program, bytes(9)), 9)


class PacketsInOnePiece(TimedTest):
    def test_they_are_those_that_were_joined(self) -> None:
        packets = Packets.of([b"ab", b"", b"cde"])
        self.assertEqual((packets.data, packets.starts, packets.lengths), (b"abcde", [0, 2, 2], [2, 0, 3]))
        self.assertEqual((list(packets), packets[2], len(packets)), ([b"ab", b"", b"cde"], b"cde", 3))
        self.assertEqual((list(packets.first(2)), list(packets.first(9)), Packets.of([])), ([b"ab", b""], list(packets), Packets(b"", [], [])))

    def test_split(self) -> None:
        packets = Packets.of([b"ab", b"", b"cde"], RAW_IP)
        self.assertEqual([list(piece) for piece in packets.split(2)], [[b"ab", b""], [b"cde"]])
        self.assertEqual({piece.link_type for piece in packets.split(2)}, {RAW_IP})
        self.assertEqual(list(packets.split(3)), [packets])
