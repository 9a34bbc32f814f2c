"""Filters that run on whole captures."""

from __future__ import annotations

import time
from unittest import mock

from bpfhost import Host, MapType, Packets, TestRuns, assemble, frames
from bpfhost.captures import open_capture
from bpfhost.captures.piece import Stamp
from bpfhost.captures.writer import CaptureWriter
from bpfhost.filtering import Filter, Outcome, TenantsDiffer, accept_none, accept_to
from tests.capture_bytes import RAW_IP, pcap, pcapng
from tests.common import LENGTH, PROGRAM, HostTest, TimedTest

# Keeps packets of at least 3 bytes, and of these 4 bytes at most.
FOUR_BYTES = "r0 = *(u32 *)(r1 + 0)\nif r0 > 2 goto +2\nr0 = 0\nexit\nif r0 < 4 goto +1\nr0 = 4\nexit\n"
# Counts its runs in the one value of the map of descriptor 3, and returns the count.
COUNT = "r1 = map_value 3 + 0 ll\nr0 = *(u64 *)(r1 + 0)\nr0 += 1\n*(u64 *)(r1 + 0) = r0\nexit\n"
RECORDS = [(bytes(length), Stamp(length, 1000 * length, length + 1)) for length in (0, 2, 3, 4, 5, 70)] * 300


class FramesOfCaptures(TimedTest):
    """Captures have the types of packets, and the frames are the same as for packets without them."""

    def test_types_in_both_formats_and_byte_orders(self) -> None:
        heads = [bytes.fromhex(word) for word in ("0800", "86dd", "0806", "8100", "05ff", "0600", "0000", "ffff")]
        packets = [bytes(12) + head + bytes(60) for head in heads] * 3
        short = [bytes(range(100, 100 + length)) for length in (0, 1, 12, 13, 14, 15, 60)]
        with Host(self.pretender("read()")) as host:
            runs = TestRuns(host, 2, 3)
            for listed in (packets, short, packets + short):
                records = [(packet, Stamp(0, 0, 100)) for packet in listed]
                for content in (pcap(records), pcap(records, ">"), pcapng(records), pcapng(records, ">")):
                    (self.scratch / "capture").write_bytes(content)
                    with open_capture(self.scratch / "capture") as capture:
                        told = b"".join(map(runs.frames, capture.pieces()))
                    self.assertEqual(told, runs.frames(Packets.of(listed)))

    def test_other_link_types_have_no_type(self) -> None:
        listed = [bytes(12) + b"\x08\x00" + bytes(60)] * 3
        (self.scratch / "capture").write_bytes(pcap([(packet, Stamp(0, 0, 100)) for packet in listed], link_type=RAW_IP))
        with Host(self.pretender("read()")) as host, open_capture(self.scratch / "capture") as capture:
            runs = TestRuns(host, 0, 3)
            told = b"".join(map(runs.frames, capture.pieces()))
        self.assertEqual(told, b"".join(frames.prog_test_run(0, 3, packet) for packet in listed))


class Filtering(HostTest):
    def run_on(self, content: bytes, slots: bytes, tenants: int = 1, limit: int | None = None, written: str = "") -> Outcome:
        """What a program returns for the packets of a capture."""
        path = self.scratch / "capture"
        path.write_bytes(content)
        with open_capture(path) as capture, Host(PROGRAM, tenants) as host:
            runs = []
            for number in range(tenants):
                tenant = host.tenant(number)
                tenant.map_create(MapType.ARRAY, 4, 8, 1)
                runs.append(TestRuns(host, number, tenant.prog_load(slots)))
            if not written:
                return Filter(runs).run(capture, limit)
            with CaptureWriter(self.scratch / written, capture.has_nanoseconds) as writer:
                return Filter(runs).run(capture, limit, accept_to(writer))

    def test_counts(self) -> None:
        for content in (pcap(RECORDS), pcapng(RECORDS)):
            outcome = self.run_on(content, assemble(PROGRAM, FOUR_BYTES))
            self.assertEqual((outcome.packets, outcome.accepted, outcome.bytes_kept), (1800, 1200, 300 * (3 + 4 + 4 + 4)))
            self.assertEqual(outcome.results, {0: 600, 3: 300, 4: 900})
            self.assertEqual((outcome.link_types, outcome.fault), ([1], None))
            self.assertGreater(outcome.seconds, 0)

    def test_the_time_is_that_of_the_host(self) -> None:
        """Not of the client, which waits for packets."""
        with mock.patch.object(Host, "processor_time", side_effect=[2.0, *(2.5 for _ in range(100))]):
            self.assertEqual(self.run_on(pcap(RECORDS), LENGTH).seconds, 0.5)
        with Host(PROGRAM) as host:
            runs, packets = TestRuns(host, 0, host.tenant().prog_load(LENGTH)), Packets.of([bytes(60)] * 1000)
            before = host.processor_time()
            list(runs.results([packets] * 20))
            after = host.processor_time()
            time.sleep(0.3)
            self.assertGreater(after, before)
            self.assertLess(host.processor_time() - after, 0.1)

    def test_more_is_kept_than_there_is(self) -> None:
        outcome = self.run_on(pcap(RECORDS), assemble(PROGRAM, "r0 = -1\nexit\n"))
        self.assertEqual((outcome.bytes_kept, outcome.results), (300 * 84, {0xFFFF_FFFF: 1800}))

    def test_limits(self) -> None:
        for limit in (0, 1, 5, 1799, 1800, 1801):
            outcome = self.run_on(pcap(RECORDS), LENGTH, limit=limit)
            self.assertEqual(outcome.packets, min(limit, 1800))
            self.assertEqual(outcome.bytes_kept, sum(len(packet) for packet, _ in RECORDS[:limit]))

    def test_each_packet_is_run_once_and_in_order(self) -> None:
        outcome = self.run_on(pcap(RECORDS), assemble(PROGRAM, COUNT))
        self.assertEqual(outcome.results, dict.fromkeys(range(1, 1801), 1))

    def test_tenants_are_told_the_same(self) -> None:
        alone = self.run_on(pcap(RECORDS), assemble(PROGRAM, COUNT))
        together = self.run_on(pcap(RECORDS), assemble(PROGRAM, COUNT), tenants=5)
        self.assertEqual((together.packets, together.results), (alone.packets, alone.results))

    def test_tenants_that_are_told_other_things(self) -> None:
        path = self.scratch / "capture"
        path.write_bytes(pcap(RECORDS))
        with open_capture(path) as capture, Host(PROGRAM, 2) as host:
            runs = [TestRuns(host, at, host.tenant(at).prog_load(assemble(PROGRAM, f"r0 = {at}\nexit\n"))) for at in range(2)]
            with self.assertRaisesRegex(TenantsDiffer, "tenant 1 gets another reply than tenant 0"):
                Filter(runs).run(capture)
            self.assertEqual(host.tenant().prog_load(LENGTH), 4)

    def test_packets_that_are_kept(self) -> None:
        kept = [(packet[:4], stamp) for packet, stamp in RECORDS if len(packet) > 2]
        for content, magic in ((pcap(RECORDS, ">", link_type=RAW_IP), 0xA1B2C3D4),):
            self.run_on(content, assemble(PROGRAM, FOUR_BYTES), written="kept")
            self.assertEqual((self.scratch / "kept").read_bytes(), pcap(kept, "<", magic, RAW_IP))

    def test_what_is_before_a_fault_is_counted_and_kept(self) -> None:
        outcome = self.run_on(pcap(RECORDS)[:-1], LENGTH, written="kept")
        self.assertEqual((outcome.packets, outcome.accepted), (1799, 1499))
        self.assertRegex(str(outcome.fault), "capture: it is cut off in packet 1,800")
        kept = [record for record in RECORDS[:-1] if record[0]]
        self.assertEqual((self.scratch / "kept").read_bytes(), pcap(kept))

    def test_a_fault_is_that_of_its_capture_alone(self) -> None:
        (self.scratch / "cut").write_bytes(pcap(RECORDS)[:-1])
        (self.scratch / "whole").write_bytes(pcap(RECORDS))
        with Host(PROGRAM) as host:
            one = Filter([TestRuns(host, 0, host.tenant().prog_load(LENGTH))])
            for name, fault in (("cut", "it is cut off in packet 1,800"), ("whole", "None")):
                with open_capture(self.scratch / name) as capture:
                    self.assertRegex(str(one.run(capture).fault), fault)

    def test_a_fault_behind_the_limit_is_not_met(self) -> None:
        self.assertIsNone(self.run_on(pcap(RECORDS[:6])[:-1], LENGTH, limit=5).fault)

    def test_link_types_are_told(self) -> None:
        self.assertEqual(self.run_on(pcap(RECORDS, link_type=RAW_IP), LENGTH).link_types, [RAW_IP])

    def test_accept_none_does_nothing(self) -> None:
        path = self.scratch / "capture"
        path.write_bytes(pcap(RECORDS))
        with open_capture(path) as capture:
            for piece in capture.pieces():
                accept_none(piece, ())
