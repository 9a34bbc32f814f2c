"""Captures of both formats, valid and damaged, and the writer."""

from __future__ import annotations

import gzip
import importlib.util
import random
import struct
import subprocess
import sys
import unittest
from pathlib import Path
from typing import Any

from bpfhost import CaptureError, MissingPackage
from bpfhost.captures import Piece, link_type_name, open_capture
from bpfhost.captures.piece import Stamp
from tests.capture_bytes import MICRO, NANO, RAW_IP, RECORDS, Record, block, comment, enhanced, interface, old, pcap, pcapng, section, simple
from tests.common import TimedTest

HAS_DPKT = importlib.util.find_spec("dpkt") is not None
needs_dpkt = unittest.skipUnless(HAS_DPKT, "python3-dpkt is missing")

class CaptureTest(TimedTest):
    def written(self, content: bytes) -> Path:
        """A file with these bytes."""
        path = self.scratch / "capture"
        # A new file is faster to create than an old one is to overwrite.
        path.unlink(missing_ok=True)
        path.write_bytes(content)
        return path

    def read(self, content: bytes, most: int = 1024) -> list[Record]:
        """The packets of a capture with their timestamps."""
        with open_capture(self.written(content)) as capture:
            return [(piece[at], piece.stamp(at)) for piece in capture.pieces(most) for at in range(len(piece))]

    def read_to_fault(self, content: bytes) -> tuple[list[bytes], str]:
        """The packets before a fault, and the fault."""
        packets: list[bytes] = []
        try:
            with open_capture(self.written(content)) as capture:
                for piece in capture.pieces():
                    packets += piece
        except CaptureError as error:
            return packets, str(error).removeprefix(f"{self.scratch}/")
        return packets, ""


class Pcap(CaptureTest):
    def test_both_orders_and_both_precisions(self) -> None:
        for order in "<>":
            for magic in (MICRO, NANO):
                self.assertEqual(self.read(pcap(RECORDS, order, magic)), RECORDS)

    def test_nanoseconds_are_kept(self) -> None:
        records = [(b"x", Stamp(5, 123_456_789, 1))]
        self.assertEqual(self.read(pcap(records, ">", NANO)), records)

    def test_the_header_of_modified_pcap(self) -> None:
        # Eight bytes more before each packet: interface, protocol, type, padding.
        head = struct.pack("<IHHiIII", 0xA1B2CD34, 2, 4, 0, 0, 65_536, 1)
        record = struct.pack("<IIII", 7, 8, 2, 3) + bytes(8) + b"ab"
        self.assertEqual(self.read(head + record * 2), [(b"ab", Stamp(7, 8000, 3))] * 2)

    def test_pieces(self) -> None:
        records = [(bytes([number]) * number, Stamp(number, 0, number)) for number in range(200)]
        for most in (1, 3, 199, 200, 201):
            self.assertEqual(self.read(pcap(records), most), records)

    def test_the_first_bytes_of_packets(self) -> None:
        """Read along with the headers or afterwards, in all forms of headers; many packets are shorter, and the last ones are at the end."""
        draw = random.Random(2)
        records = [(draw.randbytes(draw.choice((0, 13, 14, 60, 300, 1500))), Stamp(at, 0, 1500 + at % 2)) for at in range(3000)]
        longer = [struct.pack("<IIII", at, 0, len(packet), 1500) + bytes(8) + packet for at, (packet, _) in enumerate(records)]
        modified = struct.pack("<IHHiIII", 0xA1B2CD34, 2, 4, 0, 0, 65_536, 1) + b"".join(longer)
        for content in (pcap(records), pcap(records, ">", NANO), pcapng(records), modified):
            for reach in (0, 14, 60, 256, 257, 2000):
                with open_capture(self.written(content)) as capture:
                    capture.reach = reach
                    found = [body for piece in capture.pieces() for body in piece.beginnings(reach).split_bodies()]
                self.assertEqual(found, [packet[:reach] for packet, _ in records])

    def test_the_first_bytes_of_some_packets(self) -> None:
        records = [(bytes([at]) * at, Stamp(at, 0, at)) for at in range(200)]
        with open_capture(self.written(pcap(records))) as capture:
            capture.reach = 50
            pieces = [few for piece in capture.pieces() for few in piece.within(40).split(7)]
        found = [body for piece in pieces for body in piece.first(5).beginnings(50).split_bodies()]
        self.assertEqual(found, [packet[:40] for at, (packet, _) in enumerate(records) if at % 7 < 5 or at > 195])

    def test_packets_over_the_ends_of_what_is_read_at_once(self) -> None:
        draw = random.Random(1)
        records = [(draw.randbytes(draw.choice((0, 60, 1500, 65_536))), Stamp(number, 0, 70_000)) for number in range(100)]
        self.assertEqual(self.read(pcap(records)), records)
        self.assertEqual(self.read(pcapng(records)), records)

    def test_link_type_stands_in_the_low_half(self) -> None:
        with open_capture(self.written(pcap(link_type=0x1000_0000 | RAW_IP))) as capture:
            self.assertEqual({piece.link_type for piece in capture.pieces()}, {RAW_IP})

    def test_no_packets(self) -> None:
        self.assertEqual(self.read(pcap([])), [])

    def test_it_is_cut_off(self) -> None:
        whole = pcap()
        self.assertEqual(self.read_to_fault(whole[:3]), ([], "capture: it is neither a pcap nor a pcapng file"))
        for end in range(4, 24):
            self.assertEqual(self.read_to_fault(whole[:end]), ([], "capture: it is cut off in its header"))
        ends = {24: 0, 45: 1, 61: 2, len(whole): 3}
        for end in range(24, len(whole)):
            packets = max(number for at, number in ends.items() if at <= end)
            fault = "" if end in ends else f"capture: it is cut off in packet {packets + 1}"
            self.assertEqual(self.read_to_fault(whole[:end]), ([packet for packet, _ in RECORDS][:packets], fault))

    def test_a_packet_that_is_too_long(self) -> None:
        for length in (262_145, 0xFFFF_FFFF):
            content = pcap() + struct.pack("<IIII", 0, 0, length, length) + bytes(100_000)
            packets, fault = self.read_to_fault(content)
            self.assertEqual(len(packets), 3)
            self.assertEqual(fault, f"capture: packet 4 has {length:,} bytes, and no capture has one of more than 262,144")

    def test_another_version(self) -> None:
        content = struct.pack("<IHHiIII", MICRO, 3, 0, 0, 0, 65_536, 1)
        self.assertEqual(self.read_to_fault(content), ([], "capture: it has version 3 of pcap, and only 2 is supported"))


class Pcapng(CaptureTest):
    def test_both_orders(self) -> None:
        for order in "<>":
            self.assertEqual(self.read(pcapng(order=order)), RECORDS)

    def test_sections_of_different_orders(self) -> None:
        self.assertEqual(self.read(pcapng(order="<") + pcapng(order=">")), RECORDS * 2)

    def test_all_kinds_of_packets(self) -> None:
        unknown = block(5, bytes(8), "<") + block(0x0BAD, b"", "<")
        # The body of an enhanced packet block, in a block of another kind.
        unknown += block(0x0BAD, enhanced("<", b"none", 0, 4)[8:-4], "<")
        content = section("<") + interface("<", longest=6) + unknown + simple("<", b"simple..", 9) + old("<", b"old", 5_000_000, 4) + unknown
        packets = [(b"simple", Stamp(0, 0, 9)), (b"old", Stamp(5, 0, 4))]
        self.assertEqual(self.read(content), packets)
        self.assertEqual(self.read(content + enhanced("<", b"more", 0, 4) * 3 + unknown), packets + [(b"more", Stamp(0, 0, 4))] * 3)

    def test_resolutions_and_offsets(self) -> None:
        # if_tsresol (9) of 10^-9 and of 2^-10; if_tsoffset (14) of 100 seconds.
        nano = struct.pack("<HHB3xHH", 9, 1, 9, 0, 0)
        binary = struct.pack("<HHB3xHHqHH", 9, 1, 0x8A, 14, 8, 100, 0, 0)
        content = section("<") + interface("<", options=nano) + interface("<", options=binary)
        content += enhanced("<", b"a", 5_000_000_007, 1) + enhanced("<", b"b", 3 * 1024 + 512, 1, of=1)
        self.assertEqual(self.read(content), [(b"a", Stamp(5, 7, 1)), (b"b", Stamp(103, 500_000_000, 1))])

    def test_options_end(self) -> None:
        """A comment that is not UTF-8, an unknown code, and invalid options after the end."""
        options = struct.pack("<HH4sHHB3xHHHH", 1, 3, b"\xff\xfe\xfd", 9, 1, 9, 0xBEEF, 0, 0, 0) + b"\xff" * 8
        content = section("<") + interface("<", options=options) + enhanced("<", b"a", 5_000_000_007, 1)
        self.assertEqual(self.read(content), [(b"a", Stamp(5, 7, 1))])

    def test_time_is_in_proportion_to_the_bytes(self) -> None:
        """Very many interfaces, and very many options of one: each is read once."""
        last = enhanced("<", b"a", 5_000_000, 1, of=99_999)
        self.assertEqual(self.read(section("<") + interface("<") * 100_000 + last), [(b"a", Stamp(5, 0, 1))])
        options = struct.pack("<HH", 2, 0) * 1_000_000
        self.assertEqual(self.read(section("<") + interface("<", options=options) + last[:8] + bytes(4) + last[12:]), [(b"a", Stamp(5, 0, 1))])

    def test_link_types_of_interfaces(self) -> None:
        content = section("<") + interface("<") + interface("<", RAW_IP)
        content += b"".join(enhanced("<", bytes([at]), 0, 1, of) for at, of in enumerate((0, 0, 1, 0)))
        with open_capture(self.written(content)) as capture:
            pieces = [(piece.link_type, list(piece)) for piece in capture.pieces()]
        self.assertEqual(pieces, [(1, [b"\0", b"\1"]), (RAW_IP, [b"\2"]), (1, [b"\3"])])

    def test_it_is_cut_off(self) -> None:
        whole = pcapng()
        ends = {0, 28, 48}
        at = 48
        for packet, _ in RECORDS:
            at += 32 + (len(packet) + 3) // 4 * 4
            ends.add(at)
        for end in range(4, len(whole)):
            packets, fault = self.read_to_fault(whole[:end])
            self.assertEqual(packets, [packet for packet, _ in RECORDS][: len(packets)])
            wanted = "" if end in ends else f"capture: it is cut off in the block of packet {len(packets) + 1}, or before it"
            self.assertEqual(fault, wanted)

    def test_blocks_that_are_wrong(self) -> None:
        begun = section("<") + interface("<")
        packet = enhanced("<", b"abcd", 0, 4)
        wrong = {
            begun + packet[:-4] + b"\0\0\0\0": "it has a block with two lengths before packet 1",
            begun + struct.pack("<II", 6, 8) + bytes(8): "it has a block of 8 bytes before packet 1",
            begun + struct.pack("<II", 6, 0x7FFFFFF0) + bytes(8): "it has a block of 2,147,483,632 bytes before packet 1",
            begun + enhanced("<", b"abcd", 0, 4, kept=5): "the block of packet 1 does not match its lengths",
            begun + enhanced("<", bytes(262_145), 0, 262_145): "packet 1 has 262,145 bytes, and no capture has one of more than 262,144",
            begun + struct.pack("<7I", 6, 37, 0, 0, 0, 4, 4) + b"abcde" + struct.pack("<I", 37): "it has a block of 37 bytes before packet 1",
            begun + enhanced("<", b"abcd", 0, 4, kept=65_537): "the block of packet 1 does not match its lengths",
            begun + enhanced("<", b"abcd", 0, 4, of=1): "the block of packet 1 does not match its lengths",
            section("<") + packet: "the block of packet 1 does not match its lengths",
            section("<") + block(3, struct.pack("<I", 4) + b"abcd", "<"): "the block of packet 1 does not match its lengths",
            begun + block(6, bytes(8), "<"): "the block of packet 1 does not match its lengths",
            section("<")[:8] + bytes(20): "it has a section without a byte order",
            begun + packet + begun[:8] + bytes(20): "it has a section without a byte order",
            section("<") + block(1, b"", "<"): "it has an invalid block of an interface",
            section("<") + interface("<", options=b"\x01\x00\x05\x00text"): "it has an invalid block of an interface",
            section("<") + interface("<", options=struct.pack("<HH", 9, 0)): "it has an invalid block of an interface",
        }
        for content, fault in wrong.items():
            # A wrong block is read by other code if it is the last one.
            for rest in (b"", packet, packet * 5):
                self.assertEqual(self.read_to_fault(content + rest), ([b"abcd"] * content.startswith(begun + packet), f"capture: {fault}"))


class Wrong(CaptureTest):
    def test_files_that_are_none(self) -> None:
        for content in (b"", b"\x7fELF" + bytes(100), bytes(100)):
            self.assertEqual(self.read_to_fault(content), ([], "capture: it is neither a pcap nor a pcapng file"))

    def test_files_that_can_not_be_read(self) -> None:
        for path, fault in ((self.scratch / "nothing", "No such file or directory"), (self.scratch, "Is a directory")):
            with self.assertRaisesRegex(CaptureError, fault), open_capture(path):
                pass

    def test_names_of_link_types(self) -> None:
        self.assertEqual((link_type_name(113), link_type_name(9999)), ("113 (LINUX_SLL)", "9999"))


class ShortAndLong(CaptureTest):
    """Packets of which the capture has fewer bytes than there were on the wire, and packets that no test run takes."""

    RECORDS = [(b"abcdefghijklmnop", Stamp(1, 0, 16)), (b"abc", Stamp(2, 0, 70_000)), (bytes(65_549), Stamp(3, 0, 65_549)), (b"x", Stamp(4, 0, 2))]

    def pieces(self, content: bytes) -> list[Piece]:
        with open_capture(self.written(content)) as capture:
            return list(capture.pieces())

    def test_lengths(self) -> None:
        for order in "<>":
            for content in (pcap(self.RECORDS, order), pcapng(self.RECORDS, order)):
                pieces = self.pieces(content)
                self.assertEqual([wire for piece in pieces for wire in piece.wires], [16, 70_000, 65_549, 2])
                self.assertEqual([length for piece in pieces for length in piece.lengths], [16, 3, 65_536, 1])
                self.assertEqual([piece.whole for piece in pieces if piece.whole], [65_549])
                self.assertEqual(sum(piece.shorts() for piece in pieces), 2)

    def test_padded(self) -> None:
        for content in (pcap(self.RECORDS), pcapng(self.RECORDS)):
            padded = [packet for piece in self.pieces(content) for packet in piece.padded()]
            self.assertEqual(padded, [b"abcdefghijklmnop", b"abc".ljust(65_536, b"\0"), bytes(65_536), b"x\0"])

    def test_a_long_packet_is_written_whole(self) -> None:
        piece = next(piece for piece in self.pieces(pcap(self.RECORDS)) if piece.whole)
        self.assertEqual((len(piece.captured(0, 0xFFFF_FFFF)), len(piece.captured(0, 65_540)), len(piece.captured(0, 3))), (65_549, 65_540, 3))

    def test_a_simple_block_of_pcapng(self) -> None:
        content = section("<") + interface("<", longest=3) + simple("<", b"abc", 9)
        self.assertEqual([(piece.lengths, piece.wires) for piece in self.pieces(content)], [([3], [9])])


class Compressed(CaptureTest):
    def test_both_formats(self) -> None:
        for content in (pcap(RECORDS), pcapng(RECORDS), pcap(RECORDS * 5000)):
            (self.scratch / "whole").write_bytes(content)
            (self.scratch / "capture.gz").write_bytes(gzip.compress(content, 1))
            told = []
            for name in ("whole", "capture.gz"):
                with open_capture(self.scratch / name) as capture:
                    told.append([(piece[at], piece.stamp(at)) for piece in capture.pieces() for at in range(len(piece))])
            self.assertEqual(told[0], told[1])

    def test_compressed_bytes_that_are_wrong(self) -> None:
        whole = gzip.compress(pcap(RECORDS * 20_000))
        wrong = bytearray(whole)
        wrong[len(wrong) // 2 : len(wrong) // 2 + 40] = bytes(40)
        for content, told in ((whole[: len(whole) // 2], "cut off"), (bytes(wrong), "capture"), (whole[:-8], "cut off after packet 60,000")):
            with open_capture(self.written(content)) as capture, self.assertRaisesRegex(CaptureError, told):
                self.assertGreater(sum(len(piece) for piece in capture.pieces()), -1)
        with self.assertRaisesRegex(CaptureError, "compressed bytes"), open_capture(self.written(whole[:12])):
            pass


class Writer(CaptureTest):
    def copied(self, content: bytes, longest: int = 100_000, has_nanoseconds: bool | None = None, name: str = "written") -> bytes:
        """A capture that the packets of another one are written to."""
        from bpfhost.captures.writer import CaptureWriter

        path = self.scratch / name
        with open_capture(self.written(content)) as capture:
            has_more = capture.has_nanoseconds if has_nanoseconds is None else has_nanoseconds
            with CaptureWriter(path, has_more, comments=capture.comments) as writer:
                for piece in capture.pieces():
                    for at in range(len(piece)):
                        writer.write(piece, at, longest)
        return path.read_bytes()

    def test_it_is_the_same_capture(self) -> None:
        for order in "<>":
            for magic in (MICRO, NANO):
                self.assertEqual(self.copied(pcap(RECORDS, order, magic, RAW_IP)), pcap(RECORDS, "<", magic, RAW_IP))

    def test_pcapng_becomes_pcap_with_nanoseconds(self) -> None:
        self.assertEqual(self.copied(pcapng()), pcap(magic=NANO))

    def test_packets_are_cut(self) -> None:
        self.assertEqual(self.copied(pcap(), longest=3), pcap([(packet[:3], stamp) for packet, stamp in RECORDS]))

    def test_no_packets(self) -> None:
        self.assertEqual(self.copied(pcap([])), pcap([]))

    def test_link_types_that_are_not_in_one_file(self) -> None:
        content = section("<") + interface("<") + interface("<", RAW_IP)
        content += enhanced("<", b"a", 0, 1) + enhanced("<", b"b", 0, 1, of=1)
        told = "written: a pcap file has only one link type, so 1 packet is left out, 1 of link type 101: name a file .*pcapng"
        self.assertRaisesRegex(CaptureError, told, self.copied, content)
        self.assertEqual((self.scratch / "written").read_bytes(), pcap([(b"a", Stamp(0, 0, 1))], magic=NANO))

    def test_link_types_in_a_pcapng_file(self) -> None:
        """It is read again."""
        for has_nanoseconds in (False, True):
            content = section(">") + interface(">") + interface(">", RAW_IP)
            content += enhanced(">", b"abcde", 1_234_567, 9) + enhanced(">", b"b", 1 << 50, 1, of=1) + enhanced(">", b"", 5, 0)
            written = self.scratch / "again.pcapng"
            written.write_bytes(self.copied(content, has_nanoseconds=has_nanoseconds, name="written.pcapng"))
            self.assertEqual(self.packets_of(written), self.packets_of(self.written(content)))

    @needs_dpkt
    def test_comments_are_kept_in_a_pcapng_file(self) -> None:
        """Those on sections, interfaces and packets, in both byte orders, also if a packet is cut; dpkt reads them."""
        for order in "<>":
            comments = [comment(order, text) for text in (b"section", b"interface", b"packet", "für zwei".encode(), b"old")]
            content = section(order, comments[0]) + interface(order, 1, comments[1]) + enhanced(order, b"abcde", 7, 9, options=comments[2] + comments[3])
            content += enhanced(order, b"none", 8, 9, options=bytes(4)) + enhanced(order, b"", 9, 9) + old(order, b"abc", 5, 3, comments[4])
            for longest in (100, 2):
                written = self.copied(content, longest, name="written.pcapng")
                told = [[option.data for option in block.opts if option.code == 1] for block in self.blocks(written)]
                self.assertEqual(told, [[b"section"], [b"interface"], [b"packet", "für zwei".encode()], [], [], [b"old"]])
                self.assertEqual(self.read(written), [(packet[:longest], stamp) for packet, stamp in self.read(content)])

    def blocks(self, content: bytes) -> list[Any]:
        """The blocks of a little-endian pcapng file, as dpkt reads them."""
        from dpkt import pcapng as theirs

        kinds = {0x0A0D0D0A: theirs.SectionHeaderBlockLE, 1: theirs.InterfaceDescriptionBlockLE, 6: theirs.EnhancedPacketBlockLE}
        found, at = [], 0
        while at < len(content):
            kind, length = struct.unpack_from("<II", content, at)
            found.append(kinds[kind](content[at : at + length]))
            at += length
        return found

    def packets_of(self, path: Path) -> list[tuple[bytes, int, Stamp]]:
        with open_capture(path) as capture:
            return [(piece[at], piece.link_type, piece.stamp(at)) for piece in capture.pieces() for at in range(len(piece))]

    def test_times_that_are_not_in_the_file(self) -> None:
        with self.assertRaisesRegex(CaptureError, "no room for the time of 1 packet, left out"):
            self.copied(section("<") + interface("<") + enhanced("<", b"a", 1 << 60, 1))

    def test_files_that_can_not_be_written(self) -> None:
        from bpfhost.captures.writer import CaptureWriter

        self.assertRaisesRegex(CaptureError, "Is a directory", CaptureWriter, self.scratch, False)
        if Path("/dev/full").exists():
            with self.assertRaisesRegex(CaptureError, "/dev/full: No space left on device"), CaptureWriter("/dev/full", False):
                pass
