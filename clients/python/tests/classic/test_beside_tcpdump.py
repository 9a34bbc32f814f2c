"""Files of `run --filter EXPRESSION CAPTURE --accepted FILE` compared with those of `tcpdump -r CAPTURE -w FILE EXPRESSION`, byte by byte."""

from __future__ import annotations

import os
import shutil
import struct
import subprocess
import unittest

from bpfhost.captures.piece import Stamp
from tests.capture_bytes import MICRO, NANO, enhanced, interface, old, pcap, pcapng, section, simple
from tests.classic.common import MANY, needs_libpcap
from tests.classic.test_command import CUT, captured
from tests.classic.traffic import HEADS, of_link
from tests.test_command import CommandTest, needs_packages

TCPDUMP = shutil.which("tcpdump")
NULL, LOOP, RAW_IP, USER0 = 0, 108, 101, 147
# PFLOG, USB_LINUX, USB_LINUX_MMAPPED and NFLOG: in a file of the other byte order, libpcap changes the byte order of their headers.
SWAPPED = (117, 189, 220, 239)
# Types, nine of Juniper's among them, for which libpcap compiles this expression to a load before the packet, which is not translated.
LOADED_BEFORE, UNTRANSLATED = (132, 136, 165, 183, 194, 200, 232, 233, 234, 238), "ip[ip[0]] > 3"
ON_EACH_LINK = """ip|ip6|arp|tcp|udp|icmp|icmp6|tcp port 443|udp port 53|port 53|tcp dst port 80|portrange 1-1023|host 192.0.2.1|src host 192.0.2.1
net 198.51.100.0/24|host 2001:db8::35|not ip|ip6 and udp|len > 60|greater 100|less 60|len & 1 = 0 and not ip6|link[0] & 1 = 0
link[1] & 1 = 0 or link[2:2] > 5|link[len - 4:4] != 0|ip[2:2] > 100|ip[ip[0]] > 3|ip6[6] = 17|tcp[tcpflags] & tcp-syn != 0|proto 17
tcp[((tcp[12] & 0xf0) >> 2):4] = 0x47455420|ip[40:2] > 3|ip multicast|ip6 multicast|vlan|vlan and ip|inbound|outbound and udp|less 0
host 192.0.2.1 and (port 53 or port 443)""".replace("\n", "|").split("|")


@unittest.skipUnless(TCPDUMP, "tcpdump is missing")
@needs_libpcap
@needs_packages
class BesideTcpdump(CommandTest):
    EXPRESSIONS = ("tcp port 443", "greater 100", "len & 1 = 0 and not ip6", "ether[len - 20:4] != 0", "ip[ip[0]] > 3", "arp or vlan", "less 0")

    def same(
        self, capture: bytes, *words: str, expressions: tuple[str, ...] | list[str] = EXPRESSIONS, both: tuple[str, ...] = ()
    ) -> None:
        """Both write the same file for each expression, or both refuse it in the same words; `words` are for tcpdump, and `both` for both."""
        (self.scratch / "capture").write_bytes(capture)
        as_root = ("-Z", "root") if os.geteuid() == 0 else ()
        for expression in expressions:
            ended = self.command("run", "--filter", expression, "capture", "--accepted", "ours", *both)
            call = ["tcpdump", *as_root, *words, *both, "-r", "capture", "-w", "theirs", expression]
            theirs = subprocess.run(call, cwd=self.scratch, capture_output=True, text=True, check=False)
            about = f"{expression}, on {capture[:24].hex()}"
            if theirs.returncode:
                refusal = theirs.stderr.splitlines()[-1].removeprefix("tcpdump: ")
                self.assertIn(refusal, ended.stderr.decode(), about)
                self.assertEqual(ended.returncode, 1, about)
            else:
                self.assertEqual((ended.returncode, ended.stderr), (0, b""), about)
                self.assertEqual((self.scratch / "ours").read_bytes(), (self.scratch / "theirs").read_bytes(), about)

    def test_the_example(self) -> None:
        self.example("sample.pcap")
        self.same((self.scratch / "sample.pcap").read_bytes())
        self.same(captured())

    def test_the_first_packets_that_are_kept(self) -> None:
        for many in ("1", "7", "1000000"):
            self.same(captured(), both=("-c", many))
        self.same(captured()[:-1], both=("-c", "7"), expressions=["ip"])

    def test_expressions_of_files(self) -> None:
        """Of a file, tcpdump takes the expression in place of that of its arguments."""
        (self.scratch / "file").write_text("# comment\nudp port # a port\n53 or icmp")
        (self.scratch / "capture").write_bytes(captured())
        self.assertEqual(self.command("run", "-F", "file", "capture", "--accepted", "ours").returncode, 0)
        as_root = ("-Z", "root") if os.geteuid() == 0 else ()
        subprocess.run(["tcpdump", *as_root, "-F", "file", "-r", "capture", "-w", "theirs"], cwd=self.scratch, capture_output=True, check=True)
        self.assertEqual((self.scratch / "ours").read_bytes(), (self.scratch / "theirs").read_bytes())

    def test_forms_of_captures(self) -> None:
        self.same(captured(">"))
        self.same(captured("<", NANO), "--nano")
        self.same(captured(">", NANO), "--nano")
        self.same(captured(longest=0))
        self.same(captured(longest=2**31))
        self.same(pcapng(CUT), "--nano")
        self.same(pcapng(CUT, ">"), "--nano")

    def test_packets_that_are_longer_than_the_header_says(self) -> None:
        expressions = ["ip", "ip[40:2] > 3", "len > 200", "ether[59] >= 0", "ether[60] >= 0", "ether[len - 20:4] != 0"]
        self.same(captured(longest=60), expressions=expressions)
        long = pcap([(bytes(range(256)) * 280, Stamp(7, 0, 80_000)), (bytes(300), Stamp(8, 0, 300))])
        self.same(with_longest(long, 100), expressions=["len > 300", "ether[99] = 99", "ether[100] = 100"])

    def test_bits_above_the_link_type(self) -> None:
        """The length of a frame check sequence, as some captures have it."""
        for order in "<>":
            capture = bytearray(captured(order))
            struct.pack_into(f"{order}I", capture, 20, 1 | 0x14000000)
            self.same(bytes(capture), expressions=["ip", "less 0"])

    def test_forms_of_pcapng(self) -> None:
        """Timestamps of other resolutions and from another offset, interfaces, and the three kinds of packets."""
        packets = [packet for packet, _ in CUT[:40]]
        for order in "<>":
            for code, per_second in ((9, 10**9), (3, 1000), (6, 10**6), (0x8A, 2**10), (0x94, 2**20), (0, 1)):
                resolution = struct.pack(f"{order}HHB3x", 9, 1, code)
                offset = struct.pack(f"{order}HHq", 14, 8, 1_000_000_000)
                described = interface(order, 1, resolution + offset + bytes(4))
                ticks = [7_000 * at * per_second + at * (per_second // 40) + at % 7 for at in range(len(packets))]
                blocks = [enhanced(order, packet, tick, len(packet)) for packet, tick in zip(packets, ticks)]
                self.same(section(order) + described + b"".join(blocks), "--nano", expressions=["ip", "udp"])
            kinds = [simple(order, packet.ljust(len(packet) + -len(packet) % 4, b"\0"), len(packet)) + old(order, packet, at, 100) for at, packet in enumerate(packets)]
            self.same(section(order) + interface(order, longest=96) + b"".join(kinds), "--nano", expressions=["ip", "len > 90"])

    def test_link_types_with_another_number_in_memory(self) -> None:
        """Also if nothing is kept, and so no packet shows the link type."""
        packets = [(packet, Stamp(at, 0, len(packet))) for at, packet in enumerate(of_link(RAW_IP))]
        for link_type in (11, 12, 14, RAW_IP, 100, 106, 9, 50, USER0):
            self.same(pcap(packets, link_type=link_type), expressions=["udp", "greater 100000", "link[0] = 0x45"])

    def test_each_link_type(self) -> None:
        """Those that the tests have packets of, in both byte orders; `BPFHOST_CLASSIC_TIMES=2` also tries all others that libpcap knows."""
        self.assertEqual(len(ON_EACH_LINK), 40)
        self.assertLessEqual({NULL, LOOP}, HEADS.keys())
        for link_type in HEADS if MANY == 1 else range(300):
            packets = [(packet, Stamp(1_700_000_000 + at, 1000 * at, len(packet) + at % 3)) for at, packet in enumerate(of_link(link_type))]
            expressions = [each for each in ON_EACH_LINK if link_type not in LOADED_BEFORE or each != UNTRANSLATED]
            for order in "<" if link_type in SWAPPED else "<>":
                self.begin_limit()
                self.same(with_longest(pcap(packets, order, MICRO, link_type), 262_144 if order == "<" else 80), expressions=expressions)


def with_longest(capture: bytes, longest: int) -> bytes:
    """The same capture with another snapshot length in its header."""
    order = "<" if capture[0] in (0xD4, 0x4D) else ">"
    return capture[:16] + struct.pack(f"{order}I", longest) + capture[20:]
