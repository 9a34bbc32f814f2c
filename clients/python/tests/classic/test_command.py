"""The command with filters as tcpdump writes them: `run`, `check`, `dis`, `build`, and one sentence for each wrong input."""

from __future__ import annotations

import json
import os
import re
import socket
import struct
import subprocess
import sys
import time
import unittest
from collections import Counter
from collections.abc import Callable
from pathlib import Path
from typing import Any
from unittest import mock

from bpfhost import Host, disassemble
from bpfhost.captures import open_capture
from bpfhost.captures.piece import Stamp
from bpfhost.classic import ClassicError, ClassicProgram, ExpressionError, Length, Semantics
from tests.capture_bytes import MICRO, pcap
from tests.classic.common import needs_libpcap
from tests.classic.test_texts import BYTECODE, DECIMALS, ELEMENTS
from tests.classic.traffic import ethernet
from tests.common import PROGRAM
from tests.test_command import PACKAGE, CommandTest, needs_packages

TIME = re.compile(r"time a packet: [0-9.]+ us")
# Packets as a capture with 96 bytes of each has them, and their lengths on the wire.
CUT = [(packet[:96], Stamp(1_700_000_000 + at, 1000 * at + 7, len(packet))) for at, packet in enumerate(ethernet())]


def captured(order: str = "<", magic: int = MICRO, longest: int = 96) -> bytes:
    """These packets as a capture that says how many bytes it has of each at most."""
    whole = bytearray(pcap(CUT, order, magic))
    struct.pack_into(f"{order}I", whole, 16, longest)
    return bytes(whole)


def has_packet_sockets() -> bool:
    """Whether packets of an interface can be read here."""
    try:
        socket.socket(socket.AF_PACKET, socket.SOCK_RAW).close()
    except OSError:
        return False
    return True


@needs_libpcap
@needs_packages
class FilterTest(CommandTest):
    def setUp(self) -> None:
        super().setUp()
        self.example("sample.pcap")
        (self.scratch / "cut.pcap").write_bytes(captured())


class Run(FilterTest):
    def test_a_table_of_several(self) -> None:
        words = ("--filter", "tcp port 443", "--filter", "arp", "--filter", "ip6 and udp")
        ended = self.command("run", *words, "sample.pcap")
        wanted = [
            "sample.pcap: 235 packets",
            "",
            "",
            "tenant  kept  bytes kept  filter",
            "     0    82      11,529  'tcp port 443'",
            "     1     2          84  'arp'",
            "     2     5         300  'ip6 and udp'",
        ]
        self.assertEqual((TIME.sub("", ended.stdout.decode()).splitlines(), ended.stderr, ended.returncode), (wanted, b"", 0))

    def test_json(self) -> None:
        report = json.loads(self.command("run", "--filter", "udp", "--limit", "20", "--json", "sample.pcap").stdout)
        kept = {"filter": "udp", "file": None, "tenant": 0, "packets": 20, "accepted": 10, "bytes_kept": 1232}
        self.assertEqual(report, {"capture": "sample.pcap", "link_type": 1, "tenants": 1, "filters": [kept], "fault": None})

    def test_classic_programs(self) -> None:
        (self.scratch / "elements").write_text(ELEMENTS)
        (self.scratch / "bytecode").write_text(BYTECODE)
        words = ("run", "--classic", "elements", "--classic=bytecode", "--classic", "-", "--filter", "ip", "sample.pcap", "--json")
        report = json.loads(self.command(*words, given=DECIMALS.encode()).stdout)
        self.assertEqual([each["accepted"] for each in report["filters"]], [198] * 4)
        named = [(each["filter"], each["file"]) for each in report["filters"]]
        self.assertEqual(named, [(None, "elements"), (None, "bytecode"), (None, "-"), ("ip", None)])

    def test_csv(self) -> None:
        wanted = "filter,file,tenant,packets,accepted,bytes_kept\ntcp port 443,,0,235,82,11529\narp,,1,235,2,84\n"
        for words in (("--csv", "sample.pcap"), ("sample.pcap", "--csv")):
            self.writes(wanted, "run", "--filter", "tcp port 443", "--filter", "arp", *words)

    def test_several_tenants(self) -> None:
        words = ("run", "--filter", "tcp port 443", "--filter", "arp", "--tenants", "3", "sample.pcap")
        lines = self.command(*words).stdout.decode().splitlines()
        self.assertEqual(lines[0], "sample.pcap: 235 packets, by each of 3 tenants, with the same results")
        self.assertEqual(lines[4:], ["   0-2    82      11,529  'tcp port 443'", "   3-5     2          84  'arp'"])
        report = json.loads(self.command(*words, "--json").stdout)
        self.assertEqual((report["tenants"], [each["tenant"] for each in report["filters"]]), (3, [0, 3]))

    def test_again_and_again(self) -> None:
        (self.scratch / "long.pcap").write_bytes(pcap([(bytes(60), Stamp(1, 0, 60))] * 30_000))
        told = self.command("run", "--filter", "len = 60", "long.pcap", "--every", "1ms").stdout.decode()
        counts = [int(count.replace(",", "")) for count in re.findall(r"^long.pcap: ([0-9,]+) packets$", told, re.M)]
        self.assertEqual((counts[-1], counts), (30_000, sorted(counts)))
        self.assertGreater(len(counts), 2)

    def test_expressions_of_files(self) -> None:
        (self.scratch / "https").write_text("tcp # by IPv4 or IPv6\n  port 443\n# and nothing else\n")
        words = ("-F", "https", "-Fhttps", "-F", "-", "sample.pcap", "--json")
        report = json.loads(self.command("run", *words, given=b"tcp port 443").stdout)
        named = [(each["filter"], each["file"], each["accepted"]) for each in report["filters"]]
        self.assertEqual([each[1:] for each in named], [("https", 82), ("https", 82), ("-", 82)])
        self.assertRegex(named[0][0], r"\Atcp +port 443\Z")

    def test_the_first_packets_that_are_kept(self) -> None:
        """With -c the run ends after them, as tcpdump's does: a fault of the capture after them is not met."""
        whole = (self.scratch / "sample.pcap").read_bytes()
        (self.scratch / "cut_off").write_bytes(whole[:-1])
        for kept, words in ((5, ("sample.pcap", "--filter", "udp")), (5, ("cut_off", "--filter", "udp", "--tenants", "2"))):
            ended = self.command("run", *words, "-c", str(kept), "--accepted", "kept", "--json")
            report = json.loads(ended.stdout)["filters"][0]
            self.assertEqual((report["accepted"], ended.stderr, ended.returncode), (kept, b"", 0))
            self.assertLess(report["packets"], 20)
            self.command("run", "--filter", "udp", "sample.pcap", "--limit", str(report["packets"]), "--accepted", "limited")
            self.assertEqual((self.scratch / "kept").read_bytes(), (self.scratch / "limited").read_bytes())
        ended = self.command("run", "--filter", "udp", "cut_off", "-c", "1000", "--json")
        self.assertEqual((json.loads(ended.stdout)["filters"][0]["packets"], ended.returncode), (234, 1))
        self.refuses(1, "-c counts what one filter keeps", "run", "--filter", "ip", "--filter", "ip6", "sample.pcap", "-c", "1")
        self.refuses(2, "invalid number of at least 1 value: '0'", "run", "--filter", "ip", "sample.pcap", "-c", "0")
        self.refuses(2, "-c is for filters, and none is named by --filter", "run", "a.o", "sample.pcap", "-c", "1")

    def test_options_anywhere(self) -> None:
        wanted = self.command("run", "--filter", "arp", "sample.pcap", "--limit", "200", "--json").stdout
        for words in (("sample.pcap", "--limit", "200", "--filter", "arp", "--json"), ("--json", "--filter", "arp", "--limit=200", "sample.pcap")):
            self.assertEqual(self.command("run", *words).stdout, wanted)

    def test_packets_to_standard_output(self) -> None:
        """The packets that are kept, and nothing else; the table goes to standard error."""
        self.assertEqual(self.command("run", "--filter", "udp", "sample.pcap", "--accepted", "kept").returncode, 0)
        ended = self.command("run", "--filter", "udp", "sample.pcap", "--accepted", "-")
        self.assertEqual((ended.stdout, ended.returncode), ((self.scratch / "kept").read_bytes(), 0))
        self.assertIn(b"sample.pcap: 235 packets\n", ended.stderr)
        self.assertFalse((self.scratch / "-").exists())

    def test_a_process(self) -> None:
        ended = self.process("run", "--filter", "tcp port 443", "sample.pcap")
        self.assertIn(b"\n     0    82      11,529  'tcp port 443'\n", ended.stdout)

    def test_words_that_a_capture_does_not_tell(self) -> None:
        (self.scratch / "outbound").write_text(ClassicProgram.of_expression("outbound").decimals())
        ended = self.command("run", "--classic", "outbound", "sample.pcap")
        told = "bpfhost: outbound reads pkt_type, which a capture does not have: it is 0\n"
        self.assertEqual((ended.stderr.decode(), ended.returncode), (told, 0))

    def test_a_direction_is_refused_on_files(self) -> None:
        told = "the expression 'inbound' is refused by libpcap: inbound/outbound not supported on Ethernet when reading savefiles"
        self.refuses(1, told, "run", "--filter", "inbound", "sample.pcap")
        self.assertEqual(self.command("check", "--filter", "inbound").returncode, 0)
        self.assertEqual(self.command("dis", "--filter", "inbound", "--form", "d").stdout.decode(), ClassicProgram.of_expression("inbound").listing())

    def test_whose_length(self) -> None:
        """On a capture that is cut, libpcap has the length on the wire, and the kernel what is there."""
        for semantics, wanted in (("libpcap", sum(stamp.length >= 100 for _, stamp in CUT)), ("kernel", 0)):
            words = ("run", "--filter", "greater 100", "cut.pcap", "--json", "--semantics", semantics)
            self.assertEqual(json.loads(self.command(*words).stdout)["filters"][0]["accepted"], wanted)

    def test_other_link_types(self) -> None:
        packets = [(packet[14:], Stamp(1, 0, len(packet) - 14)) for packet in ethernet() if packet[12:14] == b"\x08\0"]
        for name, capture in (("pcap", pcap(packets, link_type=101)), ("empty", pcap([], link_type=101))):
            (self.scratch / name).write_bytes(capture)
            report = json.loads(self.command("run", "--filter", "tcp[0] = 0 or ip", name, "--json").stdout)
            wanted = sum(packet[:1].hex()[:1] == "4" for packet, _ in packets) if name == "pcap" else 0
            self.assertEqual((report["link_type"], report["filters"][0]["accepted"]), (101, wanted))

    def test_a_capture_that_is_wrong(self) -> None:
        (self.scratch / "half").write_bytes(captured()[:-1])
        ended = self.command("run", "--filter", "ip", "half", "--json")
        self.assertEqual(ended.stderr.decode(), f"bpfhost: half: it is cut off in packet {len(CUT):,}\n")
        self.assertEqual((json.loads(ended.stdout)["filters"][0]["packets"], ended.returncode), (len(CUT) - 1, 1))

    def test_two_link_types(self) -> None:
        from tests.capture_bytes import enhanced, interface, section

        two = section("<") + interface("<") + interface("<", 101) + enhanced("<", bytes(20), 1, 20) + enhanced("<", bytes(20), 2, 20, of=1)
        (self.scratch / "two").write_bytes(two)
        ended = self.command("run", "--filter", "len > 0", "two", "--json")
        self.assertEqual(ended.stderr.decode(), "bpfhost: two: a filter is for one link type, and behind 1 there are packets of 101\n")
        self.assertEqual((json.loads(ended.stdout)["filters"][0]["accepted"], ended.returncode), (1, 1))


class Cost(FilterTest):
    """What a run does for each packet, and what it needs before the first one, by counts."""

    def packets(self, many: int) -> str:
        packet = bytes(12) + b"\x08\x00" + bytes(200)
        (self.scratch / f"{many}.pcap").write_bytes(pcap([(packet, Stamp(1, 0, len(packet)))] * many))
        return f"{many}.pcap"

    def test_packets_are_handed_over_in_pieces(self) -> None:
        """Functions are called for pieces of packets, and not for each packet."""
        calls = {}
        for many in (2_000, 22_000):
            words = ("run", "--filter", "ip", self.packets(many), "--accepted", "kept")
            counted = Counter[str]()
            sys.setprofile(lambda _frame, event, _argument: counted.update([event]) if event == "call" else None)
            try:
                ended = self.command(*words)
            finally:
                sys.setprofile(None)
            self.assertIn(f"     0  {many:,}  ", ended.stdout.decode())
            calls[many] = counted["call"]
        self.assertLess(calls[22_000] - calls[2_000], 20_000 / 5)

    def test_the_host_gets_what_may_decide(self) -> None:
        """Of each packet the Ethernet header, the whole packet, or nothing; 52 bytes are before it in a frame."""
        for expression, most in (("ip", 14), ("ether[300] = 1", 214), ("len > 60", 0)):
            sent: list[int] = []

            def send(host: Host, frames: bytes, many: int, to: Callable[..., None] = Host.send) -> None:
                # A single frame loads the filter.
                sent.append(len(frames) if many > 1 else 0)
                to(host, frames, many)

            with mock.patch.object(Host, "send", send):
                self.assertEqual(self.command("run", "--filter", expression, self.packets(3_000)).returncode, 0)
            self.assertEqual(sum(sent), 3_000 * (52 + most), expression)

    def test_a_command_imports_what_it_needs(self) -> None:
        code = "import sys; from bpfhost.command import main; main(sys.argv[1:]); print(*sys.modules, sep='\\n')"
        call = [sys.executable, "-c", code, "run", "--filter", "tcp port 443", "sample.pcap"]
        environment = {**os.environ, "PYTHONPATH": str(PACKAGE), "BPFHOST": PROGRAM}
        modules = set(subprocess.run(call, cwd=self.scratch, env=environment, capture_output=True, text=True, check=True).stdout.splitlines())
        self.assertLess({"bpfhost.classic.libpcap", "bpfhost.captures.pcap"}, modules)
        others = ("aio", "library", "loading", "captures.pcapng", "captures.writer", "captures.interface", "command.show", "command.object_runs")
        packages = ("bpfhost.objects", "bpfhost.lowering", "bpfhost.shards", "elftools", "rich", "redis", "asyncio", "json", "csv", "gzip")
        needless = {name for name in modules for package in packages if name == package or name.startswith(f"{package}.")}
        self.assertEqual(needless | modules & {f"bpfhost.{each}" for each in others}, set())


@unittest.skipUnless(has_packet_sockets(), "packets of an interface can't be read here")
class Live(FilterTest):
    """Datagrams of the loopback interface, until some have come."""

    def reported(self, *words: str) -> dict[str, Any]:
        """What a run reports, while datagrams of 1 and of 100 bytes are sent. `PORT` in the words is their port."""
        with socket.socket(socket.AF_INET, socket.SOCK_DGRAM) as receiver, socket.socket(socket.AF_INET, socket.SOCK_DGRAM) as sender:
            receiver.bind(("127.0.0.1", 0))
            port = receiver.getsockname()[1]
            environment = {**os.environ, "PYTHONPATH": str(PACKAGE), "BPFHOST": PROGRAM}
            call = [sys.executable, "-m", "bpfhost", "run", *(word.replace("PORT", str(port)) for word in words), "--json"]
            with subprocess.Popen(call, stdout=subprocess.PIPE, stderr=subprocess.DEVNULL, cwd=self.scratch, env=environment) as process:
                while process.poll() is None:
                    for many in (1, 100):
                        sender.sendto(bytes(many), ("127.0.0.1", port))
                    time.sleep(0.05)
                assert process.stdout is not None
                report: dict[str, Any] = json.load(process.stdout)
            self.assertEqual(process.returncode, 0)
            return report

    def test_an_interface(self) -> None:
        words = ("--filter", "udp dst port PORT", "--filter", "udp dst port PORT and len > 60", "--interface", "lo", "--limit", "20")
        report = self.reported(*words)
        kept = [each["accepted"] for each in report["filters"]]
        self.assertTrue(0 < kept[1] < kept[0] <= 20, report)

    def test_all_interfaces(self) -> None:
        """Packets of the interface `any` are LINUX_SLL2, and those of the loopback interface come once; -c ends the run."""
        report = self.reported("--filter", "udp dst port PORT and inbound", "--interface", "any", "-c", "4", "--accepted", "kept")
        self.assertEqual((report["link_type"], report["filters"][0]["accepted"]), (276, 4))
        with open_capture(self.scratch / "kept") as capture:
            packets = [packet for piece in capture.pieces() for packet in piece]
        index = socket.if_nametoindex("lo").to_bytes(4, "big")
        for packet in packets:
            # The type of the payload, the interface, its hardware type, an incoming packet, and an address of six zeros.
            self.assertEqual(packet[:20].hex(), f"08000000{index.hex()}03040006{'00' * 8}")
        self.assertEqual([len(packet) for packet in packets], [49, 148] * 2 if len(packets[0]) == 49 else [148, 49] * 2)


class Texts(FilterTest):
    def test_check(self) -> None:
        ended = self.command("check", "--filter", "tcp port 443", "--filter", "ip")
        lines = ended.stdout.decode().splitlines()
        self.assertRegex(lines[0], r"\Athe expression 'tcp port 443' is accepted: 20 instructions of classic BPF, \d+ slots\Z")
        self.assertEqual(lines[1], "the expression 'ip' is accepted: 4 instructions of classic BPF, 12 slots, with a call for each load")
        self.assertEqual((len(lines), ended.stderr, ended.returncode), (2, b"", 0))

    def test_check_tells_each(self) -> None:
        ended = self.command("check", "--filter", "tcp port", "--filter", "ip", "--classic", "-", given=b"1\n6 0 0\n")
        lines = ended.stdout.decode().splitlines()
        self.assertEqual(ended.returncode, 1)
        self.assertEqual(len(lines), 3)
        self.assertTrue(lines[0].startswith("refused: the expression 'tcp port' is refused by libpcap: "), lines)
        self.assertEqual(lines[2], "refused: standard input:2: 6 0 0 is no code, jt, jf and k, four decimal numbers")

    def test_dis(self) -> None:
        text = self.command("dis", "--filter", "tcp port 443", "--link-type", "EN10MB").stdout.decode()
        slots = ClassicProgram.of_expression("tcp port 443").translated().slots
        self.assertEqual("".join(re.sub("(?m)^//.*\n", "", text)), disassemble(PROGRAM, slots))
        self.assertTrue(text.startswith("// the expression 'tcp port 443': 20 instructions of classic BPF, "), text)
        self.assertIn("// (001) jeq      #0x86dd          jt 2 jf 8\nif w7 == 56710 goto ", text)

    def test_forms(self) -> None:
        program = ClassicProgram.of_expression("udp", 101)
        for form, text in (("d", program.listing()), ("dd", program.elements()), ("ddd", program.decimals()), ("bytecode", program.bytecode())):
            self.writes(text, "dis", "--filter", "udp", "--link-type", "101", "--form", form)

    def test_build(self) -> None:
        self.assertEqual(self.command("build", "--filter", "udp", "-o", "udp.json").returncode, 0)
        told = json.loads((self.scratch / "udp.json").read_text())
        program = ClassicProgram.of_expression("udp")
        self.assertEqual(bytes.fromhex("".join(told["slots"])), program.translated().slots)
        self.assertEqual((told["format"], told["version"], told["section"], told["maps"]), ("bpfhost program", 1, "socket", []))
        slots = [line["slot"] for line in told["lines"]]
        self.assertEqual(slots, sorted(slots))
        self.assertEqual(told["lines"][0] | {"slot": 0}, {"slot": 0, "file": program.name, "line": 0, "text": "(000) ldh      [12]", "copy": 1})


class Wrong(FilterTest):
    def test_words(self) -> None:
        wrong = {
            ("run", "--filter", "ip"): "the following arguments are required: CAPTURE",
            ("run", "--filter", "ip", "a.o", "sample.pcap"): "unrecognized arguments: sample.pcap",
            ("run", "--filter", "ip", "sample.pcap", "--semantics", "both"): "invalid choice: 'both'",
            ("run", "--filter", "ip", "sample.pcap", "--section", "f"): "--section is for an object, and filters are named",
            ("run", "--filter", "ip", "sample.pcap", "--as-is"): "--as-is is for an object, and filters are named",
            ("run", "a.o", "sample.pcap", "--semantics", "kernel"): "--semantics is for filters, and none is named by --filter",
            ("run", "--filter", "ip", "sample.pcap", "--link-type", "1"): "--link-type is for check, dis and build: packets that are run",
            ("run", "--filter", "ip", "sample.pcap", "--csv", "flows"): "unrecognized arguments: flows",
            ("check", "--filter", "ip", "a.o"): "unrecognized arguments: a.o",
            ("dis", "--form", "d"): "--form is for filters, and none is named by --filter",
            ("check", "--filter", "ip", "--link-type", "ETHER"): "invalid link type value: 'ETHER'",
            ("check", "--filter"): "expected one argument",
            ("build", "--filter", "ip"): "the following arguments are required: -o/--output",
        }
        for words, told in wrong.items():
            self.refuses(2, told, *words)

    def test_expressions(self) -> None:
        for word in (("run", "sample.pcap"), ("dis",), ("build", "-o", "file")):
            self.refuses(1, "the expression 'tcp port' is refused by libpcap: ", word[0], "--filter", "tcp port", *word[1:])
        self.refuses(1, "instruction 18, ja 4: it jumps backward, as protochain does", "run", "--filter", "ip6 protochain 6", "sample.pcap")
        many = " or ".join(f"ether[{at}] = {at % 251}" for at in range(700, 1400))
        self.refuses(1, "slots, and 4,096 are the most", "run", "--filter", many, "sample.pcap", "--accepted", "kept")
        self.assertFalse((self.scratch / "kept").exists() or (self.scratch / "file").exists())

    def test_classic_programs(self) -> None:
        (self.scratch / "damaged").write_text("2\n48 0 0 0\n21 9 0 0\n")
        (self.scratch / "long").write_text("4097\n" + "6 0 0 0\n" * 4097)
        (self.scratch / "huge").write_text(" " * ((1 << 20) + 1))
        told = "damaged: instruction 1, jeq #0x0 jt 11 jf 2: it jumps out of the program"
        self.refuses(1, told, "run", "--classic", "damaged", "sample.pcap")
        self.refuses(1, "long: it has 4,097 instructions, and 4,096 are the most", "run", "--classic", "long", "sample.pcap")
        self.refuses(1, "huge: a text of a filter has 1,048,576 bytes at most", "dis", "--classic", "huge")
        self.refuses(1, "nothing: No such file or directory", "run", "--classic", "nothing", "sample.pcap")
        self.refuses(1, "it is no count of instructions"[3:], "dis", "--classic", "-", given=b"\xff\xfe")

    def test_texts_of_other_forms(self) -> None:
        program = ClassicProgram.of_expression("tcp port 443")
        taken = "the texts of tcpdump -dd and -ddd, and bytecode of iptables and bpf_asm can be read"
        for text, told in (
            (program.listing(), "standard input: it is a listing of tcpdump -d, which does not have the whole program"),
            ("ldh [12]\njne #0x806, drop\nret #-1\ndrop: ret #0\n", "standard input: it is a source for bpf_asm, which makes the program of it"),
            ("start: ldh [12]\nret a\n", "standard input: it is a source for bpf_asm, which makes the program of it"),
            ("what\n", "standard input: what is no count of instructions, as tcpdump -ddd and iptables begin with one"),
        ):
            self.refuses(1, f"{told}: {taken}", "run", "--classic", "-", "sample.pcap", given=text.encode())

    def test_what_was_meant(self) -> None:
        """A word in the place of an object is an expression, or a capture."""
        told = "tcp port 443: No such file or directory; did you mean --filter 'tcp port 443'?"
        for words in (("run", "tcp port 443", "sample.pcap"), ("check", "tcp port 443"), ("build", "tcp port 443", "-o", "file")):
            self.refuses(1, told, *words)
        self.refuses(2, "CAPTURE or --interface IF; did you mean --filter udp?", "run", "udp")
        self.refuses(2, "sample.pcap is a capture: a filter is needed too, as in run --filter 'tcp port 443' sample.pcap", "run", "sample.pcap")
        self.refuses(1, "sample.pcap is a capture, and not an object", "run", "sample.pcap", "sample.pcap")
        told = "it jumps backward, as protochain does, and a program that ends surely has jumps forward alone; proto in place of protochain"
        self.refuses(1, told, "run", "--filter", "ip6 protochain 6", "sample.pcap")

    def test_what_is_named_twice(self) -> None:
        self.refuses(1, "standard input can be read only once", "run", "--classic", "-", "-", given=b"")
        self.refuses(1, "--accepted writes what one filter keeps", "run", "--filter", "ip", "--filter", "ip6", "sample.pcap", "--accepted", "a")
        self.refuses(1, "a file has one filter", "build", "--filter", "ip", "--filter", "ip6", "-o", "file")
        words = [word for _ in range(65) for word in ("--filter", "ip")]
        self.refuses(1, "each filter needs tenants of its own, and 64 are the most", "run", *words, "sample.pcap")
        words = ["--filter", "ip", "--filter", "ip6", "--tenants", "33"]
        self.refuses(1, "each filter needs tenants of its own, and 64 are the most", "run", *words, "sample.pcap")

    def test_nothing_is_written_over(self) -> None:
        (self.scratch / "program").write_text(DECIMALS)
        before = (self.scratch / "sample.pcap").read_bytes()
        over = "can't be written over the"
        self.refuses(1, f"{over} capture", "run", "--filter", "ip", "sample.pcap", "--accepted", "sample.pcap")
        self.refuses(1, f"{over} file that a filter is read from", "run", "--classic", "program", "sample.pcap", "--accepted", "program")
        self.refuses(1, f"{over} file that it is read from", "build", "--classic", "program", "-o", "program")
        self.assertEqual(((self.scratch / "program").read_text(), (self.scratch / "sample.pcap").read_bytes()), (DECIMALS, before))

    def test_libpcap_is_missing(self) -> None:
        script = "import sys, ctypes\ndef no(_name):\n    raise OSError\nctypes.CDLL = no\nimport bpfhost.command\nsys.exit(bpfhost.command.main())"
        (self.scratch / "without.py").write_text(script)
        environment = {**os.environ, "PYTHONPATH": str(Path(__file__).resolve().parents[2]), "BPFHOST": PROGRAM}
        call = [sys.executable, "without.py", "run", "--filter", "ip", "sample.pcap"]
        ended = subprocess.run(call, capture_output=True, text=True, check=False, cwd=self.scratch, env=environment)
        told = "bpfhost: libpcap is missing, which compiles expressions: apt-get install libpcap0.8\n"
        self.assertEqual((ended.stderr, ended.returncode), (told, 3))


class Tenants(FilterTest):
    def test_a_filter_of_a_tenant(self) -> None:
        with Host(PROGRAM, 2) as host:
            tcp, long = host.tenant(0).load_filter("tcp"), host.tenant(1).load_filter("greater 100", 101, length=Length.PACKET)
            found = [(host.tenant(0).prog_test_run(tcp, packet), host.tenant(1).prog_test_run(long, packet)) for packet in ethernet()[:50]]
            is_tcp = [packet[12:14] == b"\x08\0" and packet[23:24] == b"\x06" for packet in ethernet()[:50]]
            self.assertEqual([kept != 0 for kept, _ in found], is_tcp)
            self.assertEqual([kept != 0 for _, kept in found], [len(packet) >= 100 for packet in ethernet()[:50]])

    def test_refusals(self) -> None:
        with Host(PROGRAM) as host:
            self.assertRaises(ExpressionError, host.tenant().load_filter, "tcp port")
            self.assertRaises(ClassicError, host.tenant().load_filter, "ip6 protochain 6", semantics=Semantics.KERNEL)
            self.assertEqual(host.tenant().load_filter("ip"), 3)
