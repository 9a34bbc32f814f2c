"""When a run ends early or something does not fit, the counts are printed, and what was left out is reported."""

from __future__ import annotations

import json
import os
import signal
import struct
import subprocess
import sys
import time
from pathlib import Path

from bpfhost.captures import open_capture
from bpfhost.captures.piece import Stamp
from tests.capture_bytes import RAW_IP, RECORDS, enhanced, interface, pcap, pcapng, section
from tests.common import PROGRAM, without_notice
from tests.test_command import PACKAGE, CommandTest, needs_packages

# Twelve packets of Ethernet, each of 60 bytes.
PACKETS = [(bytes(12) + b"\x08\x00" + bytes(46), Stamp(number, 0, 60)) for number in range(12)]


class RunTest(CommandTest):
    def setUp(self) -> None:
        super().setUp()
        self.example("counter.o")

    def report(self, content: bytes, *words: str) -> tuple[dict[str, object], str, int]:
        """What a run on a capture prints as JSON, its notices, and its status."""
        (self.scratch / "capture").write_bytes(content)
        ended = self.command("run", "counter.o", "capture", "--json", *words)
        return json.loads(ended.stdout), ended.stderr.decode(), ended.returncode

    def counted(self, report: dict[str, object]) -> object:
        """The counters of the filter: its packets, its bytes and the longest."""
        maps = report["maps"]
        assert isinstance(maps, dict)
        return list(maps[".bss"]["entries"][0]["value"].values())


@needs_packages
class Interrupted(RunTest):
    """A capture that goes on, through a pipe, and Ctrl-C, which goes to all processes in the foreground of the terminal."""

    def interrupted(self, number: int, *words: str) -> tuple[str, str, int]:
        """What is written by a run that a signal ends while it waits for more packets."""
        (self.scratch / "begun").write_bytes(pcap(PACKETS))
        environment = {**os.environ, "PYTHONPATH": str(PACKAGE), "BPFHOST": PROGRAM, "VERIFIER_LOG": ""}
        script = f"(cat begun; exec sleep 1000) | {sys.executable} -m bpfhost run counter.o - {' '.join(words)} --accepted kept"
        call = ["bash", "-c", f"{script}; exit ${{PIPESTATUS[1]}}"]
        pipe = subprocess.PIPE
        # The shell waits for its children.
        call[2] = f"trap : INT TERM; {call[2]}"
        process = subprocess.Popen(call, stdout=pipe, stderr=pipe, text=True, cwd=self.scratch, env=environment, start_new_session=True)
        with process:
            kept = self.scratch / "kept"
            while not kept.exists():
                time.sleep(0.02)
            time.sleep(0.5)
            os.killpg(process.pid, number)
            written, told = process.communicate()
        return written, without_notice(told.encode()).decode(), process.returncode

    def test_the_table_is_shown(self) -> None:
        written, told, status = self.interrupted(signal.SIGINT)
        self.assertRegex(written, r"packets +12\n")
        self.assertIn(".packets = 12", written)
        self.assertEqual((told, status), ("bpfhost: interrupted after 12 packets\n", 130))
        with open_capture(self.scratch / "kept") as capture:
            self.assertEqual(sum(map(len, capture.pieces())), 12)

    def test_another_signal(self) -> None:
        written, told, status = self.interrupted(signal.SIGTERM, "--json")
        report = json.loads(written)
        self.assertEqual((report["packets"], report["signal"], report["fault"]), (12, 15, None))
        self.assertEqual((told, status), ("bpfhost: interrupted after 12 packets\n", 143))


@needs_packages
class LongPackets(RunTest):
    RECORDS = [*PACKETS[:2], (bytes(65_549), Stamp(5, 0, 65_549)), *PACKETS[2:4]]

    def test_the_run_goes_on(self) -> None:
        for content in (pcap(self.RECORDS), pcapng(self.RECORDS)):
            report, told, status = self.report(content)
            self.assertEqual(self.counted(report), [5, 4 * 60 + 65_536, 65_536])
            self.assertEqual((report["packets"], report["long"], report["skipped"], status), (5, 1, 0, 0))
            self.assertEqual(told, "bpfhost: capture: 1 packet is longer than 65,536 bytes, and run on the first 65,536\n")

    def test_they_are_left_out(self) -> None:
        report, told, status = self.report(pcap(self.RECORDS), "--long", "skip")
        self.assertEqual(self.counted(report), [4, 240, 60])
        self.assertEqual((report["packets"], report["long"], report["skipped"], status), (4, 1, 1, 0))
        self.assertEqual(told, "bpfhost: capture: 1 packet is longer than 65,536 bytes, and left out\n")


@needs_packages
class ShortPackets(RunTest):
    """64 bytes of packets of 1,500, as `tcpdump -s 64` captures them."""

    CUT = [(bytes(64), Stamp(number, 0, 1500)) for number in range(3)]

    def test_the_length_is_that_on_the_wire(self) -> None:
        for content in (pcap(self.CUT), pcapng(self.CUT)):
            report, told, status = self.report(content)
            self.assertEqual((self.counted(report), status), ([3, 4500, 1500], 0))
            self.assertRegex(told, r"\Abpfhost: capture: 3 packets are cut short in it: skb->len is the length on the wire, and zeros .*\n\Z")

    def test_as_the_capture_has_them(self) -> None:
        report, told, status = self.report(pcap(self.CUT), "--short", "as-is")
        self.assertEqual((self.counted(report), status), ([3, 192, 64], 0))
        self.assertEqual(told, "bpfhost: capture: 3 packets are cut short in it: skb->len is the captured length\n")


@needs_packages
class Accepted(RunTest):
    """Packets that are kept, of a capture with two link types."""

    CONTENT = section("<") + interface("<") + interface("<", RAW_IP)
    CONTENT += b"".join(enhanced("<", bytes([at]) * 60, at, 60, of=at % 2) for at in range(5))

    def test_a_pcap_file_has_one(self) -> None:
        report, told, status = self.report(self.CONTENT, "--accepted", "kept.pcap")
        self.assertEqual((report["packets"], status), (5, 1))
        self.assertIn("kept.pcap: a pcap file has only one link type, so 2 packets are left out, 2 of link type 101", told)
        self.assertEqual(self.packets_of("kept.pcap"), [(1, 0), (1, 2), (1, 4)])

    def test_a_pcapng_file_has_both(self) -> None:
        report, _, status = self.report(self.CONTENT, "--accepted", "kept.pcapng")
        self.assertEqual((report["packets"], status), (5, 0))
        self.assertEqual(self.packets_of("kept.pcapng"), [(1, 0), (101, 1), (1, 2), (101, 3), (1, 4)])

    def test_standard_output(self) -> None:
        (self.scratch / "capture").write_bytes(pcap(PACKETS))
        ended = self.command("run", "counter.o", "capture", "--accepted", "-")
        self.assertEqual(ended.stdout, pcap(PACKETS))
        self.assertIn("keep_first_bytes of counter.o on capture\n", ended.stderr.decode())

    def test_no_room(self) -> None:
        report, told, status = self.report(pcap(PACKETS), "--accepted", "/dev/full")
        self.assertEqual((report["packets"], told, status), (12, "bpfhost: /dev/full: No space left on device\n", 1))

    def test_nobody_reads(self) -> None:
        (self.scratch / "capture").write_bytes(pcap(PACKETS * 3000))
        ended = self.shell("run counter.o capture --accepted - | head -c 100 | wc -c")
        self.assertEqual(ended.stdout, b"100\n")
        self.assertIn("standard output: Broken pipe", ended.stderr.decode())
        self.assertIn("36,000", ended.stderr.decode())

    def packets_of(self, name: str) -> list[tuple[int, int]]:
        """The link type and the first byte of each packet."""
        with open_capture(self.scratch / name) as capture:
            return [(piece.link_type, packet[0]) for piece in capture.pieces() for packet in piece]


@needs_packages
class Compressed(RunTest):
    def test_a_capture_of_standard_input(self) -> None:
        (self.scratch / "capture").write_bytes(pcap(RECORDS[:1]))
        subprocess.run(["gzip", "-k", "capture"], cwd=self.scratch, check=True)
        given = Path(self.scratch / "capture.gz").read_bytes()
        for ended in (self.command("run", "counter.o", "capture.gz", "--json"), self.process("run", "counter.o", "-", "--json", given=given)):
            self.assertEqual((json.loads(ended.stdout)["results"], ended.stderr, ended.returncode), ({"5": 1}, b"", 0))
        (self.scratch / "nothing.gz").write_bytes(given[:15])
        self.refuses(1, "compressed bytes are damaged or cut off", "run", "counter.o", "nothing.gz")

    def test_a_capture_that_is_cut_off(self) -> None:
        packets = [(struct.pack("<I", at * 2_654_435_761 % (1 << 32)) * 50, Stamp(at, 0, 200)) for at in range(3000)]
        (self.scratch / "whole").write_bytes(pcap(packets))
        subprocess.run(["gzip", "whole"], cwd=self.scratch, check=True)
        whole = (self.scratch / "whole.gz").read_bytes()
        report, told, status = self.report(whole[: len(whole) // 2])
        assert isinstance(report["packets"], int)
        self.assertGreater(report["packets"], 500)
        self.assertRegex(told, r"compressed bytes are damaged or cut off after packet [0-9,]+\n\Z")
        self.assertEqual(status, 1)
