"""The benchmark, with few packets: it runs, and the filter keeps every byte of both captures, else it would exit with an error."""

from __future__ import annotations

import shutil
import subprocess
import sys
import unittest
from pathlib import Path

from tests.classic.common import needs_libpcap
from tests.common import PROGRAM, HostTest
from tests.objects.common import clang

# A busy machine gets more time for one of two measurements.
SLACK = 2
BENCH = Path(__file__).resolve().parents[1] / "bench/packets.py"


class Bench(HostTest):
    @needs_libpcap
    def test_a_filter_next_to_tcpdump(self) -> None:
        """Also a comparison of the files that both write."""
        call = [sys.executable, str(BENCH), PROGRAM, "--packets", "2000", "--rounds", "1", "--filter", "len > 700"]
        ended = subprocess.run(call, capture_output=True, check=False, text=True)
        self.assertEqual((ended.stderr, ended.returncode), ("", 0))
        names = [line.partition(": ")[0] for line in ended.stdout.splitlines()]
        beside = ["tcpdump -w"] if shutil.which("tcpdump") else []
        self.assertEqual(names, ["no packets", "run", "run --accepted", *beside, "no packets", "run", "run --accepted"])

    def test_both_formats(self) -> None:
        call = [sys.executable, str(BENCH), PROGRAM, "--packets", "2000", "--rounds", "2"]
        ended = subprocess.run(call, capture_output=True, check=False, text=True)
        self.assertEqual((ended.stderr, ended.returncode), ("", 0))
        lines = ended.stdout.splitlines()
        self.assertEqual(len(lines), 6)
        for line, name in zip(lines, ("pcap", "pcapng") * 2):
            self.assertRegex(line, rf"\A{name}, 2,000 packets: client \d+\.\d\d us a packet, host \d+\.\d\d, ratio \d+\.\d\d\Z")
        for line, name in zip(lines[4:], ("pcap", "pcapng")):
            self.assertRegex(line, rf"\A{name}: the client costs \d+\.\d\d us a packet at least, and is to cost less than 3\Z")

    @unittest.skipUnless(clang(), "there is no clang with the target bpf")
    def test_lowering(self) -> None:
        """Both ratios are printed: next to a package, here the same one, and of 4,000 slots to 1,000, which is at most 5."""
        bench = BENCH.with_name("lowering.py")
        call = [sys.executable, str(bench), "--bpfhost", PROGRAM, "--before", str(BENCH.parents[1]), "--rounds", "1"]
        ended = subprocess.run(call, capture_output=True, check=False, text=True)
        self.assertEqual((ended.stderr, ended.returncode), ("", 0))
        lines = ended.stdout.splitlines()
        self.assertEqual([line.partition(": ")[0] for line in lines], ["forty filters, now", "forty filters, before", "ratio", "1,000 slots"])
        self.assertLess(float(lines[-1].rpartition(" ")[2]), 5 * SLACK)
