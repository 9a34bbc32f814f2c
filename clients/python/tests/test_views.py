"""What a run prints, and its settings: addresses, orders, CSV, values of variables, timestamps, a live view."""

from __future__ import annotations

import csv
import io
import json
import os
import re
import shutil
import subprocess
import sys
import unittest
from pathlib import Path
from unittest import mock

from bpfhost import InputError
from bpfhost.captures.piece import Stamp
from bpfhost.objects import load_object
from bpfhost.objects.settings import with_values
from tests.capture_bytes import RECORDS, pcap, pcapng
from tests.common import PROGRAM, without_notice
from tests.objects.common import ClangTest
from tests.test_command import EXAMPLE, PACKAGE, CommandTest, needs_packages

SOURCE = """
typedef unsigned int __u32;
typedef __u32 __be32;
struct key { __be32 ip; unsigned char mac[6]; unsigned char v6[16]; char name[4]; unsigned char five[5]; const __be32 other; };
struct { __uint(type, BPF_MAP_TYPE_HASH); __type(key, struct key); __type(value, unsigned long); __uint(max_entries, 4); } keys SEC(".maps");
enum color { RED, GREEN };
volatile const unsigned int limit = 5;
volatile const enum color color;
volatile const __be32 allowed;
volatile const char name[8];
volatile const _Bool on;
int table[3];
unsigned char mac[6];
SEC("socket") int f(struct __sk_buff *skb)
{
    struct key key = {};
    unsigned long one = limit;
    key.ip = allowed;
    if (on)
        one += color + table[0] + name[0] + mac[2];
    bpf_map_update_elem(&keys, &key, &one, 0);
    return -1;
}
"""


@needs_packages
class Values(CommandTest, ClangTest):
    def setUp(self) -> None:
        super().setUp()
        self.object = self.compiled(SOURCE)
        (self.scratch / "capture").write_bytes(pcap([(bytes(60), Stamp(1, 0, 60))]))

    def test_addresses(self) -> None:
        found = load_object(self.object)
        types, key = found.types, found.maps[0].key_type
        assert types is not None and key is not None
        data = bytes([10, 0, 0, 1]) + bytes(range(6)) + bytes(15) + b"\1" + b"abc\0" + bytes(5) + b"\0" + bytes([192, 0, 2, 1])
        told = '{ .ip = 10.0.0.1, .mac = 00:01:02:03:04:05, .v6 = ::1, .name = "abc", .five = { 0, 0, 0, 0, 0 }, .other = 192.0.2.1 }'
        self.assertEqual(types.show(key, data), told)
        plain = types.plain(key, data)
        assert isinstance(plain, dict)
        self.assertEqual((plain["ip"], plain["mac"]), (16777226, [0, 1, 2, 3, 4, 5]))

    def test_variables_are_set(self) -> None:
        words = ("limit=0x10", "color=GREEN", "table=1,-2", "allowed=192.0.2.1", "name=eth0", "on=true", "mac=02:00:00:00:00:01")
        ended = self.command("run", "filter.o", "capture", *[word for each in words for word in ("--set", each)])
        told = ended.stdout.decode()
        self.assertIn('{ .limit = 16, .allowed = 192.0.2.1, .on = true, .color = GREEN, .name = "eth0" }', told)
        self.assertIn("{ .table = { 1, -2, 0 }, .mac = 02:00:00:00:00:01 }", told)
        self.assertRegex(told, r"\.ip = 192\.0\.2\.1, .*  119\n")
        self.assertEqual((ended.stderr, ended.returncode), (b"", 0))

    def test_values_that_are_wrong(self) -> None:
        wrong = {
            "limit=x": "limit is of type const volatile unsigned int, and 'x' is no value of it: an integer is needed",
            "limit=-1": "it has room for 0 to 4,294,967,295",
            "color=BLUE": "an integer is needed",
            "table=1,2,3,4": "it has 3 elements, and 4 are given",
            "allowed=::1": "an address of 4 bytes is needed",
            "allowed=1.2.3.4.5": "an integer is needed",
            "name=12345678": "it has room for 7 bytes and the zero after them",
            "on=maybe": "true or false is needed",
            "mac=1:2": "six bytes in hexadecimal digits",
            "limits=1": "there is no variable limits to set: it has allowed, color, limit, mac, name, on, table; clang keeps a const one only if",
        }
        found = load_object(self.object)
        for word, told in wrong.items():
            name, _, value = word.partition("=")
            with self.assertRaisesRegex(InputError, re.escape(told)):
                with_values(found, {name: value})
        self.refuses(1, "there is no variable limits to set", "run", "filter.o", "capture", "--set", "limits=1")

    def test_a_negative_result(self) -> None:
        self.assertRegex(self.command("run", "filter.o", "capture").stdout.decode(), r"\n4,294,967,295 \(-1\) +1\n")

    def test_the_time_of_packets(self) -> None:
        self.compiled('unsigned last, first = 1;\nSEC("socket") int f(struct __sk_buff *skb) { last = skb->mark; return skb->mark + 1; }')
        records = [(bytes(60), Stamp(at // 1000, at % 1000 * 1_000_000, 100)) for at in (5000, 5001, 4000, 9500)]
        for content in (pcap(records), pcapng(records)):
            for short in ("pad", "as-is"):
                (self.scratch / "capture").write_bytes(content)
                report = json.loads(self.command("run", "filter.o", "capture", "--time", "mark", "--short", short, "--json").stdout)
                self.assertEqual(report["results"], {"1": 2, "2": 1, "4501": 1})


@needs_packages
class Orders(CommandTest):
    def setUp(self) -> None:
        super().setUp()
        self.example("flows.o", "counter.o", "sample.pcap")

    def test_the_busiest(self) -> None:
        told = self.command("run", "flows.o", "sample.pcap", "--top", "2", "--by", "bytes").stdout.decode()
        self.assertRegex(told, r"protocols, a hash map: 8 of 258 keys; the first 2 by bytes\nkey +value\nUDP .*17892 }\nTCP .*12087 }\n\n")
        first = self.command("run", "flows.o", "sample.pcap", "--top", "1", "--by", "source_port").stdout.decode()
        self.assertRegex(first, r"flows, .*; the first 1 by source_port\n.*\n.*\.source_port = 5001\d")
        self.assertRegex(self.command("run", "flows.o", "sample.pcap", "--top", "1").stdout.decode(), r"protocols, .*; the first 1\n.*\nUDP ")

    def test_csv(self) -> None:
        ended = self.command("run", "flows.o", "sample.pcap", "--csv", "flows", "--top", "2", "--by", "bytes")
        rows = list(csv.DictReader(io.StringIO(ended.stdout.decode())))
        self.assertEqual((rows[0]["key.source"], rows[0]["key.protocol"], rows[0]["value.bytes"], len(rows)), ("192.0.2.1", "UDP", "8626", 2))
        rows = list(csv.DictReader(io.StringIO(self.command("run", "counter.o", "sample.pcap", "--csv", ".bss").stdout.decode())))
        self.assertEqual((rows[0]["key"], rows[0]["value.packets"]), ("0", "235"))
        self.refuses(1, "there is no map nothing to write as CSV: its maps are protocols", "run", "flows.o", "sample.pcap", "--csv", "nothing")

    def test_again_and_again(self) -> None:
        (self.scratch / "capture").write_bytes(pcap([(bytes(60), Stamp(1, 0, 60))] * 30_000))
        told = self.command("run", "counter.o", "capture", "--every", "1ms").stdout.decode()
        counts = [int(count.replace(",", "")) for count in re.findall(r"^packets +([0-9,]+)$", told, re.M)]
        self.assertEqual((counts[-1], counts), (30_000, sorted(counts)))
        self.assertGreater(len(counts), 2)


@needs_packages
class Pauses(CommandTest):
    def test_a_capture_that_pauses(self) -> None:
        """What has come is shown, though nothing follows for a while."""
        self.example("counter.o")
        os.mkfifo(self.scratch / "pipe")
        call = [sys.executable, "-m", "bpfhost", "run", "counter.o", "pipe", "--every", "100ms"]
        environment = {**os.environ, "PYTHONPATH": str(PACKAGE), "BPFHOST": PROGRAM}
        pipe = subprocess.PIPE
        with subprocess.Popen(call, stdout=pipe, stderr=pipe, text=True, cwd=self.scratch, env=environment) as process:
            with open(self.scratch / "pipe", "wb") as written:
                assert process.stdout is not None
                for content, count in ((pcap(RECORDS[:1]), 1), (pcap(RECORDS[:1])[24:] * 2, 3)):
                    written.write(content)
                    written.flush()
                    while not re.match(rf"packets +{count}\n", process.stdout.readline()):
                        pass
            self.assertEqual(without_notice(process.communicate()[1].encode()), b"")


@needs_packages
@unittest.skipUnless(os.geteuid() == 0 and shutil.which("unshare") and shutil.which("ip"), "root, unshare or ip is missing")
class Interfaces(CommandTest):
    """Packets of interfaces in a network namespace of their own."""

    SENDS = (
        "import socket, time\n"
        "sent = socket.socket(socket.AF_INET, socket.SOCK_DGRAM)\n"
        "while True: sent.sendto(bytes(100), ('{}', 9)); time.sleep(0.05)\n"
    )

    def namespace(self, prepare: str, to: str, *words: str) -> tuple[str, str, int]:
        """What a run in a namespace writes, while packets are sent."""
        shutil.copy(EXAMPLE / "counter.o", self.scratch)
        (self.scratch / "sends.py").write_text(self.SENDS.format(to))
        script = f"set -e; {prepare}\n{sys.executable} sends.py & sender=$!\n{sys.executable} -m bpfhost run counter.o {' '.join(words)} && status=0 || status=$?\nkill $sender; exit $status"
        environment = {**os.environ, "PYTHONPATH": str(PACKAGE), "BPFHOST": PROGRAM}
        call = ["unshare", "-n", "bash", "-c", script]
        if subprocess.run(["unshare", "-n", "true"], capture_output=True, check=False).returncode:
            self.skipTest("no network namespace can be made")
        ended = subprocess.run(call, capture_output=True, text=True, check=False, cwd=self.scratch, env=environment)
        return ended.stdout, without_notice(ended.stderr.encode()).decode(), ended.returncode

    def test_loopback(self) -> None:
        """Each packet once, though the interface has it going and coming."""
        told = self.namespace("ip link set lo up", "127.0.0.1", "--interface lo --limit 6 --json")
        report = json.loads(told[0])
        self.assertEqual((report["packets"], report["capture"], told[1:]), (6, "lo", ("", 0)))
        self.assertGreaterEqual(report["maps"][".bss"]["entries"][0]["value"]["bytes"], 6 * 142)

    def test_ethernet_again_and_again(self) -> None:
        prepare = "ip link add one type veth peer name two; ip link set one up; ip link set two up; ip addr add 10.9.0.1/24 dev one"
        prepare += "; ip neigh add 10.9.0.2 lladdr 02:00:00:00:00:02 dev one"
        written, told, status = self.namespace(prepare, "10.9.0.2", "--interface two --limit 12 --every 100ms --accepted kept.pcap")
        counts = [int(count) for count in re.findall(r"^packets +(\d+)$", written, re.M)]
        self.assertEqual((counts[-1], status, told), (12, 0, ""))
        self.assertGreater(len(counts), 1)
        kept = (self.scratch / "kept.pcap").read_bytes()
        self.assertIn(bytes.fromhex("0200000000 02") + b"", kept)

    def test_interfaces_that_can_not_be_read(self) -> None:
        shutil.copy(EXAMPLE / "counter.o", self.scratch)
        self.refuses(1, "nowhere: No such device", "run", "counter.o", "--interface", "nowhere")
        with mock.patch("socket.socket", side_effect=PermissionError(1, "Operation not permitted")):
            self.refuses(1, "lo: only root, or a process with CAP_NET_RAW, reads packets of an interface", "run", "counter.o", "--interface", "lo")


# The mark of tools/quick-build, and what is printed for it.
MARK, UNPROVED = b"built without proofs\0", "{} is built without proofs, by tools/quick-build\n"


class Versions(CommandTest):
    def test_a_program_with_and_without_proofs(self) -> None:
        """A copy of a program has its mark; older builds only have a file next to them."""
        program = self.scratch / "copied"
        for mark, line in ((b"", f"{program}, built with its proofs (it has no mark of tools/quick-build)\n"), (MARK, UNPROVED.format(program))):
            program.write_bytes(b"#!/bin/sh\n" + mark)
            program.chmod(0o755)
            ended = self.command("--version", BPFHOST=str(program))
            self.assertIn(line, ended.stdout.decode())
            self.assertEqual(ended.returncode, 0)
            library = self.command("--version", BPFHOST=str(program), BPFHOST_LIBRARY=str(program)).stdout.decode().splitlines(keepends=True)[2]
            self.assertEqual(library.removeprefix("bpfhost, the library: "), line)
        program.write_bytes(b"#!/bin/sh\n")
        (self.scratch / "UNPROVED").touch()
        self.assertIn(UNPROVED.format(program), self.command("--version", BPFHOST=str(program)).stdout.decode())

    @needs_packages
    def test_it_is_told_once(self) -> None:
        program = self.scratch / "bpfhost"
        program.symlink_to(Path(PROGRAM).resolve())
        (self.scratch / "UNPROVED").touch()
        self.example("flows.o", "sample.pcap")
        environment = {**os.environ, "PYTHONPATH": str(PACKAGE), "BPFHOST": str(program), "VERIFIER_LOG": ""}
        call = [sys.executable, "-m", "bpfhost", "run", "flows.o", "sample.pcap", "--limit", "1"]
        told = subprocess.run(call, capture_output=True, text=True, check=False, cwd=self.scratch, env=environment)
        self.assertEqual((told.stderr, told.returncode), (f"bpfhost: {program} is built without proofs\n", 0))

    def test_completion(self) -> None:
        """argcomplete, if it is installed, completes words for `python3 -m bpfhost`."""
        try:
            import argcomplete  # noqa: F401
        except ModuleNotFoundError:
            self.skipTest("python3-argcomplete is missing")
        self.assertTrue((PACKAGE / "bpfhost/__main__.py").read_text().startswith("# PYTHON_ARGCOMPLETE_OK\n"))
        line = "bpfhost run --acc"
        environment = {**os.environ, "PYTHONPATH": str(PACKAGE), "_ARGCOMPLETE": "1", "COMP_LINE": line, "COMP_POINT": str(len(line))}
        environment["_ARGCOMPLETE_STDOUT_FILENAME"] = str(self.scratch / "completed")
        subprocess.run([sys.executable, "-m", "bpfhost"], env=environment, check=False, capture_output=True)
        self.assertEqual((self.scratch / "completed").read_text().strip(), "--accepted")
