"""The command: what it writes, and one sentence and a status for each wrong input."""

from __future__ import annotations

import contextlib
import importlib.util
import io
import json
import os
import pty
import re
import shlex
import shutil
import signal
import subprocess
import sys
import time
import unittest
from contextlib import ExitStack
from dataclasses import dataclass
from pathlib import Path
from unittest import mock

from bpfhost import MissingPackage, hex_lines
from bpfhost.command import main
from tests.capture_bytes import RAW_IP, RECORDS, pcap, pcapng
from tests.common import LENGTH, ONE, PROGRAM, HostTest, without_notice

PACKAGE = Path(__file__).resolve().parents[1]
EXAMPLE = PACKAGE.parents[1] / "examples/capture"
TIME = re.compile(rb"time a packet: [0-9.]+ us")
MODULES = {"elftools": "python3-pyelftools", "rich": "python3-rich"}
needs_packages = unittest.skipUnless(
    all(map(importlib.util.find_spec, MODULES)), "python3-pyelftools or python3-rich is missing"
)


@dataclass(frozen=True)
class Ended:
    """What a command wrote, and its status."""

    stdout: bytes
    stderr: bytes
    returncode: int


class CommandTest(HostTest):
    def command(self, *words: str, given: bytes = b"", **variables: str) -> Ended:
        """Runs the command in the scratch folder, in this process, with streams of its own."""
        given_stream, written, errors = (io.TextIOWrapper(io.BytesIO(content), "utf-8", newline="") for content in (given, b"", b""))
        with ExitStack() as stack:
            stack.enter_context(contextlib.chdir(self.scratch))
            stack.enter_context(mock.patch.dict(os.environ, {"BPFHOST": PROGRAM, "VERIFIER_LOG": "", **variables}))
            stack.enter_context(mock.patch.multiple(sys, stdin=given_stream, stdout=written, stderr=errors))
            try:
                status = main(words)
            except SystemExit as exit:
                status = int(exit.code or 0)
            written.flush()
            errors.flush()
        return Ended(_bytes_of(written), without_notice(_bytes_of(errors)), status)

    def process(self, *words: str, given: bytes = b"", **variables: str) -> Ended:
        """The same by `python3 -m bpfhost`, in a process of its own."""
        return self.shell(shlex.join(words), given, **variables)

    def shell(self, words: str, given: bytes = b"", **variables: str) -> Ended:
        """The same with the shell's redirections, as in `replies > FILE`."""
        environment = {**os.environ, "PYTHONPATH": str(PACKAGE), "BPFHOST": PROGRAM, "VERIFIER_LOG": "", **variables}
        call = ["bash", "-c", f"{shlex.quote(sys.executable)} -m bpfhost {words}"]
        ended = subprocess.run(call, input=given, capture_output=True, check=False, cwd=self.scratch, env=environment)
        return Ended(ended.stdout, without_notice(ended.stderr), ended.returncode)

    def writes(self, wanted: str, *words: str, given: bytes = b"") -> None:
        """The command writes this, and its status is 0."""
        ended = self.command(*words, given=given)
        self.assertEqual((ended.stdout.decode(), ended.stderr.decode(), ended.returncode), (wanted, "", 0))

    def refuses(self, status: int, wanted: str, *words: str, given: bytes = b"", **variables: str) -> None:
        """The command prints one sentence that has this in it, and nothing else."""
        self.is_refusal(self.command(*words, given=given, **variables), status, wanted)

    def is_refusal(self, ended: Ended, status: int, wanted: str) -> None:
        """What a command wrote is one sentence that has this in it, and nothing else."""
        told = ended.stderr.decode()
        self.assertIn(wanted, told)
        self.assertRegex(told, r"\Abpfhost: .*\n\Z")
        self.assertEqual((ended.stdout, ended.returncode), (b"", status), told)

    def example(self, *names: str) -> None:
        """Copies files of the example into the scratch folder."""
        for name in names:
            shutil.copy(EXAMPLE / name, self.scratch)


def _bytes_of(stream: io.TextIOWrapper) -> bytes:
    """What was written to a stream in bytes."""
    assert isinstance(stream.buffer, io.BytesIO)
    return stream.buffer.getvalue()


class Process(CommandTest):
    """`python3 -m bpfhost` in a process of its own: its streams and its status are as in the other tests."""

    def test_a_text_and_what_is_wrong_with_one(self) -> None:
        self.assertEqual(self.process("asm", given=b"r0 = 1\nexit\n"), Ended(hex_lines(ONE).encode(), b"", 0))
        self.is_refusal(self.process("asm", given=b"r0 =+ 1\n"), 1, "standard input:1: r0 =+ 1: it is none of the forms")
        self.is_refusal(self.process("walk"), 2, "invalid choice: 'walk'")
        self.is_refusal(self.process("asm", "--bpfhost", "/nowhere"), 3, "/nowhere does not start: No such file or directory")

    @needs_packages
    def test_a_run(self) -> None:
        self.example("counter.o", "sample.pcap")
        words = ("run", "counter.o", "sample.pcap", "--limit", "10")
        alone, here = (TIME.sub(b"", ended.stdout) for ended in (self.process(*words), self.command(*words)))
        self.assertTrue(here.startswith(b"keep_first_bytes of counter.o on sample.pcap\npackets"), here)
        self.assertEqual(alone, here)

    def test_it_is_interrupted(self) -> None:
        """A host that never replies, and then the signal that Ctrl-C sends."""
        waits = self.pretender("open('begun', 'w'); time.sleep(1000)")
        environment = {**os.environ, "PYTHONPATH": str(PACKAGE)}
        call = [sys.executable, "-m", "bpfhost", "asm", "--bpfhost", waits]
        pipe = subprocess.PIPE
        with subprocess.Popen(call, stdin=pipe, stdout=pipe, stderr=pipe, cwd=self.scratch, env=environment) as process:
            assert process.stdin is not None
            process.stdin.close()
            process.stdin = None
            while not (self.scratch / "begun").exists():
                time.sleep(0.01)
            process.send_signal(signal.SIGINT)
            written, told = process.communicate()
        self.assertEqual((written, told, process.returncode), (b"", b"bpfhost: interrupted\n", 130))


class Words(CommandTest):
    def test_wrong_words(self) -> None:
        wrong = {
            (): "the following arguments are required: WORD",
            ("walk",): "invalid choice: 'walk'",
            ("run",): "the following arguments are required: OBJECT",
            ("run", "a"): "the following arguments are required: CAPTURE or --interface IF",
            ("run", "a", "b", "--interface", "lo"): "the following arguments are required: CAPTURE or --interface IF",
            ("run", "a", "b", "--every", "soon"): "invalid time, as 1s or 500ms",
            ("run", "a", "b", "--set", "limit"): "invalid NAME=VALUE",
            ("run", "a", "b", "--time", "len"): "invalid choice: 'len'",
            ("run", "a", "b", "--tenants", "65"): "invalid number from 1 to 64",
            ("run", "a", "b", "--tenants", "0"): "invalid number from 1 to 64",
            ("run", "a", "b", "--limit", "-1"): "invalid number of at least 0",
            ("run", "a", "b", "--limit", "ten"): "invalid number of at least 0",
            ("run", "a", "b", "c"): "unrecognized arguments: c",
            ("run", "a", "--json", "b", "--limit", "1", "c"): "unrecognized arguments: c",
            ("run", "a", "b", "--csv"): "argument --csv: expected one argument",
            ("check",): "the following arguments are required: OBJECT",
            ("test-run", "0"): "the following arguments are required: DESCRIPTOR",
            ("test-run", "0", "3", "abc"): "invalid bytes in hexadecimal digits",
        }
        for words, told in wrong.items():
            self.refuses(2, told, *words)

    def test_help(self) -> None:
        ended = self.command("--help")
        self.assertEqual(ended.returncode, 0)
        for word in ("run", "check", "asm", "dis", "replies", "load", "test-run"):
            self.assertIn(word, ended.stdout.decode())

    def test_the_first_example_of_help_is_a_filter(self) -> None:
        for words in ((), ("run",), ("check",), ("dis",), ("build",)):
            described = self.command(*words, "--help").stdout.decode().partition("\n\n")[2]
            example = next(line for line in described.splitlines() if line.strip().startswith("python3 -m bpfhost "))
            self.assertIn(f"{' '.join(words)} --filter 'tcp port 443'", example)


class Texts(CommandTest):
    def test_asm(self) -> None:
        self.writes(hex_lines(ONE), "asm", given=b"r0 = 1\nexit\n")
        (self.scratch / "program.txt").write_text("r0 = 1\nexit\n")
        self.writes(hex_lines(ONE), "asm", "program.txt")

    def test_asm_tells_the_line(self) -> None:
        faults = {
            b"r0 = 0\nr0 =+ 1\nexit\n": "standard input:2: r0 =+ 1: it is none of the forms",
            b"r0 = 4294967296\n": "standard input:1: r0 = 4294967296: a number is out of its range",
            b"goto there\nexit\n": "standard input:1: goto there: its jump names a label that no line defines",
            b"a:\na:\nexit\n": "standard input:2: a:: it defines a label that an earlier line defines",
            b"": "standard input: there is no instruction",
            b"exit\nr0 = 1 // \xc3\xa9\n": "standard input:2: a byte that is not ASCII",
        }
        for text, told in faults.items():
            self.refuses(1, told, "asm", given=text)
        self.refuses(1, "nothing: No such file or directory", "asm", "nothing")

    def test_dis(self) -> None:
        self.writes("r0 = *(u32 *)(r1 + 0)\nexit\n", "dis", given=hex_lines(LENGTH).encode())

    def test_dis_tells_what_is_wrong(self) -> None:
        self.refuses(1, "standard input:2: a slot is sixteen hexadecimal digits", "dis", given=b"9500000000000000\n95\n")
        self.refuses(1, "standard input: slot 1: no instruction begins with this byte", "dis", given=b"b700000001000000\nff00000000000000\n")
        self.refuses(1, "standard input: there is no instruction", "dis", given=b"")
        self.refuses(1, "standard input: input too long", "dis", given=b"9500000000000000\n" * 70_000)

    def test_the_program_is_not_there(self) -> None:
        self.refuses(3, "/nowhere does not start: No such file or directory", "asm", "--bpfhost", "/nowhere")
        self.refuses(3, "there is no program bpfhost", "asm", BPFHOST="", PATH="") if not self.is_built() else None
        other = self.pretender("print('what was', read())")
        self.refuses(3, f"{other} asm does not write hex lines: it is not bpfhost", "asm", "--bpfhost", other)

    def is_built(self) -> bool:
        """Whether the clone that has this package has a built program."""
        return (PACKAGE.parents[1] / "crates/bpfhost/out/bpfhost").exists()


class Frames(CommandTest):
    def test_frames_and_replies(self) -> None:
        load = self.command("load", "0", given=hex_lines(ONE).encode()).stdout
        run = self.command("test-run", "0", "3", "abcd").stdout
        self.assertEqual(load, bytes.fromhex("18000000 0000 0500 01000000") + ONE)
        self.assertEqual(run, bytes.fromhex("32000000 0000 0a00 03000000") + bytes(40) + b"\xab\xcd")
        replies = bytes.fromhex("08000000 0000 0500 03000000 0c000000 0000 0a00 00000000 01000000")
        self.writes("tenant 0, PROG_LOAD: descriptor 3\ntenant 0, PROG_TEST_RUN: result 1\n", "replies", given=replies)

    def test_what_is_wrong(self) -> None:
        self.refuses(1, "the bytes from 0 on are not a whole reply", "replies", given=b"abc")
        for given in (b"abc", b"\xff" * 16, b"9500000000000000\xff"):
            self.refuses(1, "standard input:1: a slot is", "load", "0", given=given)
        self.refuses(1, "the tenant is 65536", "test-run", "65536", "3")

    def test_there_is_no_room(self) -> None:
        ended = self.shell("replies > /dev/full", bytes.fromhex("08000000 0000 0500 03000000"))
        self.is_refusal(ended, 1, "standard input or output: No space left on device")

    def test_nobody_reads(self) -> None:
        ended = self.shell("replies | head -n 1", bytes.fromhex("08000000 0000 0500 03000000") * 100_000)
        self.assertEqual(ended.stderr, b"bpfhost: the reader of the output has ended\n")


@needs_packages
class Check(CommandTest):
    def test_accepted(self) -> None:
        self.example("flows.o")
        self.assertIn("keep_flows in section socket is accepted\n", self.command("check", "flows.o").stdout.decode())

    def test_refused_points_at_the_source(self) -> None:
        self.example("refused.o")
        ended = self.command("check", "refused.o")
        line = next(at for at, text in enumerate((EXAMPLE / "refused.c").read_text().splitlines(), 1) if "return table" in text)
        told = f"keep_class in section socket is refused: refused.c:{line}: return table[class]; ("
        self.assertTrue(ended.stdout.decode().startswith(told), ended.stdout)
        self.assertIn("outside a map's value, reason 29", ended.stdout.decode())
        self.assertEqual(ended.returncode, 1)

    def test_a_log_is_shown_where_it_can_be_had(self) -> None:
        self.example("refused.o")
        log = self.pretender("print('the log of', sys.argv[1]); sys.exit(1)")
        (self.scratch / "sample").write_bytes(pcap())
        checked = self.command("check", "refused.o", VERIFIER_LOG=log)
        self.assertRegex(checked.stdout.decode(), r"reason 29\); compare the index before.*\nthe log of 3:array:4:64:1\n\Z")
        ran = self.command("run", "refused.o", "sample", VERIFIER_LOG=log)
        self.assertRegex(ran.stderr.decode(), r"reason 29\); compare the index before.*\nthe log of 3:array:4:64:1\n\Z")
        self.assertEqual((checked.returncode, ran.returncode), (1, 1))

    def test_a_verdict_is_told_where_its_log_can_not_be_had(self) -> None:
        self.example("refused.o", "sample.pcap")
        log = self.pretender("print('out of memory', file=sys.stderr); sys.exit(4)")
        told = r"reason 29\); .*\nthere is no log: verifier_log ended with status 4: out of memory\n\Z"
        self.assertRegex(self.command("check", "refused.o", VERIFIER_LOG=log).stdout.decode(), told)
        self.assertRegex(self.command("run", "refused.o", "sample.pcap", VERIFIER_LOG=log).stderr.decode(), told)

    def test_dis_of_an_object_has_its_source(self) -> None:
        self.example("refused.o")
        text = self.command("dis", "refused.o").stdout.decode()
        self.assertTrue(text.startswith("// keep_class, section socket\n// refused.c:"), text)
        self.assertIn("return table[class];\n", text)
        self.refuses(1, "an object can't be read from standard input", "dis", given=(EXAMPLE / "refused.o").read_bytes())
        self.is_refusal(self.shell("dis <(cat refused.o)"), 1, "an object can't be read from a pipe: name a regular file")


@needs_packages
class Run(CommandTest):
    def setUp(self) -> None:
        super().setUp()
        self.example("flows.o", "counter.o", "refused.o", "sample.pcap")

    def test_tables(self) -> None:
        ended = self.command("run", "counter.o", "sample.pcap", "--limit", "10")
        lines = ended.stdout.decode().splitlines()
        self.assertEqual(lines[0], "keep_first_bytes of counter.o on sample.pcap")
        self.assertRegex(lines[1], r"\Apackets +10\Z")
        self.assertRegex(lines[4], r"\Atime a packet: \d+\.\d\d us\Z")
        self.assertEqual((ended.stderr, ended.returncode), (b"", 0))

    def test_json(self) -> None:
        (self.scratch / "capture").write_bytes(pcap([record for record in RECORDS if record[0]]))
        report = json.loads(self.command("run", "counter.o", "capture", "--json", "--tenants", "2").stdout)
        self.assertGreater(report.pop("microseconds_per_packet"), 0)
        maps = report.pop("maps")
        self.assertEqual(
            report,
            {
                "object": "counter.o",
                "section": "socket",
                "program": "keep_first_bytes",
                "capture": "capture",
                "link_types": [1],
                "tenants": 2,
                "packets": 2,
                "accepted": 2,
                "bytes_kept": 5 + 64,
                "results": {"5": 1, "64": 1},
                "short": 1,
                "long": 0,
                "skipped": 0,
                "fault": None,
                "signal": None,
            },
        )
        self.assertEqual(maps[".bss"]["entries"], [{"key": 0, "value": {"packets": 2, "bytes": 1505, "longest": 1500}}])
        self.assertEqual(maps[".rodata"]["entries"], [{"key": 0, "value": {"kept": 64}}])

    def test_packets_that_are_kept(self) -> None:
        (self.scratch / "capture").write_bytes(pcap())
        self.assertEqual(self.command("run", "counter.o", "capture", "--short", "as-is", "--accepted", "kept").returncode, 0)
        kept = [(packet[:64], stamp) for packet, stamp in RECORDS if packet]
        self.assertEqual((self.scratch / "kept").read_bytes(), pcap(kept))

    def test_a_capture_is_not_written_over(self) -> None:
        before = (self.scratch / "sample.pcap").read_bytes()
        os.symlink("sample.pcap", self.scratch / "the_same")
        self.refuses(1, "can't be written over the capture", "run", "counter.o", "sample.pcap", "--accepted", "the_same")
        self.is_refusal(self.shell("run counter.o - --accepted sample.pcap < sample.pcap"), 1, "can't be written over the capture")
        self.assertEqual((self.scratch / "sample.pcap").read_bytes(), before)

    def test_an_object_is_not_written_over(self) -> None:
        self.refuses(1, "can't be written over the object", "run", "counter.o", "sample.pcap", "--accepted", "counter.o")
        self.assertEqual((self.scratch / "counter.o").read_bytes(), (EXAMPLE / "counter.o").read_bytes())

    def test_progress_is_shown_on_a_terminal_alone(self) -> None:
        words = ("run", "counter.o", "sample.pcap", "--limit", "10", "--json")
        self.assertEqual(self.process(*words).stderr, b"")
        environment = {**os.environ, "PYTHONPATH": str(PACKAGE), "BPFHOST": PROGRAM, "TERM": "xterm", "COLUMNS": "80"}
        ours, theirs = pty.openpty()
        try:
            call = [sys.executable, "-m", "bpfhost", *words]
            ended = subprocess.run(call, stdout=subprocess.PIPE, stderr=theirs, check=True, cwd=self.scratch, env=environment)
            shown = os.read(ours, 65_536).decode()
        finally:
            os.close(ours)
            os.close(theirs)
        self.assertEqual(json.loads(ended.stdout)["packets"], 10)
        # A bar, and how much of the file is read: its size is 33,302 bytes.
        self.assertRegex(shown, r"\u2501+.*33\.3/33\.3 kB")

    def test_a_capture_of_standard_input(self) -> None:
        ended = self.process("run", "counter.o", "-", "--json", given=pcap(RECORDS[:1]))
        self.assertEqual((json.loads(ended.stdout)["results"], ended.stderr, ended.returncode), ({"5": 1}, b"", 0))

    def test_a_capture_that_goes_on(self) -> None:
        """A caller that takes two packets gets their results, though the third packet never comes."""
        os.mkfifo(self.scratch / "pipe")
        call = [sys.executable, "-m", "bpfhost", "run", "counter.o", "pipe", "--json", "--limit", "2"]
        environment = {**os.environ, "PYTHONPATH": str(PACKAGE), "BPFHOST": PROGRAM}
        quiet = subprocess.DEVNULL
        with subprocess.Popen(call, stdout=subprocess.PIPE, stderr=quiet, cwd=self.scratch, env=environment) as process:
            with open(self.scratch / "pipe", "wb") as pipe:
                pipe.write(pcapng(RECORDS) + b"\0")
                pipe.flush()
                assert process.stdout is not None
                self.assertEqual(json.load(process.stdout)["packets"], 2)

    def test_sections(self) -> None:
        for named in ("socket", "keep_first_bytes"):
            self.assertEqual(self.command("run", "counter.o", "sample.pcap", "--section", named).returncode, 0)
        told = "counter.o: xdp names not one program, of keep_first_bytes in section socket"
        self.refuses(1, told, "run", "counter.o", "sample.pcap", "--section", "xdp")

    def test_options_between_files(self) -> None:
        wanted = self.command("run", "counter.o", "sample.pcap", "--section", "socket", "--csv", ".bss").stdout
        for words in (("counter.o", "--section", "socket", "sample.pcap", "--csv", ".bss"), ("--csv", ".bss", "counter.o", "--section=socket", "sample.pcap")):
            self.assertEqual(self.command("run", *words).stdout, wanted)

    def test_a_refused_filter(self) -> None:
        self.refuses(1, "return table[class]; (slot", "run", "refused.o", "sample.pcap")

    def test_other_link_types_are_told(self) -> None:
        (self.scratch / "capture").write_bytes(pcap(RECORDS[:1], link_type=RAW_IP))
        ended = self.command("run", "counter.o", "capture")
        told = "bpfhost: capture: its packets of link type 101 (RAW) are passed to the filter as they are\n"
        self.assertEqual((ended.stderr.decode(), ended.returncode), (told, 0))

    def test_a_capture_that_is_cut_off(self) -> None:
        (self.scratch / "capture").write_bytes(pcapng()[:-1])
        ended = self.command("run", "counter.o", "capture", "--limit", "2")
        self.assertEqual(ended.returncode, 0)
        ended = self.command("run", "counter.o", "capture", "--short", "as-is")
        told = b"bpfhost: capture: 1 packet is cut short in it: skb->len is the captured length\n"
        self.assertEqual(ended.stderr, told + b"bpfhost: capture: it is cut off in the block of packet 3, or before it\n")
        self.assertRegex(ended.stdout.decode().splitlines()[1], r"\Apackets +2\Z")
        self.assertEqual(ended.returncode, 1)

    def test_inputs_that_are_wrong(self) -> None:
        (self.scratch / "cut.o").write_bytes((self.scratch / "flows.o").read_bytes()[:3000])
        self.refuses(1, "nothing.o", "run", "nothing.o", "sample.pcap")
        self.refuses(1, "cut.o", "run", "cut.o", "sample.pcap")
        self.refuses(1, "sample.pcap", "run", "sample.pcap", "sample.pcap")
        self.refuses(1, "flows.o: it is neither a pcap nor a pcapng file", "run", "counter.o", "flows.o")
        self.refuses(1, "nothing: No such file or directory", "run", "counter.o", "nothing")
        self.refuses(1, "nowhere/kept: No such file", "run", "counter.o", "sample.pcap", "--accepted", "nowhere/kept")

    def test_a_host_that_ends(self) -> None:
        program = self.pretender("read(28); print('out of memory', file=sys.stderr); sys.exit(4)")
        self.refuses(3, "ended with status 4: out of memory", "run", "counter.o", "sample.pcap", "--bpfhost", program)

    def test_a_package_that_is_missing(self) -> None:
        for module, package in MODULES.items():
            (self.scratch / module).mkdir()
            (self.scratch / module / "__init__.py").write_text(f"raise ModuleNotFoundError('no {module}', name='{module}')\n")
            path = f"{self.scratch}:{PACKAGE}"
            ended = self.process("run", "counter.o", "sample.pcap", PYTHONPATH=path)
            self.is_refusal(ended, 3, f"the Python package {module} is missing: apt-get install {package}")
            with mock.patch("bpfhost.errors._DEBIANS_PYTHON", Path("/bin/true")), mock.patch("bpfhost.errors._DEBIANS_PACKAGES", self.scratch):
                told = f"the Python package {module} is missing for {sys.executable}, and /bin/true has it: use that one"
                self.assertEqual(str(MissingPackage(module, package)), told)
                told = f"the Python package other is missing: apt-get install {package}, which /bin/true sees, and {sys.executable} does not"
                self.assertEqual(str(MissingPackage("other", package)), told)
            shutil.rmtree(self.scratch / module)
