"""The translation in C of examples/expression: the same cases as the client's, each result compared with libpcap's `bpf_filter`."""

from __future__ import annotations

import os
import random
import shutil
import subprocess
import tempfile
import unittest
from pathlib import Path

from bpfhost import Host, Packets, ProgramRefused
from bpfhost.classic import ClassicError, ClassicProgram, ExpressionError
from bpfhost.program import slots_of
from tests.classic.common import EXAMPLES, MANY, BpfFilter, needs_libpcap, on_host
from tests.classic.generator import Generator
from tests.classic.test_expressions import EXPRESSIONS, HOSTS
from tests.classic.traffic import ethernet
from tests.common import PROGRAM, HostTest

CC = shutil.which(os.environ.get("CC", "cc"))
HAS_HEADERS = any(Path(folder, "pcap/pcap.h").exists() for folder in ("/usr/include", "/usr/local/include"))
WARNINGS = ["-Wall", "-Wextra", "-Wpedantic", "-Wconversion", "-Werror"]


@needs_libpcap
@unittest.skipUnless(CC and HAS_HEADERS, "a C compiler or libpcap0.8-dev is missing")
class InC(HostTest):
    folder: tempfile.TemporaryDirectory[str]

    @classmethod
    def setUpClass(cls) -> None:
        super().setUpClass()
        cls.folder = tempfile.TemporaryDirectory()
        cls.addClassCleanup(cls.folder.cleanup)
        source = str(EXAMPLES / "expression/expression.c")
        words = ["-std=c11", "-D_DEFAULT_SOURCE", "-O1", *WARNINGS, source, "-l:libpcap.so.0.8", "-o", f"{cls.folder.name}/expression"]
        subprocess.run([CC or "cc", *words], check=True)

    def setUp(self) -> None:
        super().setUp()
        host = Host(PROGRAM)
        self.addCleanup(host.close)
        self.tenant = host.tenant()

    def call(self, *words: str, given: str = "") -> subprocess.CompletedProcess[str]:
        call = [f"{self.folder.name}/expression", *words]
        return subprocess.run(call, input=given, capture_output=True, text=True, check=False)

    def same(self, program: ClassicProgram, lines: str, packets: list[bytes]) -> None:
        """The slots of these lines have libpcap's result on each packet."""
        reference = BpfFilter(program.instructions)
        found = on_host(self.tenant, slots_of(lines), Packets.of(packets, 0))
        self.assertEqual(found, [reference.run(packet) for packet in packets], program.name)

    def test_expressions(self) -> None:
        for at, expression in enumerate([*EXPRESSIONS, HOSTS]):
            try:
                program = ClassicProgram.of_expression(expression)
            except (ClassicError, ExpressionError):
                continue
            ended = self.call("EN10MB", expression)
            self.assertEqual((ended.stderr, ended.returncode), ("", 0))
            self.same(program, ended.stdout, ethernet()[at % 12 :: 12])

    def test_random_programs(self) -> None:
        draw = Generator("C")
        packets = [draw.packet() for _ in range(60)]
        for _ in range(60 * MANY):
            program = ClassicProgram(tuple(draw.program()))
            ended = self.call("-", given=program.decimals())
            if any(each.code in (0x20, 0x28, 0x30, 0xB1) and each.k >= 0xFFE00000 for each in program.instructions) and ended.returncode:
                continue
            self.assertEqual((ended.stderr, ended.returncode), ("", 0), program.listing())
            self.same(program, ended.stdout, packets)

    def test_what_is_wrong(self) -> None:
        wrong = {
            ("EN10MB", "tcp port"): "expression: can't parse filter expression: syntax error\n",
            ("ETHER", "ip"): "expression: ETHER is no link type\n",
            ("EN10MB", "ip6 protochain 6"): "expression: instruction 18: a jump backward or out of the program, or no jump has this code\n",
            ("EN10MB", "inbound"): "expression: instruction 0: a load of what is no byte of the packet: python3 -m bpfhost has the words of "
            "the context for some\n",
        }
        for words, told in wrong.items():
            ended = self.call(*words)
            self.assertEqual((ended.stdout, ended.stderr, ended.returncode), ("", told, 1))
        texts = {
            "": "instruction 0: standard input has no count from 1 to 4,096",
            "4097\n" + "6 0 0 0\n" * 4097: "instruction 0: standard input has no count from 1 to 4,096",
            "2\n6 0 0 0\n": "instruction 1: standard input has not its code, jt, jf and k",
            "1\n48 0 0 0\n": "instruction 0: the last instruction is no return",
            "1\n21 0 0 0\n": "instruction 0: a jump backward or out of the program, or no jump has this code",
            "2\n52 0 0 0\n6 0 0 0\n": "instruction 0: no operator has this code, or it divides by 0, or shifts by more than 31 bits",
            "2\n96 0 0 16\n6 0 0 0\n": "instruction 0: scratch memory has 16 words",
        }
        for text, told in texts.items():
            ended = self.call("-", given=text)
            self.assertEqual((ended.stdout, ended.stderr, ended.returncode), ("", f"expression: {told}\n", 1))

    def test_no_text_breaks_it(self) -> None:
        """Programs that the checks may refuse, read by a build with sanitizers."""
        checked = f"{self.folder.name}/checked"
        words = ["-std=c11", "-D_DEFAULT_SOURCE", "-O1", "-fsanitize=address,undefined", "-fno-sanitize-recover=all"]
        built = subprocess.run(
            [CC or "cc", *words, str(EXAMPLES / "expression/expression.c"), "-l:libpcap.so.0.8", "-o", checked], capture_output=True, check=False
        )
        if built.returncode:
            self.skipTest("the compiler has no sanitizers")
        draw, numbers = Generator("damaged C"), random.Random(7)
        for _ in range(40 * MANY):
            program = draw.any_program()
            text = "\n".join([str(len(program)), *(" ".join(map(str, each)) for each in program)])
            given = text[: numbers.randrange(len(text) + 1)] if numbers.random() < 0.3 else text
            ended = subprocess.run([checked, "-"], input=given, capture_output=True, text=True, check=False)
            self.assertIn(ended.returncode, (0, 1), (given, ended.stderr))

    def test_the_host_refuses_what_is_read_unstored(self) -> None:
        """libpcap makes such programs; the translation in C leaves them to the verifier."""
        for words in (("IEEE802_11_RADIO", "pppoes"), ("IEEE802_11", "geneve")):
            with self.assertRaises(ProgramRefused) as raised:
                self.tenant.prog_load(slots_of(self.call(*words).stdout))
            self.assertEqual(raised.exception.reason, 27)
