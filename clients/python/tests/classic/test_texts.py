"""Classic programs as texts: read, shown as tcpdump shows them, and refused if they are damaged."""

from __future__ import annotations

import ctypes
import shutil
import subprocess
import unittest

from bpfhost.classic import ClassicError, ClassicProgram, ExpressionError, Instruction, libpcap, link_type_number
from bpfhost.classic.instructions import FORMS
from bpfhost.classic.listing import shown
from tests.classic.common import needs_libpcap, packed
from tests.classic.generator import Generator
from tests.common import TimedTest

# `ip` for Ethernet, by hand from linux/bpf_common.h.
IP = [(0x28, 0, 0, 12), (0x15, 0, 1, 0x0800), (0x06, 0, 0, 262_144), (0x06, 0, 0, 0)]
LISTING = "(000) ldh      [12]\n(001) jeq      #0x800           jt 2\tjf 3\n(002) ret      #262144\n(003) ret      #0\n"
ELEMENTS = "{ 0x28, 0, 0, 0x0000000c },\n{ 0x15, 0, 1, 0x00000800 },\n{ 0x6, 0, 0, 0x00040000 },\n{ 0x6, 0, 0, 0x00000000 },\n"
DECIMALS = "4\n40 0 0 12\n21 0 1 2048\n6 0 0 262144\n6 0 0 0\n"
BYTECODE = "4,40 0 0 12,21 0 1 2048,6 0 0 262144,6 0 0 0\n"


class Texts(TimedTest):
    def test_four_forms(self) -> None:
        program = ClassicProgram.of(IP)
        self.assertEqual(program.listing(), LISTING)
        self.assertEqual((program.elements(), program.decimals(), program.bytecode()), (ELEMENTS, DECIMALS, BYTECODE))

    def test_each_form_is_read(self) -> None:
        other_forms = (BYTECODE[:-1] + ",", ELEMENTS.replace("\n", " "), "\n" + DECIMALS + "\n\n", DECIMALS.replace("\n", "\r\n"))
        for text in (ELEMENTS, DECIMALS, BYTECODE, *other_forms):
            self.assertEqual(ClassicProgram.of_text(text).instructions, ClassicProgram.of(IP).instructions, text)

    def test_random_programs_come_back(self) -> None:
        draw = Generator("texts")
        for _ in range(50):
            program = ClassicProgram(tuple(draw.program()))
            for text in (program.elements(), program.decimals(), program.bytecode()):
                self.assertEqual(ClassicProgram.of_text(text).instructions, program.instructions)

    def test_damaged_texts(self) -> None:
        told = {
            "": "a: there is no classic program",
            "four\n": "a: four is no count of instructions, as tcpdump -ddd and iptables begin with one: the texts of tcpdump -dd and -ddd, "
            "and bytecode of iptables and bpf_asm can be read",
            "2\n6 0 0 0\n": "a: 2 instructions are announced, and there are 1",
            "1\n6 0 0\n": "a:2: 6 0 0 is no code, jt, jf and k, four decimal numbers",
            "1\n6 0 0 0x0\n": "a:2: 6 0 0 0x0 is no code, jt, jf and k, four decimal numbers",
            "1\n6 0 0 -1\n": "a:2: 6 0 0 -1 is no code, jt, jf and k, four decimal numbers",
            "1\n65536 0 0 0\n": "a:2: the code is 65536, and 65535 is the most",
            "1\n6 256 0 0\n": "a:2: jt is 256, and 255 is the most",
            "1\n6 0 256 0\n": "a:2: jf is 256, and 255 is the most",
            "1\n6 0 0 4294967296\n": "a:2: k is 4294967296, and 4294967295 is the most",
            "2,6 0 0 0,,": "a: part 3: nothing is no code, jt, jf and k, four decimal numbers",
            "1,6 0 0 0 0": "a: part 2: 6 0 0 0 0 is no code, jt, jf and k, four decimal numbers",
            "{ 0x6, 0, 0, 0x0 },\n{ 0x6, 0 },\n": "a:2: { 0x6, 0 }, is no element of tcpdump -dd, as { 0x28, 0, 0, 0x0000000c },",
            "{ 0x6, 0, 0, 0x0 } },": "a:1: { 0x6, 0, 0, 0x0 } }, is no element of tcpdump -dd, as { 0x28, 0, 0, 0x0000000c },",
            "{ 0x6, 0, 0, 0x100000000 },": "a:1: k is 4294967296, and 4294967295 is the most",
            "1\n\x1b[31m\n": "a:2: ?[31m is no code, jt, jf and k, four decimal numbers",
            "4097\n" + "6 0 0 0\n" * 4097: "a: it has 4,097 instructions, and 4,096 are the most",
            "{ 6, 0, 0, 0 }," * 4097: "a: it has 4,097 instructions, and 4,096 are the most",
        }
        for text, sentence in told.items():
            with self.assertRaises(ClassicError) as raised:
                ClassicProgram.of_text(text, "a")
            self.assertEqual(str(raised.exception), sentence)

    def test_what_has_not_four_numbers(self) -> None:
        self.assertRaises(ValueError, ClassicProgram.of, [(6, 0, 0)])
        self.assertRaises(ValueError, ClassicProgram.of, [(6, 0, 0, 0, 0)])

    @needs_libpcap
    def test_each_code_is_shown_as_libpcap_shows_it(self) -> None:
        image = libpcap.library().bpf_image
        image.restype, image.argtypes = ctypes.c_char_p, [ctypes.c_char_p, ctypes.c_int]
        # libpcap has no keyword for this one.
        for code in sorted(FORMS.keys() - {0x81} | {0x42}):
            for k in (0, 5, 2**31, 2**32 - 16):
                instruction = Instruction(code, 1, 2, k)
                self.assertEqual(shown(7, instruction).rstrip(), image(packed([instruction]), 7).decode().rstrip())

    @needs_libpcap
    @unittest.skipUnless(shutil.which("tcpdump"), "tcpdump is missing")
    def test_beside_tcpdump(self) -> None:
        for expression in ("tcp port 443", "ip6 or len & 1 = 1", "ether[12:2] / 3 > 7 and ip[ip[0]] = 5"):
            program = ClassicProgram.of_expression(expression)
            for word, text in (("-d", program.listing()), ("-dd", program.elements()), ("-ddd", program.decimals())):
                call = ["tcpdump", "-y", "EN10MB", word, expression]
                self.assertEqual(subprocess.run(call, capture_output=True, text=True, check=True).stdout, text)


@needs_libpcap
class Compiled(TimedTest):
    def test_by_hand(self) -> None:
        self.assertEqual(ClassicProgram.of_expression("ip").instructions, tuple(Instruction(*each) for each in IP))

    def test_link_types(self) -> None:
        for name, number in (("EN10MB", 1), ("RAW", 101), ("LINUX_SLL", 113), ("NULL", 0), ("276", 276), ("IEEE802_11_RADIO", 127)):
            self.assertEqual(link_type_number(name), number)
        for wrong in ("", "ETHER", "-1", "65536", "\xe9"):
            self.assertRaises(ValueError, link_type_number, wrong)
        # A packet without a link header begins with that of IP.
        self.assertIn("ldb      [9]", ClassicProgram.of_expression("ip proto 6", 101).listing())

    def test_what_libpcap_refuses(self) -> None:
        told = {
            "tcp port": "can't parse filter expression: syntax error, behind 'tcp'",
            "tcp port 443 and and udp": "can't parse filter expression: syntax error, behind 'tcp port 443'",
            ")": "can't parse filter expression: syntax error, before anything that is an expression by itself",
            "ether host 10.0.0.1": "illegal link layer address",
            "tcp and type data": "802.11 link-layer types supported only on 802.11",
            "ip[0:3] = 1": "data size must be 1, 2, or 4",
        }
        for expression, sentence in told.items():
            with self.assertRaises(ExpressionError) as raised:
                ClassicProgram.of_expression(expression)
            self.assertIn(f"the expression '{expression}' is refused by libpcap: ", str(raised.exception))
            self.assertIn(sentence, str(raised.exception))
        for expression in ("ip\0", "a" * 65_537):
            self.assertRaisesRegex(ExpressionError, "no zero byte, and 65,536 characters at most", ClassicProgram.of_expression, expression)

    def test_what_is_no_program_of_the_kernel(self) -> None:
        told = "the expression 'ip6 protochain 6': instruction 18, ja 4: it jumps backward, as protochain does"
        self.assertRaisesRegex(ClassicError, told, ClassicProgram.of_expression, "ip6 protochain 6")
        told = r"instruction 17, ldx M\[0\]: M\[0\] is loaded, and not stored before on each path"
        self.assertRaisesRegex(ClassicError, told, ClassicProgram.of_expression, "pppoes", 127)
