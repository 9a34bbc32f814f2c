"""tests/conformance reads slots and lines as docs/INSTRUCTIONS.md says, and assigns each difference to its rule."""

from __future__ import annotations

import re
import struct
import sys
import unittest
from pathlib import Path

TOP = Path(__file__).resolve().parents[2]
sys.path[:0] = [str(TOP / "tests"), str(TOP / "clients/python")]
from atomics import OPERATIONS
from bpfhost.helpers import HELPERS
from bpfhost.replies import Reply
from bpfhost.slots import ATOMIC_OPERATIONS
from conformance.cases import keys_of_slots, text_lines
from conformance.instructions import ATOMICS, BY_KEY, INSTRUCTIONS, Key, key_of, key_of_text
from conformance.kernel import Tally, difference, reason_in_log, with_descriptors
from conformance.played import bytes_of, program_text
from conformance.rules import rule_of

LINES = {
    "r0 += r10": "0fa0000000000000", "w1 s/= 2": "3401010002000000", "r1 = (s32)r2": "bf21200000000000", "w1 = -w1": "8401000000000000",
    "r0 = be16 r0": "dc00000010000000", "goto -1": "0500ffff00000000", "gotol +1": "0600000001000000", "call 26": "850000001a000000",
    "if w1 s< -1 goto -2": "c601feffffffffff", "if r5 == r6 goto +0": "1d65000000000000", "r1 = *(s16 *)(r10 - 2)": "89a1feff00000000",
    "*(u8 *)(r10 - 4) = 5": "720afcff05000000", "*(u32 *)(r6 + 0) = r1": "6316000000000000", "lock *(u64 *)(r10 - 8) ^= r1": "db1af8ffa0000000",
    "r2 = 5 ll": "1802000005000000", "r1 = map_fd 3 ll": "1811000003000000", "r1 = map_value 3 + 4 ll": "1821000003000000", "exit": "9500000000000000",
}


class Instructions(unittest.TestCase):
    def test_lines_and_slots_are_one(self) -> None:
        for line, slot in LINES.items():
            self.assertEqual(key_of_text(line), key_of(bytes.fromhex(slot)), line)
            self.assertIn(key_of_text(line), BY_KEY)

    def test_no_instruction(self) -> None:
        self.assertIsNone(key_of_text("there:"))
        self.assertNotIn(key_of(bytes.fromhex("df00000010000000")), BY_KEY)

    def test_opcodes(self) -> None:
        self.assertEqual(len({each.key.opcode for each in INSTRUCTIONS if each.is_here}), 119)

    def test_atomic_operations(self) -> None:
        """The tables of the tests and of the client have the operations of the crate."""
        rows = re.findall(r'\(AtomicOp::\w+, (0x\w+), "(.*)"\)', (TOP / "crates/insn_set/src/atomic.rt").read_text())
        operations = {int(number, 16): sign for number, sign in rows}
        self.assertEqual(ATOMICS, operations)
        self.assertEqual({each.number: each.sign for each in OPERATIONS}, operations)
        self.assertEqual(set(ATOMIC_OPERATIONS), set(operations))

    def test_helpers(self) -> None:
        """The client, the header for filters in C and the verifier's log have the helpers of the crate."""
        helpers = [int(number) for number in re.findall(r"Helper::\w+ => (\d+),", (TOP / "crates/tagged_model/src/helper.rt").read_text())]
        self.assertEqual(list(HELPERS), helpers)
        declared = re.findall(r"= BPFHOST_HELPER\((\d+), ", (TOP / "clients/c/include/bpfhost/filter.h").read_text())
        self.assertEqual([int(number) for number in declared], helpers)
        listed = re.search(r"there is no helper \{id\}, and those are (.*) and (\d+)", (TOP / "crates/log_reasons/src/needs/shape.rt").read_text())
        self.assertIsNotNone(listed)
        self.assertEqual([int(number) for number in listed[1].split(", ") + [listed[2]]] if listed else [], helpers)

    def test_cases(self) -> None:
        self.assertEqual(keys_of_slots("1811000003000000 0000000000000000 {4*9500000000000000}"), {Key(0x18, 1), Key(0x95)})
        self.assertEqual(text_lines("exit;{40*r1 = 2;}exit"), ["exit", "r1 = 2", "exit"])


class Played(unittest.TestCase):
    def test_lines(self) -> None:
        self.assertEqual(bytes_of("{3*01} ff"), b"\1\1\1\xff")
        self.assertEqual(program_text("{2*r# = 1;} exit"), "r0 = 1\nr1 = 1\n exit\n")

    def test_descriptors(self) -> None:
        slots = bytes.fromhex("1811000003000000" "0000000000000000" "9500000000000000")
        self.assertEqual(struct.unpack_from("<I", with_descriptors(slots, {3: 77}), 4)[0], 77)


class Differences(unittest.TestCase):
    def test_the_same(self) -> None:
        self.assertIsNone(difference(Reply(0, 10, 0, b"\1\0\0\0"), 0, b"\1\0\0\0", "", None))
        self.assertIsNone(difference(Reply(0, 3, -2), -2, b"", "", None))

    def test_each_way_of_differing(self) -> None:
        refused = Reply(0, 5, -22, struct.pack("<IH", 0, 4))
        self.assertEqual(difference(refused, 0, b"", "", None), "refused by the host alone, reason 4: no path leads to the instruction")
        self.assertEqual(difference(Reply(0, 5, 3), -13, b"", "0: (95) exit\ninvalid shift 64\nprocessed 1 insns", None), "refused by the kernel alone: invalid shift N")
        self.assertEqual(difference(Reply(0, 10, 0, b"\1\0\0\0"), 0, b"\2\0\0\0", "", None), "another value")

    def test_what_has_no_rule(self) -> None:
        tally = Tally()
        tally.add("PROG_TEST_RUN", "another value", "a case")
        tally.add("verdicts", "refused by the host alone, reason 4: no path leads to the instruction", "a case")
        self.assertEqual((len(tally.unsorted), tally.compared.total(), tally.same.total()), (1, 2, 0))
        self.assertEqual(list(tally.different), [rule_of("verdicts: reason 4: ")])

    def test_the_kernel_s_sentence(self) -> None:
        self.assertEqual(reason_in_log("0: R1=ctx()\n1: (95) exit\nR0 !read_ok\nprocessed 1 insns"), "RN !read_ok")


if __name__ == "__main__":
    unittest.main()
