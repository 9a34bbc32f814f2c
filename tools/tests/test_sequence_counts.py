"""The parts of programs by which bench/sequence_counts.py counts sequences."""

from __future__ import annotations

import struct
import sys
import unittest
from collections import Counter
from pathlib import Path

TOP = Path(__file__).resolve().parents[2]
sys.path.insert(0, str(TOP / "bench"))

from parts import (  # noqa: E402
    CALL, LDDW_MAP, LDDW_VALUE, LOAD_BYTES, R2_K, R3_ADD_K, R3_FRAME, R4_K, SECOND, ahead, begins, names, parts_of, table,
)
from sequence_counts import marked, neighbours  # noqa: E402

ADD64_K, MOV64, MOV64_K, JEQ64_K, JA, EXIT = 0x07, 0xBF, 0xB7, 0x15, 0x05, 0x95


def slots(*rows: tuple[int, int, int, int]) -> bytes:
    """Slots of opcode, registers, offset and immediate."""
    return b"".join(struct.pack("<BBhi", *row) for row in rows)


class Parts(unittest.TestCase):
    def test_a_form_that_no_sequence_has_is_no_part(self) -> None:
        code = slots((MOV64, 0x10, 0, 0), (MOV64, 0x10, 8, 0), (0xDC, 1, 0, 32), (0xDB, 0x12, 0, 1))
        self.assertEqual(parts_of(code), [MOV64, None, None, None])

    def test_wide_loads_are_told_apart(self) -> None:
        code = slots((0x18, 0x10, 0, 3), (0, 0, 0, 0), (0x18, 0x20, 0, 3), (0, 0, 0, 0), (0x18, 0, 0, 3), (0, 0, 0, 0))
        self.assertEqual(parts_of(code), [LDDW_MAP, SECOND, LDDW_VALUE, SECOND, None, SECOND])

    def test_a_load_of_bytes_and_its_arguments_are_told_apart(self) -> None:
        code = slots((MOV64, 0xA3, 0, 0), (ADD64_K, 3, 0, -8), (MOV64_K, 2, 0, 12), (MOV64_K, 4, 0, 2), (CALL, 0, 0, 26), (CALL, 0, 0, 1))
        self.assertEqual(parts_of(code), [R3_FRAME, R3_ADD_K, R2_K, R4_K, LOAD_BYTES, CALL])
        self.assertTrue(begins(parts_of(code), (MOV64, ADD64_K)))
        self.assertTrue(begins(parts_of(code), (R3_FRAME, R3_ADD_K, R2_K, R4_K, LOAD_BYTES)))
        self.assertFalse(begins(parts_of(code)[5:], (LOAD_BYTES,)))
        self.assertEqual(neighbours(code, 2)[MOV64_K, LOAD_BYTES], 1)

    def test_a_turn_leads_to_the_next_slot_and_to_its_target(self) -> None:
        code = slots((ADD64_K, 1, 0, 1), (JEQ64_K, 1, 2, 0), (JA, 0, 1, 0), (0x18, 0, 0, 3), (0, 0, 0, 0), (EXIT, 0, 0, 0))
        self.assertEqual([ahead(code, at, 1) for at in (0, 1, 2, 3, 5)], [[1], [2, 4], [4], [5], []])
        self.assertEqual(ahead(code, 0, 2), [2, 4])

    def test_the_table_of_the_crate_is_read(self) -> None:
        rows = table((TOP / "crates/insn_codec/src/sequences.rt").read_text())
        self.assertIn((MOV64, ADD64_K), rows)
        self.assertIn("MOV64, ADD64_K", map(names, rows))


class Counts(unittest.TestCase):
    def test_a_turn_takes_the_first_sequence_and_continues_after_it(self) -> None:
        code = slots((MOV64, 0x12, 0, 0), (ADD64_K, 2, 0, 4), (MOV64, 0x13, 0, 0), (EXIT, 0, 0, 0))
        self.assertEqual(marked([(MOV64, ADD64_K), (MOV64,)], code), {(MOV64, ADD64_K): 1, (MOV64,): 1, (): 1})

    def test_a_jump_ends_a_row_of_neighbours(self) -> None:
        code = slots((MOV64, 0x12, 0, 0), (JEQ64_K, 2, 0, 4), (MOV64, 0x13, 0, 0), (EXIT, 0, 0, 0))
        self.assertEqual(neighbours(code, 2), Counter({(MOV64, JEQ64_K): 1, (MOV64, EXIT): 1}))


if __name__ == "__main__":
    unittest.main()
