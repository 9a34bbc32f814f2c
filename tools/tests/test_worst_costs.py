"""The cases of bench/worst: their files, the streams that are made of them, and the edits of the search. It needs neither the library nor valgrind."""

from __future__ import annotations

import random
import struct
import sys
import unittest
from contextlib import redirect_stdout
from io import StringIO
from pathlib import Path
from unittest.mock import Mock, patch

TOP = Path(__file__).resolve().parents[2]
sys.path.insert(0, str(TOP / "bench"))
from programs import LOADED
from worst_costs.building import Builder, NoCase, packets_of, script, slots_of
from worst_costs.cases import FOLDER, KINDS, Case, all_cases, read, text_of
from worst_costs.compact import parts_of
from worst_costs.counting import Round, Times
from worst_costs.edits import edited
from worst_costs.starts import starts
from worst_costs.table import check, is_checked

LARGEST_FILE = 4000


def records_of(made: bytes) -> list[tuple[str, bytes]]:
    """The records of a script, after its seed."""
    found, at = [], 16
    while at < len(made):
        letter, length = made[at : at + 1].decode(), struct.unpack_from("<I", made, at + 4)[0]
        found.append((letter, made[at + 8 : at + 8 + length]))
        at += 8 + length
    return found


class Cases(unittest.TestCase):
    def test_each_file_is_small_and_has_one_form(self) -> None:
        for path in FOLDER.glob("*.json"):
            text = path.read_text()
            self.assertEqual(text, text_of(read(path)), path.name)
            self.assertLess(len(text), LARGEST_FILE, path.name)

    def test_each_kind_has_a_case_and_starts(self) -> None:
        kinds = {case.kind for case in all_cases().values()}
        self.assertEqual(kinds, set(KINDS))
        for kind in ("create", "close", "save part", "look-up"):
            self.assertTrue(starts(kind), kind)

    def test_each_case_ends_with_its_step(self) -> None:
        for name, case in all_cases().items():
            *before, (letter, step) = records_of(script(case))
            self.assertIn(letter, "FSBI", name)
            self.assertLessEqual({letter for letter, _ in before}, {"f", "r"}, name)
            self.assertGreaterEqual(case.kept, 1, name)
            self.assertEqual(case.kind == "batch", packets_of(case) > 1, name)

    def test_cases_without_the_seed_use_no_word_of_it(self) -> None:
        case = Case("look-up", "", [["create", 1, 16, 8, 4], ["fill", 3, "counting", 4]], ["look-up", 3, "counting", 1])
        self.assertFalse(case.knows_seed)
        self.assertTrue(Case("look-up", "", case.before, ["look-up", 3, "colliding", 1]).knows_seed)


class Streams(unittest.TestCase):
    def test_parts_are_the_programs_of_the_bench(self) -> None:
        for name in ("straight", "crossing, values", "growing stacks"):
            program = LOADED[name]()
            self.assertEqual(slots_of(parts_of(program)), b"".join(program.slots), name)

    def test_a_part_without_a_number_fills_the_program(self) -> None:
        made = slots_of([[1, [[0xB7, 0, 0, 0, 1]]], [0, [[0x07, 0, 0, [4, -2, 3], [1, 1, 4096]]]], [1, [[0x95, 0, 0, 0, 0]]]])
        self.assertEqual(len(made), 4096 * 8)
        self.assertEqual(struct.unpack_from("<BBhi", made, 8 * 3), (0x07, 0, 0, 3))

    def test_a_longer_program_is_no_case(self) -> None:
        with self.assertRaises(NoCase):
            slots_of([[4097, [[0x95, 0, 0, 0, 0]]]])

    def test_a_new_object_gets_the_lowest_free_descriptor(self) -> None:
        builder = Builder()
        for command in (["create", 1, 4, 8, 1], ["create", 1, 8, 8, 2], ["close", 3], ["create", 1, 16, 8, 3]):
            builder.frame(command)
        self.assertEqual(builder.shapes, {3: [1, 16, 8, 3], 4: [1, 8, 8, 2]})
        with self.assertRaises(NoCase):
            builder.shape(5)

    def test_edits_make_cases_or_none(self) -> None:
        drawn, made = random.Random(7), 0
        cases = all_cases()
        for case in (cases[name] for name in ("load", "close", "update", "run", "batch")):
            for _ in range(20):
                other = edited(drawn, case)
                try:
                    made += len(script(other)) > 0
                except (NoCase, struct.error):
                    continue
        self.assertGreater(made, 20)


class Checks(unittest.TestCase):
    """What --check prints of a case that was kept at 100 machine instructions."""

    def printed(self, instructions: float, has_valgrind: bool) -> tuple[bool, str]:
        cases = {"one": Case("update", "", [], ["create", 1, 4, 8, 1], 100)}
        bench = Mock(instructions=Mock(return_value=instructions))
        with patch("worst_costs.table.can_count", return_value=has_valgrind), redirect_stdout(StringIO()) as said:
            return check(bench, cases), said.getvalue()

    def test_a_tenth_more_is_allowed(self) -> None:
        self.assertEqual(self.printed(110, True), (True, "worst: 1 cases are no dearer than they were\n"))

    def test_a_dearer_step_is_a_fault(self) -> None:
        is_good, said = self.printed(111, True)
        self.assertEqual((is_good, said), (False, "worst: one takes 111 machine instructions, and took 100\n"))

    def test_without_valgrind_it_prints_what_is_left_out(self) -> None:
        is_good, said = self.printed(111, False)
        self.assertTrue(is_good)
        self.assertIn("left out, as valgrind is missing: apt-get install valgrind", said)
        self.assertNotIn("dearer", said)

    def test_colliding_keys_are_left_out(self) -> None:
        cases = all_cases()
        left_out = {name for name, case in cases.items() if not is_checked(case)}
        self.assertTrue(left_out)
        self.assertTrue(all(cases[name].knows_seed for name in left_out))


class Rounds(unittest.TestCase):
    def test_interrupted_rounds_do_not_count(self) -> None:
        times = Times.of([Round(10, 12, 11, 0), Round(11, 13, 12, 0), Round(900, 902, 11, 1)])
        self.assertEqual((times.step, times.beside, times.is_processor_time), (10.5, (12.5, 13, 13), False))

    def test_if_most_are_interrupted_processor_time_counts(self) -> None:
        times = Times.of([Round(10, 12, 11, 0), Round(800, 802, 20, 1), Round(900, 902, 30, 2)])
        self.assertEqual((times.step, times.is_processor_time), (20, True))


if __name__ == "__main__":
    unittest.main()
