"""The report: its blocks, what it counts, and the page."""

from __future__ import annotations

import random
import re
import struct
import subprocess
import sys
import unittest
from collections import Counter
from html.parser import HTMLParser
from pathlib import Path

from bpfhost import Host
from bpfhost.built import built
from bpfhost.classic import libpcap
from bpfhost.command import main
from bpfhost.loading import load_program, lowered_program
from bpfhost.lowering import LoweringError, as_is
from bpfhost.objects import ObjectFile, ObjectProgram
from bpfhost.report import gathered, page
from bpfhost.report.blocks import blocks_of
from bpfhost.report.counting import countings
from bpfhost.report.folding import boxes_of, edges_of, shown_slots
from bpfhost.report.gathering import absolute
from tests.common import PROGRAM
from tests.lowering.common import LoweringTest, object_of, only
from tests.lowering.interpreter import Faulty, Machine
from tests.lowering.test_forms import random_object

SAMPLE = Path(__file__).parents[3] / "examples/capture/sample.pcap"
PACKETS = tuple(bytes((5 * at + size) % 256 for at in range(size)) for size in (0, 1, 7, 16, 33, 64))
PROGRAMS = 40
LOOP = "r6 = *(u32 *)(r1 + 0)\nr0 = 0\nr7 = 0\nloop:\nr0 += r7\nif r0 == r6 goto end\nr7 += 1\nif r7 != 6 goto loop\nr0 += 9\nend:\nexit"
_VOID = {"meta", "rect", "path"}


class Reader(HTMLParser):
    """Reads a page: its text, and whether all elements are closed in order."""

    def __init__(self) -> None:
        super().__init__()
        self.open: list[str] = []
        self.names: set[str] = set()
        self.text = ""

    def handle_starttag(self, tag: str, attrs: list[tuple[str, str | None]]) -> None:
        self.names.add(tag)
        if tag not in _VOID:
            self.open.append(tag)

    def handle_startendtag(self, tag: str, attrs: list[tuple[str, str | None]]) -> None:
        self.names.add(tag)

    def handle_endtag(self, tag: str) -> None:
        if not self.open or self.open.pop() != tag:
            raise AssertionError(f"{tag} is closed out of order")

    def handle_data(self, data: str) -> None:
        self.text += data


class Blocks(LoweringTest):
    def test_blocks_and_edges(self) -> None:
        blocks = blocks_of(only(object_of(f="r0 = *(u32 *)(r1 + 0)\nif r0 > 4 goto +2\nr1 = 5 ll\nr0 = 1\nexit")).slots)
        self.assertEqual([(each.slots, each.taken, each.next) for each in blocks], [((0, 1), 2, 1), ((2,), None, 2), ((4, 5), None, None)])

    def test_a_program_that_is_damaged(self) -> None:
        blocks = blocks_of(only(object_of(f="if r0 == 1 goto +9\ngoto -2\nr0 = 1")).slots)
        self.assertEqual([(each.slots, each.taken, each.next) for each in blocks], [((0,), None, 1), ((1,), None, 0), ((2,), None, None)])

    def test_copies_are_folded(self) -> None:
        found = object_of(f=LOOP)
        lowered = self.accepted(found)
        blocks = blocks_of(lowered.program.slots)
        boxes = boxes_of(blocks, lowered)
        self.assertEqual(sorted(number for box in boxes for number in box.blocks), list(range(len(blocks))))
        self.assertEqual([(len(box.blocks), box.first_copy, box.copies) for box in boxes if box.copies > 1], [(1, 1, 5), (4, 2, 5)])
        folded = next(at for at, box in enumerate(boxes) if box.is_folded)
        self.assertTrue(all(edge.begin != edge.end for edge in edges_of(blocks, boxes)))
        self.assertIn(folded, [edge.end for edge in edges_of(blocks, boxes)])

    def test_long_blocks(self) -> None:
        block = blocks_of(only(object_of(f="r0 = 1\n" * 9 + "exit")).slots)[0]
        self.assertEqual(shown_slots(block), [0, 1, "… 6 more", 8, 9])
        self.assertEqual(shown_slots(block, [4]), [0, 1, "… 2 more", 4, "… 3 more", 8, 9])

    def test_absolute_targets(self) -> None:
        self.assertEqual(absolute(4, "if r1 > 5 goto +2"), "if r1 > 5 goto 7")
        self.assertEqual(absolute(9, "gotol -3"), "gotol 7")


class Counts(LoweringTest):
    def test_sums_are_those_of_the_interpreter(self) -> None:
        chance, compared = random.Random(92), 0
        with Host(PROGRAM) as host:
            for _ in range(PROGRAMS):
                found = random_object(chance)
                try:
                    lowered = lowered_program(PROGRAM, found, only(found))
                except LoweringError:
                    continue
                compared += self.compare(host, found, lowered.program)
        self.assertGreater(compared, 5 * PROGRAMS)

    def compare(self, host: Host, found: ObjectFile, program: ObjectProgram) -> int:
        """The counts of each block for some packets; returns how many blocks were compared."""
        blocks = blocks_of(program.slots)
        visited, results = self.interpreted(program)
        counts: dict[int, int] = {}
        for copy in countings(found, program, blocks) if visited else ():
            loaded = load_program(host.tenant(), copy.object_file, as_is(copy.program))
            self.assertEqual([host.tenant().prog_test_run(loaded.descriptor, packet) for packet in PACKETS], results)
            counts |= copy.counts(loaded.maps[-1].map[bytes(4)])
            host.tenant().close(loaded.descriptor)
            loaded.maps[-1].map.tenant.close(loaded.maps[-1].map.descriptor)
        self.assertEqual(counts, {number: visited[blocks[number].slots[-1]] for number in counts})
        return len(counts)

    def interpreted(self, program: ObjectProgram) -> tuple[Counter[int], list[int]]:
        """How often the interpreter comes to each slot, for all packets, and its results; nothing if it does not run the program."""
        machine, results = Machine((), b""), list[int]()
        for packet in PACKETS:
            machine.packet, machine.steps, machine.memory = packet, 0, {}
            try:
                results.append(machine.run(program))
            except Faulty:
                return Counter(), []
        return machine.visited, results

    def test_several_copies_count_what_has_no_room_in_one(self) -> None:
        turns = "".join(f"if r6 > {at} goto l{at}\nr0 += 1\nl{at}:\n" for at in range(700))
        found = object_of(f=f"r6 = *(u32 *)(r1 + 0)\nr0 = 0\n{turns}exit")
        program = only(found)
        copies = countings(found, program, blocks_of(program.slots))
        self.assertEqual(len(copies), 3)
        with Host(PROGRAM) as host:
            self.assertEqual(self.compare(host, found, program), len(blocks_of(program.slots)))

    def test_a_program_without_room(self) -> None:
        found = object_of(f="r0 = 1\n" * 4095 + "exit")
        self.assertEqual(countings(found, only(found), blocks_of(only(found).slots)), [])


class Page(LoweringTest):
    def read(self, found: ObjectFile) -> Reader:
        text = page(gathered(PROGRAM, found, only(found)))
        reader = Reader()
        reader.feed(text)
        self.assertEqual(reader.open, [])
        self.assertEqual(reader.names & {"script", "link", "img", "iframe"}, set())
        self.assertIsNone(re.search(r"https?://|@import", text))
        return reader

    def test_an_accepted_program(self) -> None:
        text = self.read(object_of(f=LOOP)).text
        for part in ("accepted in another form", "loops are unrolled", "copies 2 to 5, as slots", "r0 += r7", "f.c:5", "if r0 == r6 goto "):
            self.assertIn(part, text)

    def test_a_rejected_program(self) -> None:
        text = self.read(object_of(f="r0 = r5\nexit")).text
        self.assertIn("refused: f.c:1: r0 = r5 (slot 0: an unreadable register is read, reason 20)", text)
        self.assertIn("give the variable a value on each path", text)

    def test_a_program_without_a_form(self) -> None:
        text = self.read(object_of(f="r6 = *(u32 *)(r1 + 0)\nr0 = 0\nagain:\nr0 += 3\nif r0 < r6 goto again\nexit")).text
        for part in ("refused: ", "no bound of this loop", "r0 += 3", "f.c:4", "if 2"):
            self.assertIn(part, text)

    def test_names_are_text(self) -> None:
        found = object_of(f="r0 = 1 // <b>&\nexit")
        named = ObjectFile("<i>.o", (ObjectProgram("<s>", "<f>", only(found).slots, (), ()),), (), None)
        self.assertIn("<f>", self.read(named).text)
        self.assertNotIn("i", self.read(named).names)


class Command(LoweringTest):
    def test_a_capture(self) -> None:
        found = object_of(f="r0 = *(u32 *)(r1 + 0)\nif r0 > 100 goto +1\nr0 = 0\nexit")
        source, output = self.scratch / "built.json", self.scratch / "page.html"
        source.write_text(built(found, as_is(only(found))))
        self.assertEqual(main(["report", "--bpfhost", PROGRAM, str(source), str(SAMPLE), "-o", str(output)]), 0)
        text = output.read_text()
        for part in ("235 packets", "slots 0 to 1", "if 3"):
            self.assertIn(part, text)
        counts = [int(each.replace(",", "")) for each in re.findall(r'class="count"[^>]*>([\d,]+) packets?<', text)]
        self.assertEqual((counts[0], counts[2]), (235, 235))
        self.assertTrue(0 < counts[1] < 235)

    def test_a_rejected_one(self) -> None:
        found = object_of(f="r0 = r5\nexit")
        source, output = self.scratch / "built.json", self.scratch / "page.html"
        source.write_text(built(found, as_is(only(found))))
        self.assertEqual(main(["report", "--bpfhost", PROGRAM, str(source), str(SAMPLE), "-o", str(output)]), 1)
        self.assertIn("reason 20", output.read_text())
        self.assertEqual(main(["report", "--bpfhost", PROGRAM, str(source), "-o", str(source)]), 1)

    def test_standard_input_and_output(self) -> None:
        found = object_of(f="r0 = *(u32 *)(r1 + 0)\nexit")
        source = self.scratch / "built.json"
        source.write_text(built(found, as_is(only(found))))
        call = [sys.executable, "-m", "bpfhost", "report", "--bpfhost", PROGRAM, str(source), "-", "-o", "-"]
        with SAMPLE.open("rb") as capture:
            ended = subprocess.run(call, stdin=capture, capture_output=True, text=True, check=False)
        self.assertEqual(ended.returncode, 0, ended.stderr)
        self.assertIn("<p>235 packets, 234 kept", ended.stdout)
        self.assertFalse(Path("-").exists())

    def test_a_capture_that_is_cut_off(self) -> None:
        found = object_of(f="r0 = 1\nexit")
        source, capture, output = (self.scratch / name for name in ("built.json", "cut.pcap", "page.html"))
        source.write_text(built(found, as_is(only(found))))
        capture.write_bytes(SAMPLE.read_bytes()[:1000])
        self.assertEqual(main(["report", "--bpfhost", PROGRAM, str(source), str(capture), "-o", str(output)]), 1)
        self.assertIn("it is cut off in packet", output.read_text())

    @unittest.skipUnless(libpcap.is_there(), "libpcap0.8 is missing")
    def test_a_filter_gets_packets_as_run_gives_them(self) -> None:
        capture, output = self.scratch / "null.pcap", self.scratch / "page.html"
        # Packets of the link type NULL, with the number that macOS has for IPv6; of the second one the capture has 4 bytes of 40.
        packets = ((30, 24, 24), (30, 4, 40), (2, 24, 24))
        records = [struct.pack("<4I4s", 1, 0, size, wire, bytes((family, 0, 0, 0))) + bytes(size - 4) for family, size, wire in packets]
        capture.write_bytes(struct.pack("<IHHiIII", 0xA1B2C3D4, 2, 4, 0, 0, 65535, 0) + b"".join(records))
        for expression, kept in (("ip6", 2), ("greater 40", 1), ("ip6[0] = 0", 1)):
            self.assertEqual(main(["report", "--bpfhost", PROGRAM, "--filter", expression, str(capture), "-o", str(output)]), 0)
            self.assertIn(f"<p>3 packets, {kept} kept", output.read_text(), expression)
        words = ["report", "--bpfhost", PROGRAM, "--filter", "ip6", "--link-type", "NULL", "-o", str(output)]
        self.assertEqual(main(words), 0)
