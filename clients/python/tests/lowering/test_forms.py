"""Forms of random programs: the result of each on the host equals that of its program in the interpreter; and how long lowering takes."""

from __future__ import annotations

import random
import time
from collections import Counter

from bpfhost import Host
from bpfhost.loading import lowered_program
from bpfhost.lowering import LoweringError, lower
from bpfhost.objects import ObjectFile
from tests.common import PROGRAM
from tests.lowering.common import LoweringTest, object_of, only
from tests.lowering.interpreter import Faulty, result_of

PROGRAMS = 150
PACKETS = tuple(bytes((7 * at + size) % 256 for at in range(size)) for size in (0, 1, 3, 8, 21, 64))
# Lowering of 1,000 slots takes at most 200 ms; a busy machine gets more.
SECONDS, SLACK = 0.2, 3


class Writer:
    """Writes random functions: straight lines, branches in any order, counted loops, places in the stack, calls."""

    def __init__(self, chance: random.Random, calls: list[str]) -> None:
        self._chance = chance
        self._calls = calls
        self._labels = 0
        self._lines: list[str] = []
        self._moved: list[list[str]] = []

    def function(self, depth: int) -> str:
        """The text of a function, with blocks that are moved after its exit."""
        self._lines += ["r6 = *(u32 *)(r1 + 0)" if depth == 0 else "r6 = r1", "r7 = 3", "r8 = 4", "r0 = 5"]
        self._lines += [f"*(u64 *)(r10 - {8 * at}) = {at}" for at in (1, 2)]
        if depth == 0:
            self._lines += ["r9 = r6"]
        else:
            self._lines += ["r9 = 6"]
        self._block(3)
        self._lines += ["r0 += r7", "r0 ^= r8", "exit"]
        for block in self._moved:
            self._lines += block
        return "\n".join(self._lines)

    def _label(self) -> str:
        self._labels += 1
        return f"label{self._labels}"

    def _block(self, depth: int) -> None:
        for _ in range(self._chance.randrange(1, 5)):
            kind = self._chance.randrange(8) if depth else 0
            if kind < 4:
                self._line()
            elif kind < 6:
                self._branch(depth)
            elif kind == 6:
                self._loop(depth)
            elif self._calls:
                self._call()

    def _line(self) -> None:
        dst, src = self._chance.choice(("r0", "r7", "r8")), self._chance.choice(("r0", "r6", "r7", "r8", str(self._chance.randrange(99))))
        operator = self._chance.choice(("+=", "-=", "*=", "^=", "|=", "&="))
        place = 8 * self._chance.choice((1, 2))
        self._lines.append(
            self._chance.choice((f"{dst} {operator} {src}", f"*(u64 *)(r10 - {place}) = {dst}", f"{dst} = *(u64 *)(r10 - {place})"))
        )

    def _branch(self, depth: int) -> None:
        compared, label, behind = self._chance.choice(("r0", "r6", "r7", "r8")), self._label(), self._label()
        condition = f"{compared} {self._chance.choice(('==', '!=', '>', '<=', 's<', '&'))} {self._chance.randrange(60)}"
        self._lines.append(f"if {condition} goto {label}")
        if self._chance.random() < 0.5:
            self._block(depth - 1)
        self._lines.append(f"{behind}:")
        outer, self._lines = self._lines, [f"{label}:"]
        self._block(depth - 1)
        self._lines.append(f"goto {behind}")
        self._moved.append(self._lines)
        self._lines = outer

    def _loop(self, depth: int) -> None:
        # The counter is below the offsets that other lines write.
        place, label, turns = 16 + 8 * depth, self._label(), self._chance.randrange(1, 5)
        self._lines += [f"*(u64 *)(r10 - {place}) = 0", f"{label}:"]
        self._block(depth - 1)
        self._lines += [f"r1 = *(u64 *)(r10 - {place})", "r1 += 1", f"*(u64 *)(r10 - {place}) = r1", f"if r1 != {turns} goto {label}"]

    def _call(self) -> None:
        self._lines += [f"r1 = {self._chance.choice(('r0', 'r6', 'r7'))}", f"call {self._chance.choice(self._calls)}"]
        self._lines.append(self._chance.choice(("r7 += r0", "r8 ^= r0", "r9 += r0", "r0 += r9")))


def random_object(chance: random.Random) -> ObjectFile:
    """An object with a program, and two functions that it may call."""
    names = ["inner", "innermost"]
    functions = {"f": Writer(chance, names).function(0)}
    functions["inner"] = Writer(chance, names[1:]).function(1)
    functions["innermost"] = Writer(chance, []).function(2)
    return object_of((), **functions)


class RandomPrograms(LoweringTest):
    def test_they_answer_what_they_are(self) -> None:
        chance = random.Random(411)
        counts: Counter[str] = Counter()
        with Host(PROGRAM) as host:
            tenant = host.tenant()
            for number in range(PROGRAMS):
                found = random_object(chance)
                try:
                    lowered = lowered_program(PROGRAM, found, only(found))
                except LoweringError as error:
                    self.assertIn("4,096 slots", str(error))
                    counts["too long"] += 1
                    continue
                text = self.text(lowered)
                self.assertIsNone(lowered.refused, f"program {number}: {lowered.refused}\n{text}")
                descriptor = tenant.prog_load(lowered.program.slots)
                for packet in PACKETS:
                    try:
                        wanted = result_of(found, packet)
                    except Faulty:
                        counts["faulty"] += 1
                        continue
                    self.assertEqual(tenant.prog_test_run(descriptor, packet), wanted, f"program {number}\n{text}")
                    counts["run"] += 1
                tenant.close(descriptor)
        self.assertGreater(counts["run"], 3 * PROGRAMS, counts)
        self.assertEqual(counts["faulty"], 0)


class Speed(LoweringTest):
    def seconds(self, found: ObjectFile) -> float:
        """The processor time of lowering without the verdicts, the least of some tries."""
        times = []
        for _ in range(5):
            begun = time.process_time()
            lower(found, only(found), self.verdict)
            times.append(time.process_time() - begun)
        return min(times)

    def verdict(self, form: object) -> tuple[int, int] | None:
        return None if form is not self.first else (0, 2)

    def test_thousand_slots(self) -> None:
        far = "".join(f"far{at}:\nr0 ^= {at}\ngoto back{at}\n" for at in range(100))
        line = "r0 += {0}\nr0 *= 3\nr0 -= r6\nr0 |= 1\nif r0 > {0} goto far{0}\nback{0}:\nr0 &= r6\nr0 <<= 1\n"
        body = "".join(line.format(at) for at in range(100))
        found = object_of(f=f"r6 = *(u32 *)(r1 + 0)\nr0 = 1\n{body}exit\n{far}")
        self.first = only(found)
        self.assertGreater(len(only(found).slots), 8 * 900)
        self.assertLess(self.seconds(found), SECONDS * SLACK)

    def test_a_loop_of_thousand_slots(self) -> None:
        turn = "r0 ^= r6\nr0 += 3\nif r0 == 5 goto end\nr6 += 1\nif r6 != 250 goto loop"
        found = object_of(f=f"r0 = *(u32 *)(r1 + 0)\nr6 = 0\nloop:\n{turn}\nend:\nexit")
        self.first = only(found)
        self.assertEqual(len(lower(found, only(found), self.verdict).program.slots) // 8, 1003)
        self.assertLess(self.seconds(found), SECONDS * SLACK)
